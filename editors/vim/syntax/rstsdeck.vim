" Vim syntax file: a deck of rsts. Made by editors/make from the words in the sources. Do not edit.
if exists('b:current_syntax')
  finish
endif
syntax include @rstsdeckBasic syntax/basicplus.vim
unlet! b:current_syntax
syntax case match

syntax match rstsdeckOther /^.*$/
syntax match rstsdeckHead /^\%(RSTS-DECK\|TERMINAL\|ACCOUNT\|DISK\|FILE\|END\)\%([ ].*\)\=$/ contains=rstsdeckWord,rstsdeckNumber,rstsdeckFile
syntax match rstsdeckWord /^\%(RSTS-DECK\|TERMINAL\|ACCOUNT\|DISK\|FILE\|END\)/ contained
syntax match rstsdeckFile /\[\d\+,\d\+\][A-Za-z0-9.]*<\d\+>/ contained
syntax match rstsdeckNumber /\<\d\+\>/ contained
syntax region rstsdeckKeys matchgroup=rstsdeckMark start=/^>/ end=/$/ oneline keepend contains=@rstsdeckBasic,rstsdeckCommand
syntax match rstsdeckBytes /^=\%(\x\x\)*$/
syntax match rstsdeckInclude /^@.\+$/
syntax match rstsdeckComment /^\s*!.*$/
syntax match rstsdeckCommand /\%(^>\)\@<=\c\%(DEASSIGN\|REPLACE\|ASSIGN\|DELETE\|LISTNH\|RENAME\|UNSAVE\|HELLO\|RUNNH\|CONT\|LIST\|SAVE\|BYE\|CAT\|NEW\|OLD\|QUE\|RUN\)\a\@!.*$/ contained

highlight default link rstsdeckOther Error
highlight default link rstsdeckWord Keyword
highlight default link rstsdeckFile Identifier
highlight default link rstsdeckNumber Number
highlight default link rstsdeckMark Special
highlight default link rstsdeckBytes String
highlight default link rstsdeckInclude Include
highlight default link rstsdeckComment Comment
highlight default link rstsdeckCommand PreProc

let b:current_syntax = 'rstsdeck'
