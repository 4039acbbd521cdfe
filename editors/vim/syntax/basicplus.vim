" Vim syntax file: BASIC-PLUS as rsts runs it. Made by editors/make from the words in the sources. Do not edit.
if exists('b:current_syntax')
  finish
endif
syntax case ignore

syntax match basicplusName /\a\d\=[%$]/
syntax match basicplusFloating /\a\d\=[%$]\@!/
syntax match basicplusNumber /\d\+%\=/
syntax match basicplusFloating /\d\+\.\d*\%(E[+-]\=\d\+\)\=\|\d\+E[+-]\=\d\+/
syntax match basicplusStatement /\%(CLUSTERSIZE\|RECORDSIZE\|RESTORE\|OUTPUT\|RECORD\|RESUME\|RETURN\|UNLESS\|UNLOCK\|CHAIN\|CLOSE\|ERROR\|FIELD\|FNEND\|GOSUB\|INPUT\|PRINT\|SLEEP\|UNTIL\|USING\|WHILE\|ELSE\|FILE\|GOTO\|KILL\|LINE\|LSET\|MODE\|NAME\|NEXT\|OPEN\|READ\|RSET\|STEP\|STOP\|THEN\|CON\|DEF\|DIM\|END\|FOR\|GET\|IDN\|LET\|MAT\|PUT\|SUB\|TAB\|TRN\|ZER\|AS\%(CII\)\@!\|GO\|IF\|ON\|TO\)/
syntax match basicplusOperator /\%(AND\|EQV\|IMP\|NOT\|XOR\|OR\)/
syntax match basicplusFunction /\%(RECOUNT\|STRING\$\|RIGHT\$\|SPACE\$\|ASCII\|CVT\$%\|CVT%\$\|INSTR\|LEFT\$\|NUM1\$\|RIGHT\|SWAP%\|XLATE\|ABS%\|CHR\$\|LEFT\|MID\$\|NUM\$\|ERL\|ERR\%(OR\)\@!\|LEN\|MID\|POS\|SGN\|SYS\|VAL\)/
syntax match basicplusUser /FN\a\d\=[%$]/
syntax match basicplusLine /^\s*\d\+/
syntax region basicplusText start=/"/ end=/"/ oneline
syntax region basicplusText start=/'/ end=/'/ oneline
syntax match basicplusData /DATA.*$/
syntax match basicplusComment /REM.*$/
syntax match basicplusComment /!.*$/

highlight default link basicplusName Identifier
highlight default link basicplusFloating Error
highlight default link basicplusNumber Number
highlight default link basicplusStatement Statement
highlight default link basicplusOperator Operator
highlight default link basicplusFunction Function
highlight default link basicplusUser Function
highlight default link basicplusLine LineNr
highlight default link basicplusText String
highlight default link basicplusData Constant
highlight default link basicplusComment Comment

let b:current_syntax = 'basicplus'
