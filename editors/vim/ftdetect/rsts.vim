" Which files are programs and decks of rsts. Made by editors/make from the words in the sources. Do not edit.
autocmd BufRead,BufNewFile *.BAS,*.bas set filetype=basicplus
autocmd BufRead,BufNewFile deck,*.deck if getline(1) =~# '^RSTS-DECK \|^\s*!' || getline(1) ==# '' | set filetype=rstsdeck | endif
