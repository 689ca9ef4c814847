" Assembler texts and scenarios of zlab.
autocmd BufNewFile,BufRead *.zasm setfiletype zlasm
autocmd BufNewFile,BufRead *.zls setfiletype zls
