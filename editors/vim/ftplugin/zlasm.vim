" A text of zlab's assembler: comments begin with a semicolon, and a tab is refused.
if exists("b:did_ftplugin")
  finish
endif
let b:did_ftplugin = 1

setlocal comments=:; commentstring=;\ %s
setlocal expandtab softtabstop=4 shiftwidth=4

let b:undo_ftplugin = "setlocal comments< commentstring< expandtab< softtabstop< shiftwidth<"
