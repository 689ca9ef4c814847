" A scenario of zlab: comments begin with a number sign at the start of a line.
if exists("b:did_ftplugin")
  finish
endif
let b:did_ftplugin = 1

setlocal comments=b:# commentstring=#\ %s
setlocal expandtab softtabstop=4 shiftwidth=4

let b:undo_ftplugin = "setlocal comments< commentstring< expandtab< softtabstop< shiftwidth<"
