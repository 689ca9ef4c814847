" Scenarios of zlab, with assembler text or hexadecimal digits in the blocks of their programs.
if exists("b:current_syntax")
  finish
endif

syntax case match
syntax include @zlsAsm <sfile>:p:h/zlasm.vim
unlet! b:current_syntax

syntax match zlsNumber /\<\d\+\>/
" A first word that nothing below knows. What is defined later is tried first.
syntax match zlsUnknown /\%(^ *\)\@<=[^ ]\+/
syntax match zlsStatement /\%(^ *\)\@<=\%(process\|job\|policy\|limit\)\>/
" An object stands alone on its line.
syntax match zlsStatement /^ *\%(event\|port\|channel\|eventpair\) *$/
" A handle: the rights for `*` too.
syntax match zlsRights /\%(:\)\@<=\*\%( \|$\)\@=/

" A program's block, up to the one word `end`.
syntax region zlsAsmBlock matchgroup=zlsProgram start=/^ *program \+\%(raw\|checked\) \+asm *$/ end=/^ *end *$/ keepend contains=@zlsAsm,zlsComment
syntax region zlsHexBlock matchgroup=zlsProgram start=/^ *program \+\%(raw\|checked\) \+hex *$/ end=/^ *end *$/ keepend contains=zlsDigits,zlsComment,zlsError
syntax match zlsError /[^0-9a-f ]/ contained
syntax match zlsDigits /[0-9a-f]\+/ contained

" The schedule: pairs of a process and its turns.
syntax region zlsSchedule matchgroup=zlsProgram start=/^ *-- *$/ end=/\%$/ contains=zlsTurns,zlsPid,zlsNumber,zlsComment,zlsBlank,zlsForeign
syntax match zlsTurns /\%(^ *\)\@<=[^ ]\+/ contained
syntax match zlsPid /\%(^ *\)\@<=\d\+\>/ contained

" Only spaces part words.
syntax match zlsBlank /[\t\r]/
syntax match zlsForeign /[^\x00-\x7f]/
syntax match zlsComment /^#.*/ contains=zlsForeign,zlsTodo
syntax keyword zlsTodo TODO FIXME contained

syntax sync fromstart

highlight default link zlsNumber Number
highlight default link zlsStatement Statement
highlight default link zlsProgram PreProc
highlight default link zlsDigits Number
highlight default link zlsRights Number
highlight default link zlsPid Identifier
highlight default link zlsUnknown Error
highlight default link zlsTurns Error
highlight default link zlsError Error
highlight default link zlsBlank Error
highlight default link zlsForeign Error
highlight default link zlsComment Comment
highlight default link zlsTodo Todo

let b:current_syntax = "zls"
