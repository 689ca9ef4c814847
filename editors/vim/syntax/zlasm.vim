" Texts of zlab's assembler (docs/ASSEMBLER.md), also within the blocks of a scenario.
if exists("b:current_syntax")
  finish
endif

syntax case match

" A first word that nothing below knows. What is defined later is tried first.
syntax match zlasmError /\%(^ *\)\@<=[^ ;]\+/

syntax match zlasmNumber /\<\d\+\>/
syntax match zlasmNumber /\<0x\x\+\>/
syntax match zlasmRegister /\<r\%(\d\|[12]\d\|3[01]\)\>/
syntax match zlasmError /\<r\%(0\d\+\|3[2-9]\|[4-9]\d\|\d\{3,}\)\>/

" Directives, with the words that stand behind them.
syntax match zlasmDirective /\%(^ *\)\@<=\.\%(version\|raw\|memory\|budget\)\>/
syntax match zlasmDirective /\%(^ *\)\@<=\.need\>/ nextgroup=zlasmCondition skipwhite
syntax match zlasmDirective /\%(^ *\)\@<=\.\%(start\|slots\)\>/ nextgroup=zlasmKind skipwhite
syntax match zlasmDirective /\%(^ *\)\@<=\.bytes\>/ nextgroup=zlasmBytes skipwhite
syntax match zlasmCondition /\<NEW_\%(CHANNEL\|EVENT\|EVENTPAIR\|PORT\|PROCESS\)\>/ contained
syntax match zlasmKind /\<\%(process\|channel\|event\|port\|eventpair\|job\|any\)\>/ contained
syntax match zlasmBytes /\<\x\{32}\>/ contained

" Local instructions and calls.
syntax match zlasmLocal /\%(^ *\)\@<=\%(const\|mov\|addi\|add\|sub\|and\|or\|xor\|shl\|shr\|take\|swap\|ld8\|ld64\|st8\|st64\|rep\) \@=/
syntax match zlasmLocal /\%(^ *\)\@<=\%(endrep\)\%( *\%(;.*\)\=$\)\@=/
syntax match zlasmCall /\%(^ *\)\@<=\%(close\|dup\|replace\|chan_create\|chan_write\|chan_read_etc\|event_create\|signal\|signal_peer\|wait_one\|wait_poll\|wait_async\|port_create\|port_queue\|port_wait\|port_poll\|port_cancel\|process_create\|process_start\|process_exit\|task_kill\|job_create\|job_set_policy\|eventpair_create\|chan_write_slots\|chan_read_slots\|handle_info\) \@=/

" A jump, whose last word may be a label that looks like a register.
syntax region zlasmJump start=/\%(^ *\)\@<=j\%(mp\|z\|nz\|eq\|ne\|lt\|ge\|has\|nhas\) \@=/ end=/$/ oneline keepend contains=zlasmJumpName,zlasmRegister,zlasmNumber,zlasmTarget,zlasmComment,zlasmError
syntax match zlasmJumpName /\%(^ *\)\@<=j\l\+ \@=/ contained
syntax match zlasmTarget /\<\l[a-z0-9_]\{,31}\>\%( *\%(;.*\)\=$\)\@=/ contained

" A label stands alone on its line.
syntax match zlasmLabel /\%(^ *\)\@<=\l[a-z0-9_]\{,31}:\%( *\%(;.*\)\=$\)\@=/

" Tabs, carriage returns and all that isn't ASCII are no part of the grammar.
syntax match zlasmError /[\t\r]/
syntax match zlasmForeign /[^\x00-\x7f]/
syntax match zlasmComment /;.*/ contains=zlasmForeign,zlasmTodo
syntax keyword zlasmTodo TODO FIXME contained

highlight default link zlasmError Error
highlight default link zlasmForeign Error
highlight default link zlasmNumber Number
highlight default link zlasmRegister Identifier
highlight default link zlasmDirective PreProc
highlight default link zlasmCondition Constant
highlight default link zlasmKind Type
highlight default link zlasmBytes Number
highlight default link zlasmLocal Statement
highlight default link zlasmJumpName Statement
highlight default link zlasmCall Function
highlight default link zlasmLabel Label
highlight default link zlasmTarget Label
highlight default link zlasmComment Comment
highlight default link zlasmTodo Todo

let b:current_syntax = "zlasm"
