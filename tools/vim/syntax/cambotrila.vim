" Syntax of the texts of beam: scripts, reports and event lists.
if exists("b:current_syntax")
  finish
endif

syntax match beamHead "^beam \(script\|report\|progress\) 1$"
syntax match beamPart "^\(module\|end\|export\|local\|label\|observer\|loader\|go\|generations\|process\|span\|snapshot\|end report\)\>"
syntax match beamCommand "^\(load\|delete\|soft_purge\|purge\|check_old\|put\|erase\|trace\|spawn\)\>"
syntax match beamInstruction "^\(move\|add\|sub\|eq\|less\|jump\|call\|call_ext\|ret\|pget\|pget_or\|elem\|print\|yield\)\>"
syntax match beamEntry "^entry \(L\d\+\|rt\)\>"
syntax match beamEvent "^\(members\|watchers\|load_counter\|load_root\|report\|lead\|advance\|give_up\|scan\|scan_delay\|wait\|enter\|publish\|retire\|release\|watch_load\|watch_root\|watch_add\|watch_sub\)\>"
syntax match beamEnd "^end \(normal\|undef\|badarg\|badarith\|system_limit\|killed\)\>"
syntax match beamRefused "\<\(not_purged\|duplicated\|system_limit\)\>"
syntax match beamGeneration "@\d\+$"
syntax match beamFunction "\<\l\w*:\l\w*\>"
syntax match beamRegister "\$\d\+\>"
syntax match beamNumber "\(\w\)\@<!-\?\d\+\>"
syntax match beamFault "\s\+$\|^\s\+\|\t\|\r\|  "

highlight default link beamHead PreProc
highlight default link beamPart Statement
highlight default link beamCommand Keyword
highlight default link beamInstruction Operator
highlight default link beamEntry Type
highlight default link beamEvent Keyword
highlight default link beamEnd Special
highlight default link beamRefused WarningMsg
highlight default link beamGeneration Constant
highlight default link beamFunction Function
highlight default link beamRegister Identifier
highlight default link beamNumber Number
highlight default link beamFault Error

let b:current_syntax = "cambotrila"
