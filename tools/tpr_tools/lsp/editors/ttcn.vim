" Syntax file for scripts of tpr, a part of TTCN-3.
if exists("b:current_syntax") | finish | endif
syn keyword ttcnType boolean charstring component integer port record
syn keyword ttcnConstant error fail false inconc infinity mtc none pass self system true
syn keyword ttcnOperation check clear connect create done halt map receive send setverdict start stop trigger
syn keyword ttcnKeyword all alt else for from function message module sender testcase to
syn keyword ttcnKeyword complement in inout of on out pattern runs type value var
syn match ttcnNumber "\<\d\+\>"
syn region ttcnString start=+"+ skip=+""+ end=+"+ oneline
syn match ttcnComment "//.*$"
syn region ttcnComment start="/\*" end="\*/"
hi def link ttcnType Type
hi def link ttcnConstant Constant
hi def link ttcnOperation Function
hi def link ttcnKeyword Keyword
hi def link ttcnNumber Number
hi def link ttcnString String
hi def link ttcnComment Comment
let b:current_syntax = "ttcn"
