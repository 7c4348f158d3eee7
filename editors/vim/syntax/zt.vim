" Scripts of zt. Written by tools/write_grammar.
if exists('b:current_syntax')
  finish
endif

syntax match ztKey /\v%(expr\=)@<=[^ ]+| @<=[^ =]*[\/*@][^ =]*%( |$)@=/
highlight default link ztKey String
syntax match ztNumber /\v[ =]@<=[0-9]+%( |$)@=/
highlight default link ztNumber Number
syntax match ztConstant /\v @<=%(south[0-9]+-%(router|peer|client)|router|peer|client|north|south|local|fwd|back|current-future|current|future)%( |$)@=/
highlight default link ztConstant Constant
syntax match ztOption /\v @<=%(back|children|expr|first|interest|links|name|node|refuse|regions|routers|south|timeout)\=@=/
highlight default link ztOption Identifier
syntax match ztWord /\v^%(interest-final|declare-final|undeclare|interest|entities|gateway|session|declare|unlink|moment|close|trees|face|link|step)%( |$)@=/
highlight default link ztWord Statement
syntax match ztBlank /\v\t|  +| +$/
highlight default link ztBlank Error
syntax match ztError /\v^%(%(interest-final|declare-final|undeclare|interest|entities|gateway|session|declare|unlink|moment|close|trees|face|link|step)%( |$))@!.+$/
highlight default link ztError Error

let b:current_syntax = 'zt'
