" Actors and units of RVC-CAL (ISO/IEC 23001-4), as docs/LANGUAGE.md has them.
if exists("b:current_syntax")
  finish
endif

syntax case match
syntax keyword calUnit actor unit package import endactor endunit
syntax keyword calMember action initialize function procedure schedule fsm priority guard var repeat
syntax keyword calMember endaction endinitialize endfunction endprocedure endschedule endpriority
syntax keyword calStatement do begin end while foreach for in endwhile endforeach endbegin
syntax keyword calConditional if then elsif else endif
syntax keyword calBoolean true false
syntax keyword calOperatorWord not and or div mod
syntax keyword calType bool int uint List
syntax keyword calUnknownType float half String
syntax keyword calTodo TODO FIXME XXX contained
syntax match calOperator "==>\|-->\|:=\|\.\.\|<=\|>=\|!=\|<<\|>>\|&&\|||\|[-+*/=<>&|^~]"
syntax match calNumber "\<\%(0\|[1-9][0-9]*\)\>\|\<0x[0-9A-Fa-f]\+\>"
syntax match calWrongNumber "\<0[0-9]\+\>\|\<[0-9]\+\.[0-9]\+"
syntax match calTag "^\s*\zs[A-Za-z_][A-Za-z0-9_.]*\ze\s*:\s*\%(action\|initialize\)\>"
syntax match calPort "\<[A-Za-z_][A-Za-z0-9_]*\ze\s*:\s*\["
syntax region calComment start="/\*" end="\*/" contains=calTodo
syntax match calComment "//.*$" contains=calTodo
syntax match calString "\"[^\"]*\"\="

highlight default link calUnit Structure
highlight default link calMember Keyword
highlight default link calStatement Statement
highlight default link calConditional Conditional
highlight default link calBoolean Boolean
highlight default link calOperatorWord Operator
highlight default link calType Type
highlight default link calUnknownType Error
highlight default link calTodo Todo
highlight default link calOperator Operator
highlight default link calNumber Number
highlight default link calWrongNumber Error
highlight default link calTag Label
highlight default link calPort Identifier
highlight default link calComment Comment
highlight default link calString Error

let b:current_syntax = "cal"
