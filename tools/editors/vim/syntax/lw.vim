" Scripts of the workbench.
if exists("b:current_syntax")
  finish
endif

syn keyword lwConnective box dia v
syn keyword lwWord and or not
syn keyword lwTruth true false
syn keyword lwAnswer yes no none
syn keyword lwStatement print if then else end for to in do while
syn keyword lwLogic k kt s4 s5 gl grz k4 kd
syn keyword lwFunction provable certificate interpolate fixpoint nnf simplify goedel boxdot substitute vars depth count length item append smallest trace letterless shared
" reserved, and in no script yet
syn keyword lwReserved follows
syn match lwVariable "\<[A-Z][A-Za-z0-9_]*"
syn match lwNumber "\<[0-9]\+\>"
syn match lwSymbol "<->\|->\|:=\|==\|!=\|<=\|<\|[~&+*();,\-]\|\[\|\]"
syn region lwText start=+"+ end=+"+ oneline
syn match lwComment "#.*$"

hi def link lwConnective Operator
hi def link lwWord Operator
hi def link lwTruth Constant
hi def link lwAnswer Boolean
hi def link lwStatement Statement
hi def link lwLogic Type
hi def link lwFunction Function
hi def link lwReserved Error
hi def link lwVariable Identifier
hi def link lwNumber Number
hi def link lwSymbol Operator
hi def link lwText String
hi def link lwComment Comment

let b:current_syntax = "lw"
