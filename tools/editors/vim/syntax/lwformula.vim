" Formulas of the workbench. Other syntax files include this one.
if exists("b:current_syntax")
  finish
endif

syn keyword lwConnective box dia v
syn keyword lwTruth true false
syn match lwSymbol "<->\|->\|[~&()]"

hi def link lwConnective Operator
hi def link lwTruth Constant
hi def link lwSymbol Operator

let b:current_syntax = "lwformula"
