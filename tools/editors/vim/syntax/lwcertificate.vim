" Certificates of the workbench. Each line begins with its word; behind it stands a formula, or worlds and variables.
if exists("b:current_syntax")
  finish
endif

syn include @lwFormula syntax/lwformula.vim
unlet! b:current_syntax

syn match lwHead "^\%(certificate 1\|proof\|model\|end\)$"
syn match lwLogicLine "^logic \%(k\|kt\|s4\|s5\|gl\|grz\|k4\|kd\)$" contains=lwLogicWord,lwLogic
syn match lwLogicWord "^logic" contained
syn match lwLogic "\%(k\|kt\|s4\|s5\|gl\|grz\|k4\|kd\)$" contained
syn match lwFormulaLine "^formula .*$" contains=lwFormulaWord,@lwFormula
syn match lwFormulaWord "^formula" contained
syn match lwStepLine "^\%(close\|absurd\|one\|two\|refl\|step\|serial\|cut\) [TF] .*$" contains=lwRule,lwSign,@lwFormula
syn match lwRule "^\%(close\|absurd\|one\|two\|refl\|step\|serial\|cut\)" contained nextgroup=lwSign skipwhite
syn match lwSign "\<[TF]\>" contained
syn match lwModelLine "^\%(worlds\|refuted\) [0-9]\+$" contains=lwModelWord,lwNumber
syn match lwWorldLine "^world [0-9]\+ sees[0-9 ]* true.*$" contains=lwModelWord,lwNumber
syn match lwModelWord "^\%(worlds\|refuted\|world\)\>\|\<sees\>\|\<true\>" contained
syn match lwNumber "\<[0-9]\+\>" contained

hi def link lwHead Statement
hi def link lwLogicWord Statement
hi def link lwLogic Type
hi def link lwFormulaWord Statement
hi def link lwRule Function
hi def link lwSign Special
hi def link lwModelWord Statement
hi def link lwNumber Number

let b:current_syntax = "lwcertificate"
