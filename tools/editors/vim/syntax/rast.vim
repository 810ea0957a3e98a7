" Colours for files of rast.
if exists("b:current_syntax") | finish | endif
syn keyword rastItem type decl proc eq exec explicit
syn keyword rastStep case close wait send recv impossible by refl if when now
syn keyword rastLogic assert assume all ex true false
syn keyword rastCost work pay get delay
syn match rastLabelSend "\.\s*\zs\a\w*" contained
syn match rastSend "\<\a\w*\s*\.\s*\a\w*" contains=rastLabelSend
syn match rastBranch "\<\a\w*\ze\s*=>"
syn match rastField "[{,]\s*\zs\a\w*\ze\s*:"
syn match rastDefined "\%(\<\%(type\|decl\|exec\)\s\+\)\@<=\a\w*"
syn match rastDefined "\%(\<proc\s\+\a\w*\s*<-\s*\)\@<=\a\w*"
syn match rastNumber "\<\d\+\>"
syn match rastArrow "<->\|<-\||-\|-o\|=>"
syn match rastPotential "|{[^}]*}[->]\|<{[^}]*}|"
syn match rastTicks "()\|({[^}]*})"
syn match rastWrong "[^\x00-\x7f]"
syn match rastComment "%.*$" contains=@Spell,rastWrong
hi def link rastItem Keyword
hi def link rastStep Statement
hi def link rastLogic PreProc
hi def link rastCost Special
hi def link rastLabelSend Constant
hi def link rastBranch Constant
hi def link rastField Constant
hi def link rastDefined Function
hi def link rastNumber Number
hi def link rastArrow Operator
hi def link rastPotential Special
hi def link rastTicks Special
hi def link rastWrong Error
hi def link rastComment Comment
let b:current_syntax = "rast"
