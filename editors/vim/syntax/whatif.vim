if exists("b:current_syntax")
  finish
endif

syntax case match
syntax match whatifComment "^#.*$"
syntax match whatifCommand "^ *\(force \+\)\?\(set\|clear\|fill\|csv\|show\|export\|table\|scenario\|base\|drop\|use\|as\|changes\|compare\|formula\)\ze\( \|\r\?$\)" nextgroup=whatifAddress skipwhite
syntax match whatifAddress "\<\a\{1,3}[1-9]\d*\(:\a\{1,3}[1-9]\d*\)\?\>" nextgroup=whatifAddress,whatifFormula,whatifNumber,whatifTruth,whatifText skipwhite
syntax match whatifNumber " \@1<=[-+]\?\d\+\([./]\d\+\)\?\ze\r\?$" contained
syntax match whatifTruth " \@1<=\(TRUE\|FALSE\)\ze\r\?$" contained
syntax match whatifText "'.*$" contained

syntax match whatifFormula "\(of:\)\?=.*$" contained contains=whatifReference,whatifString,whatifFunction,whatifFigure,whatifOperator
syntax match whatifReference "\[\.\$\?\a\+\$\?[1-9]\d*\(:\.\$\?\a\+\$\?[1-9]\d*\)\?\]" contained
syntax match whatifString +"\([^"]\|""\)*"+ contained
syntax match whatifFunction "\<\h[A-Za-z0-9_.]*\ze\s*(" contained
syntax match whatifFigure "\(\<\d\+\(\.\d\+\)\?\|\.\d\+\)\([eE][-+]\?\d\+\)\?" contained
syntax match whatifOperator "<=\|>=\|<>\|[-+*/^&=<>%;]" contained

highlight default link whatifComment Comment
highlight default link whatifCommand Statement
highlight default link whatifAddress Identifier
highlight default link whatifNumber Number
highlight default link whatifTruth Boolean
highlight default link whatifText String
highlight default link whatifReference Identifier
highlight default link whatifString String
highlight default link whatifFunction Function
highlight default link whatifFigure Number
highlight default link whatifOperator Operator

let b:current_syntax = "whatif"
