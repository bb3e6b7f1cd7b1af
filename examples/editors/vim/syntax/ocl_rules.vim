" The language of rule texts.
if exists('b:current_syntax')
  finish
endif

syntax case match
syntax iskeyword @,48-57,_

syntax match oclName /\h\w*/
syntax match oclNumber /\d\+/
syntax match oclOperator /->\|<>\|<=\|>=\|[-+*=<>]/

syntax keyword oclControl else endif if in let then
syntax keyword oclLogic and div implies mod not or xor
syntax keyword oclConstant false invalid null true
syntax keyword oclSelf self

syntax match oclProperty /\.\_s*\h\w*/hs=s+1
syntax match oclCall /\.\_s*\%(oclIsKindOf\|oclIsTypeOf\|oclAsType\|allInstances\|div\|mod\|min\|max\|abs\|size\|substring\|oclIsUndefined\|oclIsInvalid\)\ze\_s*(/hs=s+1
syntax match oclArrow /->\_s*\h\w*/ contains=oclIteration,oclCollection,oclOperator
syntax keyword oclIteration contained forAll exists select reject collect one isUnique iterate
syntax keyword oclCollection contained size isEmpty notEmpty includes excludes count includesAll excludesAll sum asSet

syntax match oclClass /\h\w*\ze\_s*\.\_s*allInstances\>/
syntax match oclEnum /\h\w*\_s*::\_s*\h\w*/ contains=oclEnumType
syntax match oclEnumType /\h\w*\ze\_s*::/ contained
syntax match oclType /:\@1<!:\_s*\%(\%(Set\|OrderedSet\|Bag\|Sequence\)\_s*(\_s*\)\?\h\w*/hs=s+1

syntax match oclContext /\<context\_s\+\h\w*/ contains=oclHead
syntax match oclRule /\<inv\>\_s*\%(\h\w*\)\?\_s*:/ contains=oclHead
syntax keyword oclHead contained context inv

syntax region oclString start=/'/ end=/'/ contains=oclEscape,oclBadEscape
syntax match oclBadEscape /\\./ contained
syntax match oclEscape /\\[btnfr"'\\]/ contained
syntax match oclComment /--.*$/
syntax region oclComment start=+/\*+ end=+\*/+

highlight default link oclNumber Number
highlight default link oclOperator Operator
highlight default link oclControl Keyword
highlight default link oclLogic Operator
highlight default link oclConstant Constant
highlight default link oclSelf Special
highlight default link oclCall Function
highlight default link oclIteration Function
highlight default link oclCollection Function
highlight default link oclClass Type
highlight default link oclEnum Constant
highlight default link oclEnumType Type
highlight default link oclType Type
highlight default link oclContext Type
highlight default link oclRule Identifier
highlight default link oclHead Keyword
highlight default link oclString String
highlight default link oclEscape SpecialChar
highlight default link oclBadEscape Error
highlight default link oclComment Comment

let b:current_syntax = 'ocl_rules'
