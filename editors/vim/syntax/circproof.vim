" Proof files of circ.
if exists("b:current_syntax")
  finish
endif
syntax match circproofHead "^circproof 1$"
syntax match circproofTable "^[va]\>"
syntax match circproofSet "^\(place\|cert\)\>"
syntax match circproofFrame "^\(block\|done\|end\)$"
syntax match circproofGoal "^goal\>"
syntax match circproofStep "^\(simplify\|reduce\|derive\)$"
syntax match circproofWhy "^\(same\|split\)\>"
syntax match circproofSide "^\(left\|right\)\>" nextgroup=circproofKind skipwhite
syntax match circproofKind "\(equation\|hypothesis\|assumption\|content\)" contained
syntax match circproofWay "[<>]"
syntax match circproofNumber "\<\d\+\(\.\d\+\)*\>"
highlight default link circproofHead Structure
highlight default link circproofTable Type
highlight default link circproofSet PreProc
highlight default link circproofFrame Structure
highlight default link circproofGoal Statement
highlight default link circproofStep Keyword
highlight default link circproofWhy Conditional
highlight default link circproofSide Label
highlight default link circproofKind Function
highlight default link circproofWay Operator
highlight default link circproofNumber Number
let b:current_syntax = "circproof"
