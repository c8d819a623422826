" Theories and scripts of circ.
if exists("b:current_syntax")
  finish
endif
syntax iskeyword @,48-57,_,-
syntax match circComment "\(^\|[[:blank:]()[\]{},]\)\zs\(---\|\*\*\*\).*$"
syntax keyword circFrame theory is endtheory including inc protecting pr
syntax keyword circPart sort sorts op ops var vars eq ceq if derivative cases by
syntax keyword circItem add goal coinduction reduce red
syntax keyword circMark prec left right assoc comm idem nonexec contained
syntax region circMarks start="\[" end="\]" contains=circMark,circNumber oneline
syntax match circNumber "\<\d\+\>" contained
syntax match circArrow "->"
syntax match circStop "\(^\|[[:blank:]]\)\zs\.\ze\([[:blank:]]\|$\)"
syntax match circHole "\*:[^[:blank:]()[\]{},]\+"
syntax keyword circLeftOut subsort subsorts mb cmb rl crl extending ex class msg
highlight default link circComment Comment
highlight default link circFrame Structure
highlight default link circPart Keyword
highlight default link circItem Statement
highlight default link circMark Type
highlight default link circNumber Number
highlight default link circArrow Operator
highlight default link circStop Delimiter
highlight default link circHole Special
highlight default link circLeftOut Error
let b:current_syntax = "circ"
