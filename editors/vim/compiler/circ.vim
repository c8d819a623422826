" :compiler circ, then :make goes to where the theory at hand does not read. For a script, set makeprg to what proves it:
"   :set makeprg=circ\ prove\ theory.circ\ %\ /dev/null
if exists("current_compiler")
  finish
endif
let current_compiler = "circ"

CompilerSet makeprg=circ\ show\ %:S
CompilerSet errorformat=%f:%l:%c:\ %m,%-G%.%#
