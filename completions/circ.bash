# Completion of circ's words for bash: source this file, or put it where bash-completion looks for files of the name circ.
_circ() {
  local word=${COMP_WORDS[COMP_CWORD]} before=${COMP_WORDS[COMP_CWORD - 1]} command= place=0 n
  local commands="check prove show relation contexts reduce same differ trace regex upgrade expand library generate"
  case $before in
    --steps | --derives) return ;;
  esac
  for ((n = 1; n < COMP_CWORD; n++)); do
    case ${COMP_WORDS[n]} in
      --steps | --derives) ((n++)) ;;
      -*) ;;
      *)
        if [ -z "$command" ]; then command=${COMP_WORDS[n]}; else ((place++)); fi
        ;;
    esac
  done
  case $word in
    -*)
      COMPREPLY=($(compgen -W "--steps --derives --split --rewrite" -- "$word"))
      return
      ;;
  esac
  if [ -z "$command" ]; then
    COMPREPLY=($(compgen -W "$commands" -- "$word"))
  elif [ "$command" = library ]; then
    COMPREPLY=($(compgen -W "BITS STREAM TREE LANG PROC" -- "$word"))
  elif [ "$command" != generate ]; then
    compopt -o filenames
    case $command:$place in
      same:*) COMPREPLY=($(compgen -f -X '!*.auto' -- "$word") $(compgen -d -- "$word")) ;;
      regex:0 | regex:1) ;;
      *:0) COMPREPLY=($(compgen -f -X '!*.circ' -- "$word") $(compgen -d -- "$word")) ;;
      check:1 | relation:1 | prove:2 | regex:2 | upgrade:1 | upgrade:2 | expand:1) COMPREPLY=($(compgen -f -X '!*.proof' -- "$word") $(compgen -d -- "$word")) ;;
      prove:1 | reduce:1 | differ:1 | trace:1) COMPREPLY=($(compgen -f -X '!*.script' -- "$word") $(compgen -f -X '!*.goals' -- "$word") $(compgen -d -- "$word")) ;;
    esac
  fi
}
complete -F _circ circ bin/circ
