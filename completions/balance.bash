# Completion of the words of balance in bash.
_balance() {
  local word=${COMP_WORDS[COMP_CWORD]} files=0
  COMPREPLY=()
  if ((COMP_CWORD == 1)); then
    mapfile -t COMPREPLY < <(compgen -W 'print run try report demo' -- "$word")
    return
  fi
  case ${COMP_WORDS[1]} in
    print | report) files=1 ;;
    run | try) files=3 ;;
  esac
  if ((COMP_CWORD - 1 <= files)); then
    mapfile -t COMPREPLY < <(compgen -f -- "$word")
  fi
}
complete -o filenames -F _balance balance
