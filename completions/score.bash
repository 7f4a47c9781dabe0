# Completions of score for bash. Made by tools/make_man from what score help prints.
_score() {
  local word=${COMP_WORDS[COMP_CWORD]} before=${COMP_WORDS[COMP_CWORD - 1]} options='' valued='' files=''
  COMPREPLY=()
  if ((COMP_CWORD == 1)); then
    mapfile -t COMPREPLY < <(compgen -W 'check stats explain cover demo watch dump assemble shrink view help -h --help -V --version' -- "$word")
    return
  fi
  case ${COMP_WORDS[1]} in
    check) options='--workers --complete --list --progress -h --help' valued='--workers' ;;
    stats) options='--progress -h --help' valued='' ;;
    explain) options='--events --map --complete --first --json --progress -h --help' valued='--events' files='--map' ;;
    cover) options='--dat --progress -h --help' valued='' files='--dat' ;;
    demo) options='-h --help' valued='' ;;
    watch) options='-h --help' valued='' ;;
    dump) options='--port --bank --block --tag --from --last -h --help' valued='--port --bank --block --tag --from --last' ;;
    assemble) options='-h --help' valued='' ;;
    shrink) options='--checks --first --map -h --help' valued='--checks' files='--map' ;;
    view) options='--from --to --map --complete -h --help' valued='--from --to' files='--map' ;;
    help)
      mapfile -t COMPREPLY < <(compgen -W 'check stats explain cover demo watch dump assemble shrink view' -- "$word")
      return
      ;;
  esac
  if [[ " $valued " == *" $before "* ]]; then
    return # a value, of which nothing is known
  fi
  if [[ $word == -* && " $files " != *" $before "* ]]; then
    mapfile -t COMPREPLY < <(compgen -W "$options" -- "$word")
  else
    compopt -o filenames
    mapfile -t COMPREPLY < <(compgen -f -- "$word")
  fi
}
complete -F _score score
