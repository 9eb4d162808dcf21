# Completion of rapidhash for bash, with the options in its help. If no option is expected, bash completes
# files, variables and the rest by itself. A word that begins with a hyphen names no file, and after the help
# none counts.
_rapidhash() {
  local IFS=$' \t\n'
  local options word=${COMP_WORDS[COMP_CWORD]}
  COMPREPLY=()
  case " ${COMP_WORDS[*]:1:COMP_CWORD-1} " in
    *" --help "* | *" -h "*) options= ;;
    *) options="$(rapidhash --help 2>/dev/null | command grep -oE '^  --[^ ]+') --help -h" || : ;;
  esac
  if [[ $word == -* || -z $options ]]; then
    compopt +o bashdefault +o default 2>/dev/null
    mapfile -t COMPREPLY < <(compgen -W "$options" -- "$word")
  fi
}
complete -o bashdefault -o default -F _rapidhash rapidhash
