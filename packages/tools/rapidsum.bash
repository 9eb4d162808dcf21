# Completion of rapidsum for bash, with the options and versions in its help. If no option is expected,
# bash completes files, variables and the rest by itself. A word that begins with a hyphen names no file but
# after --, and after the help none counts. An equals sign is a word of its own.
_rapidsum() {
  local IFS=$' \t\n'
  local help options word=${COMP_WORDS[COMP_CWORD]#=} before=" ${COMP_WORDS[*]:1:COMP_CWORD-1} "
  help=$(rapidsum --help 2>/dev/null) || :
  options=" $(command grep -oE '^ +(-., )?--[a-z0-9-]+' <<<"$help")" || :
  COMPREPLY=()
  case ${before/% = / } in
    *" --help "* | *" -h "* | *" --version "* | *" -V "*) options= ;;
    *" -- "*) return ;;
    *" --algorithm " | *" -a ") options=$(command sed -n 's/.*values: \(.*\)]/\1/p' <<<"$help") word=" $word" ;;
    *" --seed ") options='' word=" $word" ;;
  esac
  if [[ $word == [-\ ]* || -z $options ]]; then
    compopt +o bashdefault +o default 2>/dev/null
    mapfile -t COMPREPLY < <(compgen -W "${options//,}" -- "${word# }")
  fi
}
complete -o bashdefault -o default -F _rapidsum rapidsum
