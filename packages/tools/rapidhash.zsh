#compdef rapidhash
# Completion of rapidhash for zsh, with the options in its help. A word that begins with a hyphen names no file.
local -a options versions
options=(${(f)"$(_call_program options rapidhash --help 2>/dev/null | sed -nE 's/^  (--[^ ]+) +(.*)/\1[\2]/p')"})
versions=(${(M)${options%%\[*}:#--v*})
_arguments \
  "($versions)"${^${(M)options:#--v*}} \
  ${options:#--v*} \
  '(- : *)'{-h,--help}'[print the help]' \
  '::file:{ [[ $PREFIX == -* ]] || _files }'
