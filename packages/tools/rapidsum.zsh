#compdef rapidsum
# Completion of rapidsum for zsh, with the options, their texts and the versions in its help. A word that begins
# with a hyphen names no file but after --.
setopt local_options no_bash_rematch # which would leave `match` empty
local line match names
local -a options
for line in ${(f)"$(_call_program options rapidsum --help 2>/dev/null)"}; do
  [[ $line =~ '^ +(-(.), )?--([a-z0-9-]+)(=([A-Z]+))? +([^[]*[^ []).*$' ]] || continue
  names=(${match[2]:+-$match[2]} --$match[3])
  case $match[3] in
    help | version) options+=('(- : *)'$^names"[$match[6]]") ;;
    algorithm) options+=("($names)"{-a+,--algorithm=}"[$match[6]]:version:(${${${line##*values: }%]}//,})") ;;
    files0-from) options+=("--$match[3]=[$match[6]]:$match[5]:_files") ;;
    *) options+=("($names)"$^names"${match[4]:+=}[$match[6]]${match[4]:+:$match[5]: }") ;;
  esac
done
_arguments -s -S $options '*:file:{ [[ $PREFIX == -* && ${words[(Ie)--]} -eq 0 ]] || _files }'
