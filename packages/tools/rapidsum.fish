# Completion of rapidsum for fish, with the options, their texts and the versions in its help. A word that begins
# with a hyphen names no file but after --, and after the help none counts.
for line in (rapidsum --help 2>/dev/null)
    set -l parts (string match -rg '^  .(.)..--([a-z0-9-]+)(=?)[A-Z]* +([^[]*[^ [])' -- $line); or continue
    set -l versions (string match -rg 'values: (.*)]' -- $line | string split ', ')
    set -l others
    test $parts[1] != ' '; and set -a others -s $parts[1]
    test "$parts[3]" = =; and set -a others -x -a "$versions"
    test $parts[2] = files0-from; and set others -r -F
    complete -c rapidsum -l $parts[2] -d $parts[4] $others
end
complete -c rapidsum -n '__fish_seen_argument -s h -l help -s V -l version' -f
complete -c rapidsum -n 'string match -q -- "-*" (commandline -ct); and not contains -- -- (commandline -opc)' -f
