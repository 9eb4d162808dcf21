# Completion of rapidhash for fish, with the options in its help. A word that begins with a hyphen names no file,
# and after the help none counts.
set -l versions (rapidhash --help 2>/dev/null | string match -rg '^ +--(v\S+)')
for line in (rapidhash --help 2>/dev/null)
    set -l parts (string match -rg '^  --(\S+) +(.*)' -- $line); or continue
    set -l when
    contains $parts[1] $versions; and set when -n "not __fish_seen_argument -l $(string join ' -l ' $versions)"
    complete -c rapidhash -l $parts[1] -d $parts[2] $when
end
complete -c rapidhash -s h -l help -d 'Print the help'
complete -c rapidhash -n '__fish_seen_argument -s h -l help; or string match -q -- "-*" (commandline -ct)' -f
