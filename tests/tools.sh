# Which tools this machine has, for .ci/setup and tests/cases.sh. `listed_tools` is the file that lists them.
# shellcheck shell=bash
listed_tools=$(cd "$(dirname "${BASH_SOURCE[0]}")/.." && pwd)/.ci/packages

# Checks for a program on the PATH, or for a file whose name matches a pattern: TOOL
has() {
  if [[ $1 == /* ]]; then compgen -G "$1" >/dev/null; else command -v "$1" >/dev/null; fi
}

# Prints the first of these tools that is missing, with its package, or fails: TOOL..
lacks() {
  local tool
  for tool; do
    has "$tool" || { echo "no $tool ($(package_of "$tool"))" && return; }
  done
  return 1
}

# Prints each tool that is missing, of all or of these, after its package. Debian's webpack requires Debian's Node:
# [TOOL..]
missing() {
  local package tools tool
  while read -r package tools; do
    [ -n "$package" ] && [[ $package != \#* ]] || continue
    [ "$package" != webpack ] || ! dpkg-query --show nodejs 2>/dev/null | grep -q nodesource || continue
    read -ra tools <<<"$tools"
    for tool in "${tools[@]}"; do
      [[ $# -gt 0 && " $* " != *" $tool "* ]] || has "$tool" || echo "$package $tool"
    done
  done <"$listed_tools"
}

# Prints the package of a tool, with a star if it is not Debian's: TOOL
package_of() {
  awk -v tool="$1" '!/^#/ { for (i = 2; i <= NF; i++) if ($i == tool) { print $1; exit } }' "$listed_tools"
}
