#!/usr/bin/env bash
# Runs `make check-source` of the last commit in two roots of Debian, as a user without rights: one with git, gcc, make
# and Python, and one with Debian's cargo and rustc too, which are the oldest. Nothing newer is there. debootstrap
# fetches the packages: the script runs as root, and needs the network.
. "$(dirname "$0")/../cases.sh"

# Makes a root with these packages, separated by commas, and a clone of the repository: ROOT PACKAGES
has_a_root() {
  debootstrap --variant=minbase --include="$2" bookworm "$1" && chroot "$1" useradd --create-home tester &&
    git clone -q "$top" "$1/home/tester/source" && chroot "$1" chown -R tester: /home/tester
}

# Runs a command in a root, with the files of the system that programs expect: ROOT COMMAND
in_the_root() {
  unshare --fork --pid --mount bash -c 'mount -t proc proc "$1/proc" && mount --rbind /dev "$1/dev" &&
    mount -t tmpfs tmpfs "$1/tmp" && exec chroot "$1" setpriv --reuid tester --regid tester --clear-groups \
    env -i HOME=/home/tester PATH=/usr/bin:/bin bash -c "$2"' - "$@"
}

# Checks that cases passed and that none failed, and that no file is left: ROOT
passes() {
  in_the_root "$1" 'cd ~/source && make check-source && [ -z "$(git status --porcelain)" ]' | tee /dev/stderr |
    grep -E '^[1-9][0-9]+ passed, 0 failed, [0-9]+ skipped: '
}

needs debootstrap setpriv
[ "$(id -u)" -eq 0 ] || skip_all 'not run as root'
packages=git,gcc,libc6-dev,make,python3
try root has_a_root "$room/bare" "$packages"
try check_source passes "$room/bare"
try root_with_cargo has_a_root "$room/cargo" "$packages,cargo,rustc"
try check_source_with_cargo passes "$room/cargo"

finish
