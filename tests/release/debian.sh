#!/usr/bin/env bash
# Builds the Debian packages in a root that contains only the packages that every build has and those of Build-Depends.
# debootstrap fetches them: the script runs as root, and needs the network.
. "$(dirname "$0")/../cases.sh"
packages=$top/build/debian
root=$room/root

# Runs a command in the root, where /proc is that of the command.
in_the_root() {
  unshare --fork --pid --mount-proc="$root/proc" chroot "$root" \
    env -i PATH=/usr/sbin:/usr/bin:/sbin:/bin DEBIAN_FRONTEND=noninteractive "$@"
}

# The root has Debian's security updates, as a machine has: other headers of PostgreSQL give another extension.
has_a_root() {
  make -s -C "$top" deb && debootstrap --variant=buildd bookworm "$root" &&
    echo 'deb http://deb.debian.org/debian-security bookworm-security main' >>"$root/etc/apt/sources.list"
}

# Checks that nothing but the packages of Build-Depends is missing.
has_what_it_names() {
  mkdir "$root/build" && cp "$packages"/*.dsc "$packages"/*.tar.xz "$root/build" &&
    in_the_root sh -c 'cd /build && dpkg-source -x ./*.dsc bare && apt-get update' &&
    ! in_the_root sh -c 'cd /build/bare && dpkg-checkbuilddeps' &&
    in_the_root apt-get build-dep -y --no-install-recommends /build/bare &&
    in_the_root sh -c 'cd /build/bare && dpkg-checkbuilddeps'
}

builds() {
  in_the_root sh -c 'cd /build/bare && dpkg-buildpackage -b -us -uc'
}

# Checks that the packages are those of this machine.
builds_the_same_packages() {
  (cd "$packages" && sha256sum -- *.deb) >"$room/sums" && [ "$(wc -l <"$room/sums")" -eq 5 ] &&
    (cd "$root/build" && ls -- *.deb | wc -l | grep -x 5 && sha256sum --check "$room/sums")
}

needs debootstrap dpkg-buildpackage
[ "$(id -u)" -eq 0 ] || skip_all 'not run as root'
try root has_a_root
try dependencies has_what_it_names
try build builds
try packages builds_the_same_packages

finish
