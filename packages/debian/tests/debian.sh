#!/usr/bin/env bash
# reads: packages Makefile scripts/install
# Builds the Debian packages. Installs, uses, and removes them in a root that contains only the C library. It is skipped
# if not run as root, or without the programs that build and check packages.
. "$(dirname "$0")/../../../tests/cases.sh"
packages=$top/build/debian
root=$room/root
library=$root/usr/lib/x86_64-linux-gnu
names='librapidhash-c-dev librapidhash-c1 postgresql-15-rapidhash rapidhash-tools sqlite3-rapidhash'

# Checks that the source package, unpacked elsewhere, builds the same bytes with Debian's tools alone, and no other
# files: in a path with a space, and where others may not read new files, whatever directory a variable names. A build
# compares the vectors.
packs_the_same_bytes() (
  BINDIR=/none make -s -C "$top" deb DATADIR=/none && cd "$packages" && grep -qxE '[1-9][0-9]* cases, 0 differ' log &&
    sha256sum ./*.deb >"$room/sums" && mkdir "$room/else where" &&
    cp ./*.dsc ./*.tar.xz "$room/else where" && cd "$room/else where" && umask 077 && dpkg-source -x ./*.dsc bare &&
    (cd bare && env -i PATH=/usr/bin:/bin dpkg-buildpackage -b -us -uc) && sha256sum --check "$room/sums" &&
    diff <(printf '%s_1.0.0_amd64.deb\n' $names) <(printf '%s\n' *.deb) &&
    [ "$(for deb in *.deb; do dpkg-deb --field "$deb" Multi-Arch; done | xargs)" = 'same same no foreign no' ]
)

# Checks that all users may read the files of the source package, of a tree that only its owner may read.
packs_readable_sources() (
  umask 077
  git clone -q -s "$top" "$room/private" && cd "$room/private" &&
    make -n deb | sed 's/dpkg-buildpackage -us -uc/dpkg-source -b ./' | bash -e && cd build/debian &&
    [ "$(tar -tvf ./*.tar.xz | wc -l)" -gt 500 ] && ! tar -tvf ./*.tar.xz | grep -v '^[-d]rw.r-.r-. ' | grep -v '^l'
)

# Checks that a builder who asks for no tests runs none.
builds_without_tests() {
  local tested="make -sn -f debian/rules override_dh_auto_test"
  cd "$packages/source" && $tested | grep cases.tsv && [ -z "$(DEB_BUILD_OPTIONS=nocheck $tested)" ]
}

# Runs dpkg in the root with all packed files, even those that the machine omits from its own packages: ARGUMENT..
in_the_root() {
  dpkg --root="$root" --log="$room/dpkg.log" --path-include='/usr/*' "$@"
}

listed() {
  (cd "$root" && find . -path ./var -prune -o -print | sort)
}

# Checks that each package names the package that it requires.
needs_others() {
  mkdir -p "$library" "$root/usr/lib64" "$root"/var/lib/dpkg/{info,updates} && ln -s usr/lib usr/lib64 "$root" &&
    touch "$root/var/lib/dpkg/status" && listed >"$room/bare" || return 1
  ! in_the_root --install "$packages"/*.deb 2>"$room/refused" &&
    sed -nE 's/^ ([^: ]*).* depends on ([^ ;]+( \(.?=)?).*/\1: \2/p' "$room/refused" | sort | diff - <(printf '%s\n' \
      'librapidhash-c-dev: librapidhash-c1 (=' 'librapidhash-c1: libc6 (>=' 'postgresql-15-rapidhash: libc6 (>=' \
      'postgresql-15-rapidhash: postgresql-15' 'rapidhash-tools: libc6 (>=' 'rapidhash-tools: libgcc-s1 (>=' \
      'sqlite3-rapidhash: libc6 (>=')
}

installs() {
  dpkg --status libc6 libgcc-s1 postgresql-15 >>"$root/var/lib/dpkg/status" && in_the_root --configure --pending &&
    cp -L /lib64/ld-linux-x86-64.so.2 "$root/lib64" && cp -L /lib/x86_64-linux-gnu/lib{c.so.6,gcc_s.so.1} "$library"
}

prints_the_known_hashes() {
  echo something >"$root/file" && [ "$(chroot "$root" rapidhash --v1 /file)" = 15965596575264898037 ] &&
    [ "$(chroot "$root" rapidsum /file)" = 'a1266b469390773a  /file' ]
}

# Checks that the machine code and the constants are those that make built, whatever was stripped, and that the linker's
# tables are read-only after the start.
keeps_the_code() {
  local built packed
  code() { readelf -x .text -x .rodata "$1" | grep '^  0x'; }
  while read -r built packed; do
    code "$packages/source/build/$built" >"$room/code" && code "$root/usr/$packed" | diff "$room/code" - &&
      readelf -ldW "$root/usr/$packed" >"$room/linked" && grep -q GNU_RELRO "$room/linked" &&
      grep -qE 'BIND_NOW|FLAGS_1.* NOW' "$room/linked" || return 1
  done <<'FILES'
cargo/release/rapidhash bin/rapidhash
cargo/release/rapidsum bin/rapidsum
header/librapidhash_c.so.1 lib/x86_64-linux-gnu/librapidhash_c.so.1
rapidhash.so lib/sqlite3/rapidhash.so
postgresql/rapidhash.so lib/postgresql/15/lib/rapidhash.so
FILES
}

# Links a program of every call and checks the dependency that its own package would have.
links_by_pkg_config() {
  builds_by_pkg_config "$library" && cp "$room/c_library" "$root" && chroot "$root" /c_library &&
    cd "$packages/source" && dpkg-shlibdeps -O -Sdebian/librapidhash-c1 "$root/c_library" |
    tee /dev/stderr | grep 'librapidhash-c1 (>= 1\.0\.0)'
}

# Checks that the package has what CREATE EXTENSION reads. packages/postgresql/tests/postgresql.py runs the same
# library.
has_the_extension_of_postgresql() {
  cd "$root/usr/share/postgresql/15/extension" &&
    ls rapidhash* | diff - <(printf '%s\n' rapidhash{--1.0.sql,.control}) &&
    cmp rapidhash--1.0.sql "$top/packages/postgresql/rapidhash--1.0.sql"
}

loads_into_sqlite() {
  sqlite3 :memory: ".load $root/usr/lib/sqlite3/rapidhash" "SELECT rapidhash_v3('hello')" |
    grep -x 3327445792987248966
}

# Checks that programs and functions have a manual page, and no other name, and that completions are where Debian's
# shells search.
has_manuals_and_completions() {
  cd "$root/usr/share" && ls man/man1/rapid{hash,sum}.1.gz bash-completion/completions/rapid{hash,sum} \
    zsh/vendor-completions/_rapid{hash,sum} fish/vendor_completions.d/rapid{hash,sum}.fish &&
    cc -E -P -DRAPIDHASH_LINK "$root/usr/include/rapidhash_fields.h" | grep -oE '\brapidhash_[a-z0-9_]*[a-z0-9]\(' |
    tr -d '(' | cat - <(echo rapidhash_c) | sort -u >"$room/functions" && [ "$(wc -l <"$room/functions")" -gt 40 ] &&
    diff "$room/functions" <(printf '%s\n' man/man3/* | sed 's/.*\///; s/\.3\.gz$//' | sort) &&
    while read -r function; do
      zcat "man/man3/$function.3.gz" | cmp - "$top/packages/c/rapidhash_c.3" || return 1
    done <"$room/functions"
}

# Checks that each package has the notice and the text of the licence of which Debian has no copy.
has_the_licences_of_debian() {
  local name
  for name in $names; do
    cd "$root/usr/share/doc/$name" && cmp NOTICE "$top/NOTICE" &&
      grep -x ' 2024 Liam Gray <gmail@liamg.me>' copyright &&
      sed -nE '/^License: Expat$/,/^$/ s/^ \.?//p' copyright | diff - <(tail -n +5 "$top/LICENSE-MIT") || return 1
  done
}

leaves_nothing() {
  in_the_root --purge $names && (cd "$root" && rm file c_library lib64/ld-linux-x86-64.so.2) &&
    rm "$library"/lib{c.so.6,gcc_s.so.1} && listed | diff "$room/bare" -
}

needs dpkg-buildpackage dh lintian cc /usr/bin/{rustc,cargo} cmake sqlite3 pg_config \
  '/usr/include/postgresql/*/server/postgres.h'
[ "$(id -u)" -eq 0 ] || skip_all 'not run as root'
try packages packs_the_same_bytes
try without_tests builds_without_tests
try readable_sources packs_readable_sources
try lintian lintian --allow-root --fail-on error,warning "$packages"/*.changes
try dependencies needs_others
try install installs
try programs prints_the_known_hashes
try code keeps_the_code
try pkg_config links_by_pkg_config
try cmake builds_by_cmake "$root/usr"
try sqlite loads_into_sqlite
try postgresql has_the_extension_of_postgresql
try manuals_and_completions has_manuals_and_completions
try licences has_the_licences_of_debian
try purge leaves_nothing

finish
