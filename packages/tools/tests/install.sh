#!/usr/bin/env bash
# reads: packages/tools packages/c packages/rust crates Makefile scripts/install bin
# Installs the programs and the C library into a temporary directory, uses each installed file, and removes the files
# again. Further cases set each directory. Without the kit, cc and cargo build them; without cargo, cc the library
# alone.
. "$(dirname "$0")/../../../tests/cases.sh"
prefix=$room/usr
cd "$top" || exit 1

# PATH without rt: an installation, perhaps as root, does not need it.
path=/usr/bin:/bin builder=rt
has rt || path=$PATH builder=cargo
# What make says if it leaves out the programs, because nothing can build them.
left_out=
has "$builder" || left_out='make: the programs are left out: install cargo (Rust 1.63 or newer) and run make again'

# Checks that make says that it leaves out the programs, and no more.
builds_nothing_anew() {
  [ "$(make -s -C "$top" 2>&1)" = "$left_out" ] && [ "$(PATH=$path make -s -j3 -C "$top" 2>&1)" = "$left_out" ]
}

installs() {
  PATH=$path make -s -C "$top" install "$@"
}

# Checks that an installation says no more either, although make may name each directory that it enters.
installs_quietly() {
  [ "$(cd "$top" && PATH=$path make install PREFIX="$room/quiet" 2>&1)" = "$left_out" ]
}

# Checks that a full disk leaves no part of a file: each is there as a whole, as it was before, or not at all. A limit
# for the size of a file stands in for the disk.
leaves_no_part() {
  local place=$room/full file
  mkdir -p "$place/lib" && echo old >"$place/lib/librapidhash_c.a" || return
  ! (ulimit -f 8 && installs PREFIX="$place") && listed "$place" >"$room/files" && while read -r file; do
    grep -axq old "$place/$file" || cmp "$place/$file" "$prefix/$file" || return 1
  done <"$room/files"
}

# Checks that rapidsum prints the line of a known hash and reads it back.
prints_and_checks_a_sum() {
  echo something >"$room/file" &&
    [ "$("$prefix/bin/rapidsum" "$room/file")" = "a1266b469390773a  $room/file" ] &&
    "$prefix/bin/rapidsum" "$room/file" | "$prefix/bin/rapidsum" --check | grep -qx "$room/file: OK"
}

# Checks that the manual of a program contains every option that its help names: PROGRAM COUNT
names_every_option() {
  local option
  "$prefix/bin/$1" --help | grep -oE '^ .{0,5} --[a-z0-9.-]+' | grep -oE -- '--.*' >"$room/options"
  while read -r option; do
    sed 's/\\//g' "$prefix/share/man/man1/$1.1" | grep -qE -e "${option//./[.]}([^a-z0-9.-]|[.] |\$)" ||
      { echo "no $option" && return 1; }
  done <"$room/options"
  [ "$(wc -l <"$room/options")" -eq "$2" ] || { cat "$room/options" && return 1; }
}

# Checks that the manual of rapidsum has the text of each option in its help, after its names.
has_the_texts_of_the_help() {
  "$prefix/bin/rapidsum" --help |
    sed -nE 's/ \[.*//; s/^ .{0,5} (--[a-z0-9-]+)(=[A-Z]+)? +(.*)/\1|\3/p' >"$room/texts" &&
    mandoc -Tutf8 -O width=200 "$prefix/share/man/man1/rapidsum.1" |
    sed -E 's/.\x08//g' | tr -s ' \n' ' ' >"$room/manual" &&
    [ "$(wc -l <"$room/texts")" -eq 15 ] && while IFS='|' read -r option text; do
      grep -qiE -e "$option(=[A-Z]+)? ${text//[()]/.}[ ,:;]" "$room/manual" || { echo "$option: $text" && return 1; }
    done <"$room/texts"
}

# Checks that the manual of rapidhash names the version of each option as its help does, before the next option.
names_each_version() {
  local option name
  "$prefix/bin/rapidhash" --help | sed -nE 's/^  (--v[13][a-z-]*) +Use (v.*) hashing .*/\1|\2/p' >"$room/versions"
  mandoc -Tutf8 "$prefix/share/man/man1/rapidhash.1" | sed -E 's/.\x08//g' | tr -s ' \n' ' ' >"$room/manual"
  [ "$(wc -l <"$room/versions")" -eq 4 ] && while IFS='|' read -r option name; do
    grep -qiE -e " $option ([^-]|-[^-])*$name\b" "$room/manual" || { echo "$option: $name" && return 1; }
  done <"$room/versions"
}

# Checks that micro and nano equal V3 up to the bytes that the manual names, and no further.
equals_v3_as_the_manual_says() {
  local form most
  sed -nE '/^\.B .*v3.-(micro|nano)$/ { s/.*-//; h; n; s/.* up to ([0-9]+) bytes/\1/; H; g; s/\n/ /; p; }' \
    packages/tools/rapidhash.1 >"$room/limits"
  [ "$(wc -l <"$room/limits")" -eq 2 ] && while read -r form most; do
    seq 999 | head -c "$most" >"$room/at" && seq 999 | head -c $((most + 1)) >"$room/above" &&
      [ "$("$prefix/bin/rapidhash" "--v3-$form" "$room/at")" = "$("$prefix/bin/rapidhash" "$room/at")" ] &&
      [ "$("$prefix/bin/rapidhash" "--v3-$form" "$room/above")" != "$("$prefix/bin/rapidhash" "$room/above")" ] ||
      return 1
  done <"$room/limits"
}

# Checks that the messages of the manual of rapidhash are those of its source.
has_the_messages() {
  diff <(sed -n '/^\.SH DIAGNOSTICS/,/^\.SH EXAMPLES/ s/^\.B //p' packages/tools/rapidhash.1 | sed 's/\\//g' | sort) \
    <(sed -n 's/^text_of .* = codes "\(.*\)"$/\1/p' crates/rapidhash_tool/specs/Faults.antt | sort)
}

# Checks that the completions of a program are those that completions.py tests: PROGRAM
has_its_completions() {
  diff <(cat "$top/packages/tools/$1".{bash,fish,zsh}) <(cd "$prefix/share" &&
    cat "bash-completion/completions/$1" "fish/vendor_completions.d/$1.fish" "zsh/site-functions/_$1")
}

# Checks that the manual's example compares the files a and b correctly, even if neither can be hashed.
compares_by_the_manual() {
  local example
  example=$(sed -n 's/^\.B \(a=\$(.*\)/\1/p' "$prefix/share/man/man1/rapidhash.1" | sed 's/\\(dq/"/g')
  mkdir "$room/compared" && cd "$room/compared" || return 1
  compare() { PATH=$prefix/bin:$PATH bash -c "$example"; }
  ! compare && mkdir a b && ! compare && rmdir a b && echo same >a && echo same >b && compare &&
    echo other >b && ! compare && rm b && ! compare
}

# Prints the names of the files below a directory, such as those that make install copied: DIRECTORY
listed() {
  (cd "$1" && find . ! -type d | sort)
}

# Checks that make refuses a directory in a single line, before it copies or removes a file: VARIABLE=DIRECTORY
refuses() {
  local target said
  for target in install uninstall; do
    ! said=$(PATH=$path make -s -C "$top" "$target" DESTDIR="$room/refused" "${1//$/\$\$}" 2>&1) &&
      [ ! -e "$room/refused" ] && [ "$(grep -v '^make: ' <<<"$said")" = \
        "make install: ${1%%=*} must be an absolute path without spaces or any of \"'\\\`\$#|&;: ${1#*=}" ] || return 1
  done
}

# Builds and runs the programs of docs/C.md and docs/CPP.md with the commands on the pages and the library below $HOME.
runs_as_the_pages_say() (
  export HOME=$room/home
  mkdir "$HOME" && installs PREFIX="$HOME/.local" && cd "$HOME" &&
    blocks "$top/docs/C.md" c hello >hello.c && blocks "$top/docs/CPP.md" cpp hello >hello.cpp &&
    blocks "$top/docs/C.md" c stdin >hash_file.c && blocks "$top/docs/C.md" sh pkg-config >commands &&
    blocks "$top/docs/CPP.md" sh pkg-config >>commands &&
    prints_the_hash_of_hello 3
)

# Checks that the commands print the hash this many times, and that each has a comment that states this: TIMES
prints_the_hash_of_hello() {
  local hash=3327445792987248966
  bash -e commands | tee /dev/stderr | grep -xc "$hash" | grep -x "$1" &&
    [ "$(grep -cE " # prints ($hash|the same)\$" commands)" = "$1" ]
}

by_cmake_as_the_page_says() (
  export HOME=$room/home
  cd "$HOME" && blocks "$top/docs/CPP.md" cmake find_package >CMakeLists.txt &&
    blocks "$top/docs/CPP.md" sh cmake >commands && prints_the_hash_of_hello 1
)

# Checks that the whole directory can be moved: no file names the place of its installation.
serves_a_moved_folder() {
  local place=$room/sécond
  mv "$room/home/.local" "$place" && ! grep -rlF "$room/home" "$place" && builds_by_pkg_config "$place/lib"
}

links_both_by_cmake() (
  builds_by_cmake "$room/sécond" &&
    readelf -d "$room/cmake/c_rapidhash_c" | grep -F '[librapidhash_c.so.1]' &&
    ! readelf -d "$room/cmake/cpp_rapidhash_c_static" | grep -F librapidhash_c &&
    cd "$room/cmake" && nm -A c_rapidhash_c c_rapidhash_c_static c_header >"$room/nm" &&
    [ "$(grep -oE "[UTt] rapidhash_v3(@|$)" "$room/nm" | cut -c 1 | xargs)" = "U T t" ]
)

# Nobody, not even root, can create a directory in /proc. A directory with the name of a file must not receive it.
fails_if_a_copy_fails() {
  local held
  ! installs PREFIX="$room/failed" DATADIR=/proc/none && for held in include/rapidhash_c.h lib/librapidhash_c.so; do
    mkdir -p "$room/$held/$held" && ! installs PREFIX="$room/$held" && [ -z "$(ls "$room/$held/$held")" ] || return 1
  done
}

# Installs below DESTDIR, with separate directories for programs and libraries.
serves_a_packager() {
  local stage="$room/a stage" pc="$room/a stage/usr/lib/here/pkgconfig/rapidhash_c.pc"
  local folders=(DESTDIR="$stage" PREFIX=/usr BINDIR=/opt/bin LIBDIR=/usr/lib/here DATADIR=/opt/share)
  installs "${folders[@]}" || return 1
  # pkg-config splits the names of files at spaces, and writes a backslash before a space.
  told_folder() {
    realpath -s "$(PKG_CONFIG_LIBDIR=${pc%/*} pkg-config --variable="$1" rapidhash_c | sed 's|\\ | |g')"
  }
  [ "$(told_folder prefix)" = "$stage/usr" ] && [ "$(told_folder libdir)" = "$stage/usr/lib/here" ] &&
    [ "$(told_folder includedir)" = "$stage/usr/include" ] && [ -e "$stage/opt/share/man/man3/rapidhash_c.3" ] &&
    { ! has "$builder" || [ -x "$stage/opt/bin/rapidsum" ] && [ -e "$stage/opt/share/man/man1/rapidhash.1" ]; } &&
    make -s -C "$top" uninstall "${folders[@]}" && [ -z "$(listed "$stage")" ]
}

# Checks that the environment also sets the directories, and that so do the names of the GNU Coding Standards, which
# count on the command line.
reads_each_name() {
  local stage=$room/named file
  DESTDIR=$stage PREFIX=/one INCLUDEDIR=/two/ LIBDIR=/none installs libdir=/three datarootdir=/four &&
    DESTDIR=$stage PREFIX=/none installs prefix=/five exec_prefix=/six || return
  for file in two/rapidhash_c.h three/librapidhash_c.a four/man/man3/rapidhash_c.3 five/include/rapidhash_c.h \
    six/lib/librapidhash_c.a five/share/man/man3/rapidhash_c.3; do
    [ -e "$stage/$file" ] || { echo "no $file" && return 1; }
  done
}

# Checks that headers outside PREFIX keep their full path.
serves_headers_elsewhere() {
  local lib=$room/elsewhere/usr/lib
  installs DESTDIR="$room/elsewhere" PREFIX=/usr INCLUDEDIR=/opt/headers &&
    grep -x 'includedir=/opt/headers' "$lib/pkgconfig/rapidhash_c.pc" &&
    grep -F '"/opt/headers"' "$lib/cmake/rapidhash_c/rapidhash_c-config.cmake"
}

# Checks that the library is found if a directory of PREFIX, or one beside the library, is a link to another depth.
serves_a_linked_folder() {
  mkdir -p "$room/linked/a/b/lib" && ln -s a/b/lib "$room/linked/lib" && installs PREFIX="$room/linked" &&
    builds_by_pkg_config "$room/linked/lib" && mkdir -p "$room/aside"/{lib,a/pkgconfig,a/cmake} &&
    ln -s ../a/{pkgconfig,cmake} "$room/aside/lib" && installs PREFIX="$room/aside" &&
    grep -F "\"$room/aside/lib\"" "$room/aside/a/cmake/rapidhash_c/rapidhash_c-config.cmake" &&
    builds_by_pkg_config "$room/aside/lib"
}

# Checks that nothing is copied if a single product is missing, and that a line names the command to run first.
wants_a_build_first() {
  local missing product said
  copy_sources "$room/new" || return 1
  for missing in none "${products[@]}"; do
    for product in "${products[@]}"; do
      install -D /dev/null "$room/new/$product" || return 1
    done
    rm -f "$room/new/$missing"
    said=$(PATH=$path make -s -C "$room/new" install PREFIX="$room/$missing" 2>&1) && [ "$missing" = none ] && continue
    [ ! -e "$room/$missing" ] && grep '^make install: .*: run make first$' <<<"$said" || return 1
  done
}
# The products that make install copies, each after the products from which it is built.
products=(crates/rapidhash_cli/out/rapidhash_cli crates/rapidsum/out/rapidsum
  crates/rapidhash_c/out/librapidhash_c.a build/librapidhash_c.so.1)

# Checks that make without the kit prints one line, builds the same files by cc and cargo, and installs them, by several
# jobs at once, for a user without cargo, and from a header of the future.
serves_without_the_kit() {
  local place=$room/without sources=$room/sources
  copy_sources "$sources" && export PATH=$path &&
    [ "$(make -s -j3 -C "$sources" all install PREFIX="$place" 2>&1 | grep -v '^make: cargo builds')" = \
      'make: rt is not on PATH: building with cc and cargo, which is not the proved build' ] &&
    [ -z "$(make -s -C "$sources" 2>&1)" ] && touch -d 'next year' "$sources/packages/c/include/rapidhash_c.h" &&
    make -s -C "$sources" install PREFIX="$place" cargo= &&
    diff <(listed "$prefix") <(listed "$place") && builds_by_pkg_config "$place/lib" &&
    [ -z "$(nm "$place/bin/rapidsum" 2>/dev/null)" ] && prefix=$place prints_and_checks_a_sum &&
    prints_the_known_hash "$place" && prints_the_known_hash "$sources" && make -s -C "$sources" clean &&
    [ ! -e "$sources/build" ]
}

# Checks that a second installation replaces each file, so that a running program keeps the one that it has mapped.
replaces_files() {
  find "$prefix" -type f -exec sed -i '$a old' {} + && cp -rl "$prefix" "$room/kept" && installs PREFIX="$prefix" &&
    [ -z "$(find "$room/kept" -type f -print0 | xargs -0 grep -axL old)" ] && ! grep -raxl old "$prefix"
}

# Checks that every user can run the programs and the shared library and read every other file.
has_the_modes() {
  [ -z "$(find "$prefix" -type f ! -perm 644 ! -perm 755)" ] &&
    diff <(find "$prefix" -type f -perm 755 -printf '%f\n' | sort) \
      <(printf '%s\n' librapidhash_c.so.1; ! has "$builder" || printf '%s\n' rapidhash rapidsum)
}

# Checks that the installed files pass in a stage with a quote and a comma in its name, by the compiler that CC names.
# Variables may name a directory with other ones. Where nothing is installed, no other installation passes instead.
checks_a_stage() {
  mkdir "$room/others" && echo '#error' | tee "$room"/others/{rapidhash_c.h,librapidhash_c.so.1} && ln -s "$room" \
    "$room/a',b" && LD_LIBRARY_PATH=$room/others make -s -C "$top" installcheck DESTDIR="$room/a',b" PREFIX=/usr \
    CPPFLAGS="-I$room/others" &&
    ! make -s -C "$top" installcheck DESTDIR="$room" PREFIX=/usr CC=false &&
    ! CPATH=$prefix/include LIBRARY_PATH=$prefix/lib make -s -C "$top" installcheck PREFIX="$room/none" \
      LDFLAGS="-Wl,-rpath,$prefix/lib" &&
    ! grep -nE '(^|[^"(a-z])cc -' "$top"/Makefile "$top"/packages/*/make.mk
}

# Checks that a removal leaves a file of another alone, also if a variable names it, and no directory of its own, nor
# what a killed installation left.
removes_its_files() {
  mkdir -p "$prefix/bin" && echo mine >"$prefix/bin/mine" && touch "$prefix/lib/librapidhash_c.a.new" &&
    TOOLS=mine make -s -C "$top" uninstall PREFIX="$prefix" &&
    [ "$(listed "$prefix")" = ./bin/mine ] && [ -z "$(find "$prefix" -name 'rapidhash*')" ]
}

try build make -s -C "$top"
try build_again builds_nothing_anew
try install installs PREFIX="$prefix"
try_with program "$builder" prints_the_known_hash "$prefix"
try installcheck checks_a_stage
try_with program_of_sums "$builder" prints_and_checks_a_sum
try_with shared_library pkg-config builds_by_pkg_config "$prefix/lib"
try_with first_program 'pkg-config c++' runs_as_the_pages_say
try_with first_program_by_cmake 'cmake pkg-config c++' by_cmake_as_the_page_says
try_with moved_folder 'pkg-config c++' serves_a_moved_folder
try_with cmake 'cmake pkg-config c++' links_both_by_cmake
try licences has_the_licences "$prefix/share/doc/rapidhash"
try modes has_the_modes
try files_in_use replaces_files
try_with manuals mandoc mandoc -T lint packages/tools/rapid{hash,sum}.1 packages/c/rapidhash_c.3
try_with example_of_the_manual "$builder" compares_by_the_manual
cd "$top" || exit 1
try_with options_of_the_manual "$builder" names_every_option rapidhash 8
try_with options_of_the_manual_of_sums "$builder" names_every_option rapidsum 15
try_with versions_of_the_manual "$builder mandoc" names_each_version
try_with limits_of_the_manual "$builder" equals_v3_as_the_manual_says
try messages_of_the_manual has_the_messages
try_with texts_of_the_manual_of_sums "$builder mandoc" has_the_texts_of_the_help
for name in rapidhash rapidsum; do try_with "completions_of_$name" "$builder" has_its_completions "$name"; done
for folder in PREFIX=usr BINDIR= LIBDIR='/a b' INCLUDEDIR="/a'b" DATADIR=$'/a\nb' \
  'PREFIX=/a"' PREFIX=/a\\ PREFIX=/a\` PREFIX=/a\$ PREFIX=/a\# PREFIX=/a\| PREFIX=/a\& PREFIX=/a\;; do
  try "refuses ${folder//$'\n'/ }" refuses "$folder"
done
try quiet installs_quietly
try full_disk leaves_no_part
try failed_copy fails_if_a_copy_fails
try_with folders_of_a_packager pkg-config serves_a_packager
try names_of_folders reads_each_name
try headers_elsewhere serves_headers_elsewhere
try_with linked_folder pkg-config serves_a_linked_folder
try nothing_built wants_a_build_first
try_with without_the_kit 'rt /usr/bin/rustc /usr/bin/cargo' eval '(serves_without_the_kit)'
try uninstall removes_its_files

finish
