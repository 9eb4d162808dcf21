#!/usr/bin/env bash
# reads: packages Makefile scripts docs
# Builds the archive for users without the kit, unpacks it in a temporary directory, and uses its contents. Without the
# kit, make must refuse to build it.
. "$(dirname "$0")/../../../tests/cases.sh"

# What a developer's builds have left in the directories must not be packed.
makes_the_archive() {
  local left=("$top"/packages/{rust{,/tools}/target,python/rapidhash/__pycache__}/left)
  for file in "${left[@]}"; do install -D /dev/null "$file"; done
  (cd "$top/packages/rust" && cargo generate-lockfile --offline) # Ignored by git.
  make -s -C "$top" dist </dev/null && rm -f "${left[@]}" && tar -C "$room" -xzf "$top"/build/yervound-*.tar.gz &&
    mv "$room"/yervound-* "$room/unpacked" && has_the_licences "$room/unpacked" &&
    [ -z "$(find "$room/unpacked" -name left -o -name make.mk -o -name Cargo.lock)" ]
}

# Compiles the check of the library and replays a file of cases, with the command on the archive's page: FILE
replays() {
  (cd "$room/unpacked" && blocks README.md sh cases.c | sed -n "s|cases.tsv|'$1'|p" >../commands &&
    [ -s ../commands ] && bash -e ../commands)
}

# Checks that the program reports a wrong hash in the file.
tells_a_wrong_case() {
  sed '$ s/[0-8]$/9/; t; $ s/9$/8/' "$room/unpacked/cases.tsv" >"$room/turned" && ! replays "$room/turned"
}

# Checks that a program finds the Rust crate in the unpacked archive.
builds_the_rust_crate() {
  mkdir -p "$room/first/src" && cd "$room/first" &&
    printf '[package]\nname = "first"\nedition = "2021"\n[dependencies]\n%s\n' \
      "yervound-rapidhash = { path = \"$room/unpacked/packages/rust\" }" >Cargo.toml &&
    echo 'fn main() { println!("{}", rapidhash::v3::rapidhash_v3(b"hello")) }' >src/main.rs &&
    [ "$(cargo run --quiet --offline)" = 3327445792987248966 ]
}

# Builds the first program with the header alone, with the command on its page.
builds_with_the_header() {
  cd "$room/unpacked" && blocks docs/C.md c hello >hello.c && blocks docs/C.md sh Ipackages >commands &&
    [ "$(bash -e commands)" = 3327445792987248966 ]
}

# Checks that the archive has the package for Node, the wheels and the jar as make built them: their own tests use
# these.
has_what_other_tests_use() {
  cd "$room/unpacked" && diff -r "$top/build/npm" packages/javascript && diff -r -x made "$top/build/wheels" wheels &&
    cmp "$top"/build/yervound-rapidhash-*[0-9].jar packages/java/*.jar
}

# Checks that the archive has what it names in place of each target of make that a page of it runs.
has_what_make_builds() {
  local target path
  cd "$room/unpacked" || return
  grep -rhoE --include='*.md' '\bmake (-C "\$YERVOUND" )?(install|wheel|npm|jar|postgresql|library|sqlite|page)\b' . |
    sed 's/.* //' | sort -u >"$room/targets"
  [ "$(wc -l <"$room/targets")" -ge 5 ] || return
  while read -r target; do
    for path in $(grep "^| \`make $target\` | " README.md | cut -d '|' -f 3 | grep -oE '`[^`]+`' | tr -d '`'); do
      [ -e "$path" ] && : >"$room/$target.found" || return
    done
    [ -e "$room/$target.found" ] || { echo "make $target"; return 1; }
  done <"$room/targets"
}

# Checks that the archive has each path in the first column of its page, and all that its other pages link to, and runs
# the commands for SQLite and Python.
has_what_its_page_names() {
  local path command
  cd "$room/unpacked" && {
    sed -n 's/^| \(`[^|]*\) | .*/\1/p' README.md | grep -v '^`make' | grep -oE '`[^`]+`' | tr -d '`'
    grep -ohE '\]\([^)#]+' docs/*.md | grep -v :// | sed 's|..|docs/|'; } >"$room/paths" &&
    [ "$(wc -l <"$room/paths")" -ge 60 ] || return
  while read -r path; do [ -e "$path" ] || { echo "no $path" && return 1; }; done <"$room/paths"
  for command in cc pip; do
    sed -n "s/.*: \`\($command .*\)\` |\$/\1/p" README.md
  done >"$room/commands" && [ "$(wc -l <"$room/commands")" -eq 2 ] &&
    sed "s|^pip install|& --quiet --target '$room/pip'|; s|^pip|/usr/bin/python3 -m pip|" "$room/commands" | bash -e &&
    sqlite3 :memory: '.load ./rapidhash' "SELECT rapidhash_v3('hello')" | grep -x 3327445792987248966 &&
    rm rapidhash.so &&
    PYTHONPATH=$room/pip /usr/bin/python3 -c 'import rapidhash; assert rapidhash.v3(b"hello") == 3327445792987248966'
}

# Checks that a tree with a new file is refused before anything is built.
refuses_changes() {
  git clone -q -s "$top" "$room/changed" && touch "$room/changed/new" &&
    ! make -s -C "$room/changed" release >"$room/said" 2>&1 &&
    grep -x 'make release: the tree has changes: commit them first' "$room/said" && [ ! -e "$room/changed/build" ]
}

# Checks that make refuses to release a commit without a gate that passed, before it builds anything.
refuses_to_release() {
  ! make -s MAKE=true kit=yes release 2>"$room/said" && [ ! -e build/release ] &&
    grep -qx 'make release: build/gate.md has no gate of this commit that passed: run make check first' "$room/said"
}

# Checks that a release has the page of its gate, each product of make, for which empty files stand in, its commit and
# all checksums, and no product of an older version or commit. Without a page, or with that of another commit or of a
# gate that failed, there is none.
releases_a_commit() {
  local gate file v files
  v=$(sed -n 's/^release = //p' "$top/Makefile")
  files=({sources/yervound-$v,yervound-$v-x86_64-linux}.tar.gz
    yervound-rapidhash-{$v{.tgz,.crate,{,-javadoc,-sources}.jar},go-$v.zip} wheels/a.whl wheels/b.tar.gz
    debian/a.deb debian/b.deb debian/a.dsc debian/a.tar.xz)
  git clone -q -s "$top" "$room/released" && cd "$room/released" || return
  for file in "${files[@]}" "${files[@]//$v/0.9.0}" wheels/made debian/log; do
    install -D /dev/stdin "build/$file" <<<old || return
  done
  refuses_to_release || return
  for gate in 'HEAD 1' 'HEAD~1 0'; do
    printf '| %s |\n' "commit | $(git rev-parse "${gate% *}")" "result | 9 passed, ${gate#* } failed" >build/gate.md
    refuses_to_release || return
  done
  printf '| %s |\n' "commit | $(git rev-parse HEAD)" 'result | 9 passed, 0 failed' >build/gate.md
  { echo '#!/bin/bash -e'; printf 'test -e "build/%s" || install -D /dev/null "$_"\n' "${files[@]}"; } >"$room/makes" &&
    chmod +x "$room/makes" && make -s MAKE="$room/makes" kit=yes release && cd build/release &&
    git rev-parse HEAD | diff - COMMIT && ! grep -x old -- * &&
    diff <(printf '%s\n' gate.md COMMIT RELEASE.md SHA256SUMS "${files[@]##*/}" | sort) <(printf '%s\n' * | sort) &&
    sha256sum --check SHA256SUMS | grep -c ': OK$' | grep -x "$((${#files[@]} + 3))"
}

# Checks that two copies of a commit have the same packages, byte for byte, in other directories, times, masks, locales
# and settings of git.
packs_the_same_bytes() (
  local place settings=()
  for place in one 'a place'; do
    git clone -q -s "${settings[@]}" "$top" "$room/$place" &&
      make -s -C "$room/$place" npm wheel jar javadoc sources crate gomodule || return
    (cd "$room/$place/build" && sha256sum -- *.t*gz sources/* *.crate *.zip *.jar wheels/*.*) >"$room/$place.sums"
    export TZ=Asia/Tokyo LC_ALL=C.UTF-8
    umask 077 && settings=(-c core.autocrlf=true -c tar.umask=0007)
  done
  [ "$(wc -l <"$room/one.sums")" -eq 9 ] && diff "$room/one.sums" "$room/a place.sums"
)

# Checks that a bench that fails leaves its figures as they were, and one that succeeds replaces them.
keeps_the_figures() {
  cd "$room/released" && printf '#!/bin/sh\necho new\nexit 1\n' >bench/size && ! make -s bench/size.tsv &&
    git diff --exit-code bench/size.tsv && printf '#!/bin/sh\necho new\n' >bench/size && make -s bench/size.tsv &&
    [ "$(cat bench/size.tsv)" = new ]
}

# Checks that a new entry of the changelogs reaches each file with the version, except the old entries and symbols.
carries_the_version() {
  local old history=packages/debian/debian/changelog
  git clone -q -s "$top" "$room/next" && cd "$room/next" &&
    old=$(sed -n 's/^__version__ = "\(.*\)"$/\1/p' packages/python/*/__init__.py) &&
    sed -i '0,/^## \[/s//## [9.8.7] - 2027-01-01\n\n&/' CHANGELOG.md && sed -i "1s/($old)/(9.8.7)/" $history &&
    scripts/version --write &&
    ! git grep -nE "${old//./[.]}|(Yervound|rapidsum) ${old%.*}\b" -- . ':!CHANGELOG.md' ':!packages/debian/debian' \
      ':!packages/rust/tools/src' ':!bench/*.tsv' ':!scripts/version' && grep -q 'VERSION_NUMBER`, 908,' docs/C.md &&
    old=${old%.*} && ! git grep -nE "\b${old/./[.]}\b" -- Makefile '*.mk' '*.in' '*.cmake' '*.control' '*.h' '*.1' \
      '*.3' ':(glob)packages/*/'{CMakeLists.txt,Makefile}
}

# Checks that make without the kit refuses before it builds anything: TARGET
refuses_without_the_kit() {
  git clone -q -s "$top" "$room/$1" && ! make -s -C "$room/$1" kit= "$1" >"$room/said" 2>&1 &&
    head -n 1 "$room/said" | grep -x "make $1: rt, the command of the Rattle kit, is not on PATH: it builds the proved \
programs and library for the archive" &&
    [ ! -e "$room/$1/build" ]
}

# Checks that make packs what it can if asked to, and names what it leaves out, also on the archive's page.
packs_a_part() {
  make -s -C "$top" dist PARTIAL=yes has_npm= has_jar= 2>&1 | tee "$room/said" &&
    grep -x 'Left out because the tools to build them were missing: npm jar' "$room/said" &&
    mkdir "$room/part" && tar -C "$room/part" --strip-components 1 -xzf "$top"/build/yervound-*.tar.gz &&
    cd "$room/part" && diff <(tail -n 1 README.md) <(tail -n 1 "$room/said") && [ -x bin/rapidsum ] && [ -d wheels ] &&
    [ ! -e packages/javascript ] && [ -z "$(ls packages/java/*.jar 2>/dev/null)" ]
}

# Checks that all users may read each package and its files, of a tree that only its owner may read.
packs_readable_files() (
  local product
  umask 077
  git clone -q -s "$top" "$room/private" && cd "$room/private" || return
  for product in rapidhash_cli/out/rapidhash_cli rapidsum/out/rapidsum rapidhash_c/out/librapidhash_c.a; do
    install -D -m 700 "$top/crates/$product" "crates/$product" || return
  done
  make -s dist && python3 - build/*.t*gz build/wheels/*.* build/*.jar <<'PYTHON'
import os, sys, tarfile, zipfile
hidden = [name for name in sys.argv[1:] if os.stat(name).st_mode & 0o44 != 0o44]
for name in sys.argv[1:]:
    if "gz" in name:
        modes = {it.name: it.mode for it in tarfile.open(name) if not it.issym()}
    else:
        modes = {it.filename: it.external_attr >> 16 or 0o44 for it in zipfile.ZipFile(name).infolist()}
    hidden += [f"{name}: {it}" for it, mode in modes.items() if mode & 0o44 != 0o44]
sys.exit("\n".join(hidden) if hidden or len(sys.argv) < 6 else 0)
PYTHON
)

for target in dist release; do try "${target}_without_the_kit" refuses_without_the_kit "$target"; done
try release_of_a_commit releases_a_commit
try failed_bench keeps_the_figures
try next_version carries_the_version
needs rt esbuild wasm-ld clang npm javac /usr/lib/python3/dist-packages/{setuptools,wheel}
try release_of_a_changed_tree refuses_changes
try readable_files packs_readable_files
try_with same_bytes cargo packs_the_same_bytes
try partial_archive packs_a_part
try archive makes_the_archive
try results_of_make has_what_make_builds
try_with names_of_the_page 'sqlite3 /usr/include/sqlite3.h /usr/lib/python3/dist-packages/pip' has_what_its_page_names
try program prints_the_known_hash "$room/unpacked"
try cases replays "$room/unpacked/cases.tsv"
try wrong_case tells_a_wrong_case
# The files for pkg-config and CMake find the library in the unpacked archive.
try library builds_by_pkg_config "$room/unpacked/lib"
try_with cmake cmake builds_by_cmake "$room/unpacked"
try rust_crate builds_the_rust_crate
try header builds_with_the_header
try other_packages has_what_other_tests_use

finish
