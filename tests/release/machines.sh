#!/usr/bin/env bash
# Runs the tests of the Rust crate on other machines, also with a million random messages: under qemu, and in Node as
# WebAssembly, which has no threads, and for which Rust ignores the tests that panic. Debian's cargo builds them with
# rustc 1.63, the oldest compiler that the crate supports. The C header, compiled for each machine and for powerpc,
# which is big-endian with 32 bits, must have the values of all vectors, with a 128-bit product and without. Cargo
# builds the programs too, except for WebAssembly. Debian's Node for s390x, which is big-endian, runs tests of the
# package for JavaScript.
#
# The other Debian packages are unpacked in build/machines, or in the directory that RAPIDHASH_MACHINES names, which
# later runs reuse. They are not installed.
. "$(dirname "$0")/../cases.sh"
folder=$(realpath -m "${RAPIDHASH_MACHINES:-$top/build/machines}")
root=$folder/root
export APT_CONFIG=$folder/apt/apt.conf

# The machines: our name, and those of Debian, rustc, GNU, and qemu. Without that of rustc, the crate is not tested.
# Without the last, no qemu is used: x86_64 runs the programs of i386, whose threads never end under qemu.
machines=(
  'x86_64 - x86_64-unknown-linux-gnu - -'
  'aarch64 arm64 aarch64-unknown-linux-gnu aarch64-linux-gnu aarch64'
  's390x s390x s390x-unknown-linux-gnu s390x-linux-gnu s390x'
  'ppc64el ppc64el powerpc64le-unknown-linux-gnu powerpc64le-linux-gnu ppc64le'
  'i386 i386 i686-unknown-linux-gnu i686-linux-gnu -'
  'armhf armhf armv7-unknown-linux-gnueabihf arm-linux-gnueabihf arm'
  'powerpc powerpc - powerpc-linux-gnu ppc'
  'wasm32 - wasm32-wasi - -'
  'node s390x - - s390x'
)
# The number of machines that are built and run in parallel.
jobs=2
# The compiler, the libraries that it and the linkers need, and the emulators.
compiler=(rustc libstd-rust-1.63 libstd-rust-dev libllvm14 lib{z3-4,edit2,bsd0,md0,xml2,icu72,ffi8,jansson4,binutils}
  qemu-user-static)
# Node, its libraries, and its parts that are packages of their own.
node=({nodejs,libnode108,libc6,libgcc-s1,libstdc++6,libicu72,libssl3,libuv1,libnghttp2-14,libbrotli1,libc-ares2}:s390x
  zlib1g:s390x node-{undici,busboy,acorn,cjs-module-lexer,xtend})

# Prepares an apt with its own index, so that neither the packages nor the architectures of the system change. It has
# no sandbox, because the sandbox's user cannot write here.
prepare_apt() {
  mkdir -p "$folder"/{have,root,apt/lists/partial,apt/archives/partial} && : >"$folder/apt/status" &&
    echo 'deb [signed-by=/usr/share/keyrings/debian-archive-keyring.gpg]' \
      'http://deb.debian.org/debian bookworm main' >"$folder/apt/sources.list" &&
    cat >"$APT_CONFIG" <<CONF
APT::Architecture "amd64";
APT::Architectures { "amd64"; "arm64"; "s390x"; "ppc64el"; "i386"; "armhf"; };
APT::Sandbox::User "root";
Acquire::Languages "none";
Dir::State "$folder/apt";
Dir::State::status "$folder/apt/status";
Dir::Cache "$folder/apt";
Dir::Etc::sourcelist "$folder/apt/sources.list";
Dir::Etc::sourceparts "-";
CONF
}

# Unpacks packages, unless an earlier run has done so: NAME PACKAGE..
fetch() {
  local stamp=$folder/have/$1 debs=$folder/debs.$1
  shift
  [ "$(cat "$stamp" 2>/dev/null)" != "$*" ] || return 0
  rm -rf "$debs" && mkdir "$debs" && (
    cd "$debs" && apt-get -q download "$@" || exit 1
    for deb in *.deb; do dpkg -x "$deb" "$root" || exit 1; done
  ) && echo "$*" >"$stamp" && rm -rf "$debs"
}

# Unpacks the compiler. Reads the index only if the compiler is missing, so later packages use an old index.
fetch_compiler() {
  if ! command -v apt-get >/dev/null || ! command -v dpkg >/dev/null; then
    echo "no apt-get and dpkg, which bring Debian's compiler"
    return 1
  fi
  prepare_apt && { [ -e "$folder/have/compiler" ] || apt-get -q update; } &&
    fetch compiler "${compiler[@]}" && with_old rustc --version
}

# Runs a command with the unpacked compiler: COMMAND..
with_old() {
  env PATH="$root/usr/bin:$PATH" LD_LIBRARY_PATH="$root/usr/lib/x86_64-linux-gnu" "$@"
}

# Checks that a machine has all that it needs. If not, the last line names what is missing: NAME PACKAGE..
has_all() {
  if [ ! -x /usr/bin/cargo ]; then
    echo "no /usr/bin/cargo, which Debian's package cargo brings"
    return 1
  elif [ "$1" = wasm32 ] && ! node -e 'require("node:wasi")'; then
    echo 'no node that has WASI without a flag, as Node 20 has'
    return 1
  elif [ ! -e "$room/compiler" ]; then
    cat "$room/compiler.log"
    return 1
  elif [ $# -gt 1 ]; then
    fetch "$@"
  fi
}

# Counts a case, with a log of its own, because other machines run in parallel: NAME COMMAND..
try() {
  local name=$1 log=$room/$1.log
  shift
  if "$@" >"$log" 2>&1; then ok "$name"; else fail "$name" "$(tail -c 800 "$log")"; fi
}

# Runs the tests of the C header and of the crate on a machine: NAME DEBIAN RUSTC GNU QEMU
machine() {
  local name=$1 debian=$2 target=$3 gnu=$4 qemu=$5 of_target
  local packages=() tests=(--tests) cc=(cc) run=() flags='-D warnings' product
  [ "$name" != node ] || { in_node "$debian" "$qemu"; return; }
  of_target=CARGO_TARGET_$(tr a-z- A-Z_ <<<"$target")
  export CARGO_BUILD_TARGET=$target CARGO_TARGET_DIR=$room/$name.out CARGO_NET_OFFLINE=true
  case $name in
    x86_64) ;;
    wasm32)
      packages=(libstd-rust-dev-wasm32 lld-14 wasi-libc)
      tests=(--tests -- --skip threads --skip processes)
      cc=()
      run=(node --no-warnings "$top/tests/release/machines/wasi.mjs")
      flags+=" -L $root/usr/lib/wasm32-wasi"
      export "${of_target}_LINKER=$root/usr/bin/wasm-ld-14"
      ;;
    *)
      # A program under an emulator cannot start itself.
      tests=(--tests -- --skip processes)
      packages=({gcc-12,cpp-12,binutils}-"$gnu"
        {libc6,libc6-dev,linux-libc-dev,libgcc-12-dev,libgcc-s1}-"$debian-cross")
      [ "$target" = - ] || packages+=(libstd-rust-dev:"$debian")
      cc=(with_old "$root/usr/bin/$gnu-gcc-12" --sysroot="$root")
      run=("$root/usr/bin/qemu-$qemu-static" -L "$root/usr/$gnu")
      [ "$qemu" != - ] || run=("$root/usr/$gnu/lib/ld-linux.so.2" --library-path "$root/usr/$gnu/lib")
      flags+=" -C link-arg=--sysroot=$root"
      export "${of_target}_LINKER=$root/usr/bin/$gnu-gcc-12"
      ;;
  esac
  export "${of_target}_RUSTFLAGS=$flags"
  [ "${#run[@]}" -eq 0 ] || export "${of_target}_RUNNER=${run[*]}"
  if ! has_all "$name" "${packages[@]}" >"$room/$name.log" 2>&1; then
    skip "$name" "$(tail -n 1 "$room/$name.log")"
    return
  fi
  for product in '' -DRAPIDHASH_NO_INT128; do
    [ "${#cc[@]}" -eq 0 ] || try "${name}_c${product#-DRAPIDHASH}" has_the_values "$product"
  done
  [ "$target" != - ] && cd "$top/packages/rust" || return 0
  try "${name}_tests" with_old /usr/bin/cargo test --release "${tests[@]}"
  MESSAGES=million try "${name}_messages" with_old /usr/bin/cargo test --release --test vectors random
  [ "$name" = wasm32 ] || try "${name}_tools" has_the_tools
}

# Builds the programs for a machine, and hashes a file and checks a list with them.
has_the_tools() {
  local built=$CARGO_TARGET_DIR/$target/release
  (cd "$top/packages/rust/tools" && with_old /usr/bin/cargo build --release) &&
    mkdir "$room/$name.at" && cd "$room/$name.at" && echo something >file && echo 'a1266b469390773a  file' >list &&
    [ "$("${run[@]}" "$built/rapidhash" --v1 file)" = 15965596575264898037 ] &&
    "${run[@]}" "$built/rapidsum" file | diff list - && "${run[@]}" "$built/rapidsum" --check list
}

# Compares the values of the C header on a machine, with the compiler in `cc` and the emulator in `run`: [OPTION]
has_the_values() {
  "${cc[@]}" -O2 ${1:+"$1"} -I"$top/packages/c/include" "$top/packages/c/tests/cases.c" -o "$room/$name.c" &&
    "${run[@]}" "$room/$name.c" <"$top/crates/test_replay/data/cases.tsv"
}

# Runs tests of the package for JavaScript in Node on a machine, which has a directory of its own, because that of the
# compiler has programs of this machine. The cases of 4 GiB would take hours there: DEBIAN QEMU
in_node() {
  local run=("$root/usr/bin/qemu-$2-static" -L "$folder/node.$1" "$folder/node.$1/usr/bin/node")
  local root=$folder/node.$1 test reason
  if reason=$(lacks clang wasm-ld esbuild npm); then
    skip node "$reason"
  elif ! has_all node "${node[@]}" >"$room/node.log" 2>&1; then
    skip node "$(tail -n 1 "$room/node.log")"
  else
    try "node_$1_package" lay_out_for_node
    for test in cases known refused keys saved; do
      try "node_$1_$test" env -C "$room/node" "${run[@]}" --no-warnings "$test.mjs"
    done
  fi
}

# Lays out tests of the package for JavaScript beside it.
lay_out_for_node() {
  make -s -C "$top" npm && mkdir -p "$room/node/node_modules" &&
    cp -r "$top/build/npm" "$room/node/node_modules/yervound-rapidhash" &&
    cp "$top"/packages/javascript/tests/*.mjs "$room/node" &&
    grep -v zeros: "$top/crates/test_replay/data/cases.tsv" >"$room/node/cases.tsv"
}

fetch_compiler >"$room/compiler.log" 2>&1 && touch "$room/compiler"
for row in "${machines[@]}"; do
  while [ "$(jobs -rp | wc -l)" -ge "$jobs" ]; do wait -n; done
  read -ra words <<<"$row"
  (machine "${words[@]}") >"$room/${words[0]}.lines" &
done
wait

for row in "${machines[@]}"; do
  grep . "$room/${row%% *}.lines" || echo "not ok - ${row%% *}, without a case"
done | tee "$room/lines"
cases=$(grep -cE '^(not )?ok ' "$room/lines") failed=$(grep -c '^not ok ' "$room/lines")
finish
