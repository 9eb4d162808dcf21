#!/usr/bin/env bash
# reads: packages/javascript packages/c/include crates/test_replay/data tests/fields.tsv
# Builds the JavaScript package, installs it from an empty directory with the commands on its page, and tests the
# installed copy. The cases cover Node, the types, and browsers, with the page packages/javascript/page. Missing
# programs are named, and their cases are not counted.
. "$(dirname "$0")/../../../tests/cases.sh"
# Prevents all requests to a registry, including those that npm makes by itself.
export npm_config_offline=true npm_config_audit=false npm_config_update_notifier=false

# Checks that the package has all of its files and no others, with the licences of the repository.
has_its_files() {
  local folder=$room/first/node_modules/yervound-rapidhash
  has_the_licences "$folder" && (cd "$folder" && LC_ALL=C ls) | diff - <(
    printf '%s\n' LICENSE-APACHE LICENSE-MIT NOTICE README.md arguments.mjs fields.mjs index.d.cts \
      index.d.ts key.mjs library.mjs module.mjs package.json rapidhash.cjs rapidhash.mjs shards.mjs stream.mjs
  ) && cd "$room/first" && node -p 'const its = require("yervound-rapidhash/package.json");
    `${its.license}, ${its.engines.node}, ${its.sideEffects}`' | grep -x 'MIT OR Apache-2.0, >=18, false'
}

# Lays out the tests beside the installed package, with the files that they read.
lay_out() {
  cp "$top"/packages/javascript/tests/*.m* "$top/build/rapidhash.wasm" "$room/first" &&
    cp "$top/crates/test_replay/data/cases.tsv" "$top/tests/fields.tsv" "$room/first" &&
    seq 1 20000000 | head -c 100000000 >"$room/first/large"
}

# Runs the page's program over a file. A comment that begins with a hash is its wanted value.
runs_the_page() {
  cd "$room/first" && { echo 'import { equal } from "node:assert";' &&
    blocks "$top/packages/javascript/README.md" js ready; } |
    sed -E 's,^([a-z].*\)); *// ([0-9]+n|"[0-9a-f]+").*,equal(\1\, \2);,' >page.mjs &&
    [ "$(grep -c '^equal' page.mjs)" = 4 ] && node page.mjs
}

# Tests the page's worker, beside the package, as the page lays them out.
refuses_changed_files() {
  mkdir "$room/worker" && cp "$room"/first/node_modules/yervound-rapidhash/*.mjs "$room/worker" &&
    cp "$top"/packages/javascript/{page/worker,tests/changed}.mjs "$room/worker" &&
    cd "$room/worker" && node --test changed.mjs
}

runs_in_node() {
  cd "$room/first" && node --test "$1.mjs"
}

# Runs the tests over the file that `require` reads.
runs_required() {
  cp -r "$room/first" "$room/required" && cd "$room/required" &&
    sed -i 's|"./rapidhash.mjs"|"./rapidhash.cjs"|' node_modules/yervound-rapidhash/package.json &&
    rm node_modules/yervound-rapidhash/*.mjs && node --test known.mjs && node --test refused.mjs &&
    node --test shared.mjs
}

# Checks that words of the module's memory, and of a key, have an explicit byte order: typed arrays over it have bytes.
# tests/release/machines.sh runs the tests on a machine that is big-endian.
states_the_byte_order() {
  ! grep -nE '(int|Int|Float)(16|32|64)Array\(.*buffer|\.[gs]et(Big)?(Uint|Int|Float)(16|32|64)\(' \
    "$top"/packages/javascript/{,page/}*.mjs | grep -v ', true);'
}

# Checks that the types name each export of the package, and no other.
names_each_export() {
  cd "$room/first" &&
    diff <(sed -nE "s/^export (const|function) (\w+).*/\2/p" node_modules/*/index.d.ts | LC_ALL=C sort -u) \
      <(node --input-type=module -e 'import * as it from "yervound-rapidhash"; console.log(Object.keys(it).join("\n"))')
}

# Compiles a program whose `import` is a `require`.
compiles_commonjs() {
  cd "$room/first" &&
    echo 'import { v3 } from "yervound-rapidhash"; export const hash: bigint = v3("text");' >common.cts &&
    compiles --lib es2020 common.cts
}

# Bundles a program without a rule and runs the result, a script for browsers: COMMAND.., which writes bundle/main.js
bundles() {
  cd "$room/first" && rm -rf bundle && mkdir -p src &&
    echo 'import { loadSync } from "yervound-rapidhash"; console.log(`${loadSync().v3("hello")}`)' >src/index.js &&
    "$@" && ls bundle | diff - <(echo main.js) && ! grep -E 'require\("|node:' bundle/main.js &&
    node bundle/main.js | grep -x 3327445792987248966
}

# Compiles with all checks of tsc: ARGUMENT..
compiles() {
  cd "$room/first" && tsc --noEmit --strict --exactOptionalPropertyTypes --target es2020 --module node16 \
    --moduleResolution node16 "$@"
}

# Starts a server for the temporary directory and stores its address in the variable `server`.
serve() {
  python3 -u -m http.server 0 --bind 127.0.0.1 --directory "$room" >>"$room/server.log" 2>&1 &
  until server=$(grep -oE 'http://127[.0-9]+:[0-9]+' "$room/server.log"); do
    kill -0 "$!" && sleep 0.1 || return 1
  done
}

# Lays out the files that are served to both browsers: the tests beside the package, and the page.
lay_out_for_browsers() {
  make -s -C "$top" built page && cp "$top"/packages/javascript/tests/browsers/* "$room/first" &&
    cp -r "$top/build/browser" "$room" && serve && mkdir "$room/files" && cd "$room/files" && mv ../first/large . &&
    cat large large >double && truncate -s 1073741825 long && : >empty
}

# Tests the package and the page in a browser. The page requests only its own files from its server: PROGRAM
works_in_a_browser() {
  : >"$room/server.log"
  cd "$room/first" && BROWSER=$1 SERVER=$server FILES=$room/files TOOL=$(built_programs | cut -d ' ' -f 1) \
    timeout 300 node --test page.test.mjs && grep -q '"GET /browser/page.mjs HTTP' "$room/server.log" &&
    ! grep '" [0-9]* -$' "$room/server.log" |
    grep -vE '"GET /(browser/[a-z]+\.(html|mjs|css)|first/.*) HTTP/1\.1" (200|304) -$'
}

needs clang wasm-ld esbuild node npm
try install works_as_its_page_says "$top/packages/javascript/README.md"
try files has_its_files
try lay_out lay_out
try page runs_the_page
for name in known refused keys fields saved shared cases node; do
  try "node_$name" runs_in_node "$name"
done
try changed_files refuses_changed_files
try node_require runs_required
try_with esbuild esbuild bundles esbuild src/index.js --bundle --outfile=bundle/main.js
try_with webpack webpack bundles webpack --mode production --output-path bundle
try byte_order states_the_byte_order
try types_of_each_export names_each_export
# A type that accepts anything would hide mistakes.
try types_without_any [ "$(grep -cE '[^a-z ] any\b' "$top/packages/javascript/index.d.ts")" = 0 ]
try_with types tsc compiles --lib es2020,dom types.mts
try_with types_alone tsc compiles --lib es2020 node_modules/yervound-rapidhash/index.d.ts
try_with types_of_commonjs tsc compiles_commonjs
# Each browser, if the program that drives it is installed.
tool=rt && has rt || tool=cargo
try_with lay_out_for_browsers "$tool" lay_out_for_browsers
try_with chromium "$tool chromedriver" works_in_a_browser chromium
try_with firefox-esr "$tool firefox-esr" works_in_a_browser firefox-esr
jobs -p | xargs kill
finish
