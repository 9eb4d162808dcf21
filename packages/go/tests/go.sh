#!/usr/bin/env bash
# reads: packages/go crates/test_replay/data tests/fields.tsv docs/BINDINGS.md tests/formulas/go
# Tests the Go package over all cases, also under emulation on other machines, and by the commands on its page.
. "$(dirname "$0")/../../../tests/cases.sh"
export GOCACHE=$room/go GOPROXY=off

# Checks that an example, which go test runs, has each line of the page.
runs_the_page() {
  blocks README.md go rapidhash | sed 's/^/\t/' >"$room/lines" && [ -s "$room/lines" ] &&
    ! grep -vxFf example_test.go "$room/lines"
}

# Checks that go.mod requires the version of Go that README.md names.
requires_the_go_of_the_page() {
  grep -xF "go $(sed -n 's/^The package is plain Go \([0-9.]*\),.*/\1/p' README.md)" go.mod
}

# Checks by the products that a loop folds two rows per iteration and then one, or four with three lanes. With single
# rows the same values would take longer.
folds_many_rows() {
  GOARCH=amd64 go test -c -o "$room/test" . && for lanes in 7 5 3; do
    go tool objdump -s "lanes..fold$lanes$" "$room/test" | grep -c MULQ
  done | diff - <(printf '%s\n' 21 15 12)
}

# Checks by the calls in that program that a stream copies whole pieces: byte by byte, short ones would take longer.
copies_whole_pieces() {
  [ "$(go tool objdump -s 'Stream..(add|fold)$' "$room/test" | grep -c 'CALL runtime.memmove')" -eq 3 ]
}

# Checks by the instructions in that program that a key costs nothing besides its fields: the number of loops, with a
# jump for the stack of each function, and of calls, also those that clear or copy memory, and at most 340 in all. A key
# that first cleared or filled other memory would take longer.
writes_fields_alone() {
  go tool objdump -s 'rapidhash\.(v3Key|\(\*Stream\)\.(WriteField|add|Sum64))$' "$room/test" >"$room/code" && awk '
    $2 ~ /^0x/ { count++; calls += $4 == "CALL" }
    $2 ~ /^0x/ && $4 ~ /^J/ && ($5 !~ /^0x/ || length($5) == length($2) && $5 < $2) { back++ }
    END { print back, calls, count <= 340 }' "$room/code" | diff - <(echo 5 22 1)
}

# Tests Clone with the library's package hash as Go 1.25 has it: an older Go's gets the interface.
clones() {
  local root
  root=$(go env GOROOT) && cp "$root/src/hash/hash.go" "$room/hash.go" &&
    { grep -q 'type Cloner ' "$room/hash.go" ||
      printf 'type Cloner interface {\n\tHash\n\tClone() (Cloner, error)\n}\n' >>"$room/hash.go"; } &&
    echo "{\"Replace\": {\"$root/src/hash/hash.go\": \"$room/hash.go\"}}" >"$room/overlay" &&
    go vet -tags go1.25 -overlay "$room/overlay" . &&
    go test -tags go1.25 -overlay "$room/overlay" -run TestClone -v . | grep '^--- PASS: TestClone'
}

# Checks that all tests pass, of which none may skip itself.
passes_every_test() {
  CGO_ENABLED=0 go test -v -timeout 0 -count 1 . >"$room/tests" 2>&1 ||
    { grep -v '^ *\(=== \|--- PASS\)' "$room/tests" && return 1; }
  ! grep -A 1 -e '--- SKIP' "$room/tests"
}

needs go
cd "$top/packages/go" || exit 1
try licences has_the_licences .
try version requires_the_go_of_the_page
try layout bash -c '[ -z "$(gofmt -l . ../../tests/formulas/go)" ]'
# The functions, types and values of the release, and all with the methods.
try names bash -c '[ "$(go doc -all | grep -cE "^(func [A-Z]|type |var |\s(V[23]\w+|V3) )|^\s(V\w+)$")" -eq 42 ]'
try methods bash -c '[ "$(go doc -all | grep -cE "^(func|type) ")" -eq 82 ]'
try tests passes_every_test
try race go test -timeout 0 -count 1 -short -race .
try 386 env GOARCH=386 go test -timeout 0 -count 1 .
try_with arm64 qemu-aarch64 env GOARCH=arm64 go test -timeout 0 -count 1 -short -exec qemu-aarch64 .
try_with s390x qemu-s390x env GOARCH=s390x go test -timeout 0 -count 1 -short -exec qemu-s390x .
for os in linux windows darwin; do try "vet_$os" env GOOS="$os" GOARCH=amd64 go vet .; done
try rows_per_iteration folds_many_rows
try copies copies_whole_pieces
try key_alone writes_fields_alone
try clone clones
# A build tag is a word of the user's: none but those of Go may select a file.
try build_tags bash -c '! grep -rnE "^//go:build|^// \+build" --include "*.go" . | grep -vE "go:build go1\.[0-9]+$"'
try lines_of_the_page runs_the_page
try page works_as_its_page_says README.md

finish
