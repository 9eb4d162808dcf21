#!/usr/bin/env bash
# reads: packages/python packages/c/include crates/test_replay/data tests/fields.tsv tests/model.py docs/ALGORITHM.md
# Builds the Python package from source, installs it in fresh environments without a network, and tests the installed
# copy. The interpreters that RAPIDHASH_TEST_PYTHONS names, with setuptools and wheel, also build and test the source
# distribution. Missing programs are named, and their cases are not counted.
. "$(dirname "$0")/../../../tests/cases.sh"
# The Python for which Debian has the packages that build wheels.
python=/usr/bin/python3
names=(rapidhash package buffers columns keys shards missing arrow kinds saved cases)
unset PYTHONPATH
export PIP_NO_INDEX=1 PIP_DISABLE_PIP_VERSION_CHECK=1 CFLAGS='-Wall -Wextra -Werror'

# Runs the commands on the package's page in a fresh environment.
installs_as_the_page_says() {
  local page=$top/packages/python/README.md
  "$python" -m venv "$room/fresh" && PATH=$room/fresh/bin:$PATH works_as_its_page_says "$page" &&
    blocks "$page" python import | sed -E '1s/^/from array import array; /
      s/^(rapidhash.*\)) +# ([0-9]{16,}|".*"|array.*)/assert \1 == \2/' >page.py &&
    [ "$(grep -c '^assert' page.py)" = 5 ] && "$room/fresh/bin/python" page.py |
    grep -x 3327445792987248966
}

# Checks that the wheel has its files, the licences of the repository, and no other files, and that the source
# distribution has only the tests that run with it.
has_its_files() {
  "$python" -m zipfile -e "$top"/build/wheels/*-cp311-abi3-linux_x86_64.whl "$room/files" && cd "$room/files" &&
    has_the_licences yervound_rapidhash-*.dist-info && [ "$(grep -cxE \
    'Name: yervound-rapidhash|License: MIT OR Apache-2\.0|Requires-Python: >=3\.8' ./*.dist-info/METADATA)" -eq 3 ] &&
    ls | diff - <(printf '%s\n' rapidhash yervound_rapidhash-1.0.0.dist-info) &&
    LC_ALL=C ls rapidhash | diff - <(printf '%s\n' __init__.py __init__.pyi _columns.py _extension.abi3.so _fields.py \
      _secrets.py py.typed) &&
    ! tar -tzf "$top"/build/wheels/*.tar.gz | grep -v /test_ | grep /tests/.
}

# Checks that the extension needs the C library of the system alone, and exports nothing but its start.
exports_its_start_alone() {
  cd "$room/files/rapidhash" && nm -D --defined-only _extension.abi3.so | cut -d ' ' -f 3 |
    diff - <(echo PyInit__extension) && ! ldd _extension.abi3.so | grep rapidhash_c
}

# Lays out the sources as in the repository, where a build must leave nothing, and the tests away from them.
lay_out() {
  mkdir -p "$room/source" "$room/tests" && cd "$top" && cp LICENSE-* NOTICE "$room/source" &&
    git ls-files packages/python packages/c/include | xargs cp --parents -t "$room/source" &&
    (cd "$room/source" && find . | sort) >"$room/listed" &&
    cp packages/python/tests/{test_*,check_types}.py crates/test_replay/data/cases.tsv tests/fields.tsv "$room/tests"
}

leaves_nothing() {
  (cd "$room/source" && find . | sort) | diff "$room/listed" -
}

# Checks that a build can write to its copy of a directory that is read-only.
copies_what_is_read_only() {
  cd "$room/source/packages/python" && chmod a-w . && "$python" -Bc 'import backend, os
with backend._setuptools_in_a_copy():
    assert os.stat(".").st_mode & 0o200' && chmod u+w .
}

# Installs from the directory, as pip install ./packages/python does, with Debian's setuptools.
installs_from_source() {
  copies_what_is_read_only && "$python" -m venv --system-site-packages "$room/compiled" &&
    "$room/compiled/bin/pip" install --no-build-isolation "$room/source/packages/python" && leaves_nothing && cd / &&
    "$room/compiled/bin/python" -c 'import rapidhash; print(rapidhash.v3(b"hello"))' | grep -x 3327445792987248966
}

# Checks that an installation fails, installs nothing and leaves nothing: WORD-IN-ITS-ERROR ARGUMENT..
fails_and_leaves_nothing() {
  rm -rf "$room/empty" && "$python" -m venv "${@:2:1}" "$room/empty" &&
    ! "$room/empty/bin/pip" install "${@:3}" "$room/source/packages/python" >"$room/refused" 2>&1 &&
    grep -e "$1" "$room/refused" && leaves_nothing &&
    (cd / && ! "$room/empty/bin/python" -c 'import rapidhash' 2>/dev/null)
}

without_a_compiler() {
  CC=$room/no-compiler fails_and_leaves_nothing "$room/no-compiler" --system-site-packages --no-build-isolation
}

without_the_header() {
  mv "$room/source/packages/c/include" "$room" && sed -i '/include/d' "$room/listed" &&
    fails_and_leaves_nothing 'packages/c/include/rapidhash_c.h' --system-site-packages --no-build-isolation
}

# Builds the source distribution with another interpreter and runs all tests: PYTHON
works_with() {
  local folder name
  folder=$(mktemp -d -p "$room") &&
    "$1" -m pip wheel --no-deps --no-build-isolation -w "$folder" "$top"/build/wheels/*.tar.gz &&
    "$1" -m zipfile -e "$folder"/yervound_rapidhash-*.whl "$folder" && cd "$room/tests" &&
    for name in "${names[@]}"; do
      PYTHONPATH=$folder "$1" -B "test_$name.py" || return 1
    done
}

# Checks that an older setuptools, which would ignore pyproject.toml, is refused by its version.
refuses_an_old_setuptools() {
  mkdir -p "$room/old/setuptools" && cd "$room/source/packages/python" &&
    echo "__version__, build_meta = '60.9', None" >"$room/old/setuptools/__init__.py" &&
    ! PYTHONPATH=$room/old "$python" -Bc "import backend; backend.build_sdist('.')" 2>"$room/said" &&
    grep -x "yervound-rapidhash: building it needs setuptools 61 or later, and this is 60.9" "$room/said" &&
    leaves_nothing
}

# Runs a test file with the installed wheel, and stops it at a write outside of its memory: FILE
runs_installed() {
  cd "$room/tests" && PYTHONMALLOC=debug "$room/fresh/bin/python" -B "$1.py"
}

# Runs the tests of columns, which count the memory that is left, with the allocator of the C library.
leaves_no_memory() {
  cd "$room/tests" && PYTHONMALLOC=malloc "$room/fresh/bin/python" -B test_arrow.py
}

# Runs the tests with NumPy and pandas, which are Debian's, the definition of the hashes, and the installed wheel.
works_with_pandas() {
  local paths
  paths=$(echo "$room"/fresh/lib/python3*/site-packages):$top/tests
  cd "$room/tests" && PYTHONPATH=$paths "$python" -B test_pandas.py && PYTHONPATH=$paths "$python" -B test_kinds.py
}

accepts_the_types() {
  cd "$room/tests" && mypy --strict --no-error-summary --cache-dir "$room/mypy" \
    --python-executable "$room/fresh/bin/python" check_types.py &&
    MYPYPATH=$room/files mypy --strict --no-error-summary --cache-dir "$room/mypy" -p rapidhash
}

# Checks that the code needs nothing of a Python above the oldest that pyproject.toml allows. mypy knows what each one
# has, but for two functions of copyreg.
is_for_the_oldest_python() {
  local oldest
  oldest=$(sed -n "s/^requires-python = \">=\(.*\)\"/\1/p" "$top/packages/python/pyproject.toml") &&
    mkdir -p "$room/oldest/rapidhash" && cp "$room"/files/rapidhash/*.py "$room/oldest/rapidhash" &&
    cd "$room/oldest" &&
    "$python" -m mypy --python-version "$oldest" --check-untyped-defs --ignore-missing-imports --no-error-summary \
      --cache-dir "$room/mypy" -p rapidhash >"$room/said" 2>&1
  ! grep -vE '"(__newobj__|_slotnames)"' "$room/said"
}

# Checks that the types match the package.
types_are_those_of_the_package() {
  cd "$room/files" && MYPYPATH=$room/files PYTHONPATH=$room/files "$python" -m mypy.stubtest rapidhash
}

needs gcc '/usr/lib/python3*/ensurepip' /usr/lib/python3/dist-packages/{pip,setuptools,wheel} \
  '/usr/include/python3*/Python.h'
try install installs_as_the_page_says
try files has_its_files
try exports exports_its_start_alone
try lay_out lay_out
for name in "${names[@]}"; do
  try "$name" runs_installed "test_$name"
done
try malloc leaves_no_memory
try_with pandas '/usr/lib/python3/dist-packages/pandas /usr/lib/python3/dist-packages/numpy' works_with_pandas
try_with types mypy accepts_the_types
try_with types_of_the_package mypy types_are_those_of_the_package
try_with oldest_python mypy is_for_the_oldest_python
try from_source installs_from_source
try old_setuptools refuses_an_old_setuptools
try no_compiler without_a_compiler
# Without a network, pip cannot get setuptools.
try no_setuptools fails_and_leaves_nothing setuptools --symlinks
try no_header without_the_header
for other in "$python" ${RAPIDHASH_TEST_PYTHONS:-}; do
  try "$other" works_with "$other"
done

finish
