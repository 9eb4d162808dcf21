# make             proves and builds the tools and the C library, if they are missing or out of date. Without the
#                  toolchain, cc builds the C library from its header, and cargo the tools
# make check       proves everything and runs all tests: must pass before a push. Without the toolchain, it runs the
#                  tests that need no proof. As root on Debian it first installs what it lacks
# make check-source runs the tests that need no proof, also where the toolchain is, and installs nothing
# make quick       formats the sources, writes the Rust crate, checks the pages, and proves the changed code
# make test        proves and runs the tests of all crates, and runs the programs end to end
# make fmt         formats the sources
# make bench       repeats the measurements in bench/*.tsv, compared with the Rust crate that RAPIDHASH_CRATE names
# make library     proves and builds the C library, static and shared
# make wasm        builds the C header for WebAssembly
# make npm, wheel, sqlite, and postgresql build the packages, including the library: see their README.md
# make jar         builds the package for Java, which needs a JDK alone
# make docs        builds the references of the calls in each language, with a page that links them, in build/docs
# make javadoc, crate, gomodule, and sources pack what registries want of Java, Rust, Go and the whole repository
# make page        copies packages/javascript/page and the npm package to build/browser, for any file server
# make install     installs the built files, manual pages, and completions under PREFIX; uninstall removes them
# make dist        packs everything that a user without the toolchain needs into a single archive in build/. It needs
#                  the toolchain. PARTIAL=yes leaves out and names the packages whose build tools are missing
# make deb         builds the Debian source package and its packages in build/debian, by Debian's tools alone
# make release     makes everything that is published, and its checksums, in build/release, from a tree without changes:
#                  the same bytes of the same commit
# make installcheck replays the cases with what is installed under PREFIX
# make help        prints these lines
# make vendor      copies the library into another Rattle repository: make vendor INTO=FOLDER
# make test-vendor runs the merge gate of such a repository, which proves everything from scratch
# make clean       removes all build results

# Directories: by the names of the GNU Coding Standards, or in capitals, also from the environment, before which the
# command line counts. DESTDIR has no value here, so that one of the environment counts.
directory = $(eval $(1) $(if $(filter command,$(origin $(2))),,?)= $$($(2)))
prefix = /usr/local
exec_prefix = $(PREFIX)
bindir = $(exec_prefix)/bin
libdir = $(exec_prefix)/lib
includedir = $(PREFIX)/include
datarootdir = $(PREFIX)/share
datadir = $(datarootdir)
$(call directory,PREFIX,prefix)
$(call directory,BINDIR,bindir)
$(call directory,LIBDIR,libdir)
$(call directory,INCLUDEDIR,includedir)
$(call directory,DATADIR,datadir)

soname = librapidhash_c.so.1
kit_archive = crates/rapidhash_c/out/librapidhash_c.a
kit_tools = crates/rapidhash_cli/out/rapidhash_cli crates/rapidsum/out/rapidsum
# Without the toolchain, and without products of it, cc compiles the library's header, and cargo builds the tools.
kit := $(or $(shell command -v rt),$(wildcard $(kit_archive) $(kit_tools)))
ifneq ($(kit),)
archive = $(kit_archive)
shared = build/$(soname)
tools = $(kit_tools)
else
archive = build/header/librapidhash_c.a
shared = build/header/$(soname)
cargo := $(shell command -v cargo)
# Programs that cargo has built are installed by a user, such as root, who has no cargo on the PATH.
tools = $(if $(cargo)$(wildcard build/cargo/bin/rapidsum),$(addprefix build/cargo/bin/,rapidhash rapidsum))
endif
name = yervound-1.0.0-x86_64-linux
release = 1.0.0

.PHONY: help installcheck docs sources crate javadoc gomodule all built tool sums library wasm npm page wheel jar \
  sqlite postgresql deb check check-source quick test fmt bench install uninstall clean dist vendor release products \
  javadoc-alone page-alone postgresql-alone deb-alone dist-alone \
  test-edits test-machines test-windows test-debian test-dieharder test-source test-vendor test-machine-code \
  rapidhash_c rapidhash_cli rapidsum example_bloom example_perfect example_shards example_dedupe
.DELETE_ON_ERROR:
MAKEFLAGS += --no-builtin-rules

all: built
	$(say_left_out)

built: $(tools) library
say_left_out = $(if $(tools),,@echo 'make: the programs are left out: install cargo (Rust 1.63 or newer) and run make \
  again' >&2)

tool: $(or $(firstword $(tools)),build/cargo/bin/rapidhash)
sums: $(or $(lastword $(tools)),build/cargo/bin/rapidsum)
library: $(archive) $(shared)

# A product is out of date if a source file or source directory is newer than the start of its build. So an edit during
# a build counts. Two builds of a crate cannot overlap, because rt makes the second wait.
sources := $(shell find crates.txt crates/*/src crates/*/specs crates/*/proofs 2>/dev/null)

# Prints of the output of rt how many functions of a crate it has checked so far.
show_progress = sed -unE '/^== /{s///;h;}; \
  /^so far: [1-9]/{G;s/^so far: ([0-9]+ of [0-9]+ functions) checked.*\n(.*)/make: \2: \1 checked/p;}' >&2

# Writes a product under another name, in the shell's variable new, and renames it. So a make that was killed or runs at
# the same time leaves no part of it: COMMAND
made = @new=$@.$$$$; { $(1); } && mv -f "$$new" $@ || { rm -f "$$new"; exit 2; }
# Makes a product while no other make builds a package, if flock is on the PATH.
locked = $(if $(shell command -v flock),YERVOUND_LOCKED=yes flock build/lock)
alone = +@mkdir -p build && $(if $(YERVOUND_LOCKED),,$(locked)) $(MAKE) --no-print-directory -s

# The rule for a crate's product: CRATE, PRODUCT, the arguments for rt, the libraries that it uses. Each library has its
# own call, because rt reads the sources again, for about 10 seconds, if it builds several.
define product
$(1): $(2)
$(2): $$(filter crates.txt $(patsubst %,crates/%/%,$(1) $(4)),$$(sources))
	@command -v rt >/dev/null || { echo 'make: rt, the command of the Rattle kit, is not on PATH' >&2; exit 2; }
	@echo 'make: proving and building $(1), some minutes the first time' >&2
	@mkdir -p build && touch build/$(1).begun
	@{ (for library in $(4); do echo "== $$$$library" && (cd crates/$$$$library && rt lib) || exit; done && \
	  echo '== $(1)' && cd crates/$(1) && rt $(3)); echo $$$$? >build/$(1).status; } </dev/null 2>&1 | \
	  tee build/$(1).log | $$(show_progress)
	@[ "$$$$(cat build/$(1).status)" = 0 ] || { grep -m 20 -E 'error|not proved' build/$(1).log || \
	  tail -n 5 build/$(1).log; echo 'make: the build failed; full output: build/$(1).log'; exit 2; } >&2
	@touch -r build/$(1).begun $(2)
endef
both = rapidhash_portable rapidhash
program = $(call product,$(1),crates/$(1)/out/$(1),run -- $(2),$(3))
$(eval $(call product,rapidhash_c,crates/rapidhash_c/out/librapidhash_c.a,lib,rapidhash_portable))
# Each program has an argument with which it exits immediately, because rt runs the program after building it.
$(eval $(call program,rapidhash_cli,--help,rapidhash_portable rapidhash_tool))
$(eval $(call program,rapidsum,--version,rapidhash_portable))
$(eval $(call program,example_bloom,--help,$(both)))
$(eval $(call program,example_perfect,--help,$(both)))
$(eval $(call program,example_shards,shard 1,$(both)))
$(eval $(call program,example_dedupe,args,$(both)))

# The archive and the release hold the proved programs and the proved library: TARGET
needs_the_kit = [ -n '$(kit)' ] || { echo 'make $(1): rt, the command of the Rattle kit, is not on PATH: it builds' \
  'the proved programs and library for the archive' >&2; exit 2; }

# Says so once, before the first product.
said :=
unproved = $(if $(said),:,$(eval said := yes)echo 'make: $(if $(shell command -v rt),,rt is \
  not on PATH: )building with $(if $(tools),cc and cargo,cc the library alone), which is not the proved build' >&2)

# The modes of what is packed, which others unpack, whatever the umask is. The dates are that of the commit, so that it
# has the same bytes everywhere.
readable = u=rwX,go=rX
epoch = $(or $(SOURCE_DATE_EPOCH),$(shell git log -1 --format=%ct 2>/dev/null || date +%s))
# Packs a directory without its owner and in the order of the names: DIRECTORY-ABOVE NAME
packs = tar -C $(1) --sort=name --mtime=@$(epoch) --owner=0 --group=0 --numeric-owner --mode=$(readable) \
  -I 'gzip -n9' -cf - $(2)

include packages/*/make.mk

# Everything that the tests of the packages and examples use, so that none of them builds what another is building.
products: example_bloom example_perfect example_shards example_dedupe npm page wheel jar sqlite

docs: wheel javadoc
	@scripts/references

check:
	@bash .ci/run

check-source:
	@bash .ci/run source

fmt:
	@for crate in crates/*; do (cd $$crate && rt fmt) || exit 1; done

quick: fmt
	@scripts/rust_crate --write
	@tests/pages.py
	@rt all check

test:
	@rt all test
	@prove --exec "" packages/tools/tests tests/examples

# Each file of figures has a bench with its name. A bench that fails leaves the figures unchanged.
bench: $(patsubst %,bench/%.tsv,rust counts c c_counts hand java sums packages size xxh3 quality growth)
	@bench/figures --write

.PHONY: always
bench/%.tsv: always
	@mkdir -p build && bench/$(or $(words_of_$*),$*) >build/$*.tsv && mv build/$*.tsv $@
words_of_hand = c hand
words_of_xxh3 = c wide
words_of_counts = rust counts
words_of_c_counts = c counts

# scripts/install reads the directories from variables, so that the shell interprets none of their characters.
folders = PREFIX BINDIR LIBDIR INCLUDEDIR DATADIR DESTDIR
$(foreach name,$(folders),$(eval install uninstall installcheck: export $(name) := $$($(name))))

# What several jobs make at once is built before it is installed. With a source from the future, everything is always
# out of date.
install: | $(filter all built library,$(MAKECMDGOALS))
installcheck: | $(filter install,$(MAKECMDGOALS))
install:
	@$(MAKE) -q --no-print-directory built 2>/dev/null || \
	  { ls $(archive) $(shared) $(tools) && find crates packages -newermt now -print -quit | grep .; } >/dev/null 2>&1 || \
	  { echo 'make install: something is missing or out of date: run make first' >&2; exit 2; }
	@ARCHIVE='$(archive)' SHARED='$(shared)' TOOLS='$(tools)' scripts/install
	$(say_left_out)

uninstall:
	@env -u ARCHIVE -u SHARED -u TOOLS scripts/install --remove

# Replays the cases with the installed library, and asks the installed programs for a known hash. Without the first
# line, the compiler would take another installation.
installcheck:
	@ls "$$DESTDIR$$INCLUDEDIR/rapidhash_c.h" "$$DESTDIR$$LIBDIR/librapidhash_c.so" >/dev/null
	@mkdir -p build && $(CC) -I"$$DESTDIR$$INCLUDEDIR" $(CPPFLAGS) $(or $(CFLAGS),-O2) -DRAPIDHASH_LINK \
	  packages/c/tests/cases.c -L"$$DESTDIR$$LIBDIR" $(LDFLAGS) -lrapidhash_c -o build/installcheck
	@LD_LIBRARY_PATH="$$DESTDIR$$LIBDIR" build/installcheck <crates/test_replay/data/cases.tsv
	@if [ -e "$$DESTDIR$$BINDIR/rapidsum" ]; then \
	  [ "$$(echo something | "$$DESTDIR$$BINDIR/rapidhash" --v1)" = 15965596575264898037 ] && \
	  [ "$$(echo something | "$$DESTDIR$$BINDIR/rapidsum")" = 'a1266b469390773a  -' ] && \
	  echo 'the programs have known hashes'; \
	else echo 'no programs are installed'; fi

help:
	@sed -n '/^# /!q; s/^# //p' Makefile

vendor:
	@scripts/vendor "$$INTO"

clean:
	rm -rf crates/*/out build

# What is published, but for wheels and Debian's packages, whose directories hold no other version.
released = build/sources/yervound-$(release).tar.gz build/$(name).tar.gz $(package) \
  build/yervound-rapidhash-$(release).crate build/yervound-rapidhash-go-$(release).zip \
  $(jar) $(jar:.jar=-javadoc.jar) $(jar:.jar=-sources.jar)

# Without changes, the results are those of a commit. What an earlier commit has left would have its time.
release:
	@$(call needs_the_kit,release)
	@[ -z "$$(git status --porcelain)" ] || { echo 'make release: the tree has changes: commit them first' >&2; exit 2; }
	@{ grep -qxF "| commit | $$(git rev-parse HEAD) |" build/gate.md && \
	  grep -q '^| result | .*, 0 failed |$$' build/gate.md; } 2>/dev/null || \
	  { echo 'make release: build/gate.md has no gate of this commit that passed: run make check first' >&2; exit 2; }
	@rm -rf $(released) $(wheels) build/debian build/release
	@$(MAKE) -s dist deb sources crate javadoc gomodule
	@mkdir build/release && git rev-parse HEAD >build/release/COMMIT
	@cp build/gate.md packages/archive/RELEASE.md $(released) build/wheels/*.* build/debian/*.deb build/debian/*.dsc \
	  build/debian/*.tar.xz build/release
	@chmod -R $(readable) build/release
	@cd build/release && sha256sum -- * >SHA256SUMS

# What registries take, and the sources of the commit.
sources:
	@mkdir -p build/sources && git -c tar.umask=0022 -c core.autocrlf=false -c tar.tar.gz.command='gzip -n9' archive \
	  --prefix=yervound-$(release)/ -o build/sources/yervound-$(release).tar.gz HEAD

crate:
	@cd packages/rust && cargo package --quiet --offline --no-verify --target-dir ../../build/package
	@cp build/package/package/yervound-rapidhash-$(release).crate build

gomodule:
	@mkdir -p build && date="@$(epoch) +0000" && commit=$$(GIT_AUTHOR_DATE=$$date GIT_COMMITTER_DATE=$$date \
	  git -c user.name=go -c user.email=go commit-tree -m go HEAD:packages/go) && TZ=UTC git -c core.autocrlf=false \
	  archive --format=zip --prefix=yervound.example/rapidhash@v$(release)/ \
	  -o build/yervound-rapidhash-go-$(release).zip "$$commit"

# The next eight are not part of the gate, because they take some additional minutes.
test-edits:
	@tests/release/must_fail.py
	@tests/release/failing_tests.py

test-machines test-windows test-debian test-dieharder test-source: test-%:
	@prove --verbose --exec '' tests/release/$*.sh

# All versions, compilers, streams and packages, of which the gate checks V3 alone.
test-machine-code:
	@prove --verbose --jobs 4 --exec tests/machine/machine.py streams-kit faults streams-clang streams-gcc modules \
	  library streams-kit-small arm64

test-vendor:
	@tests/vendor.sh ci
