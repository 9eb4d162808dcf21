# The archive with everything that a user without the toolchain needs. With PARTIAL=yes, the packages whose tools are
# missing are left out, and named on its page.
has_npm = $(and $(shell command -v clang),$(shell command -v wasm-ld), \
  $(shell command -v esbuild),$(shell command -v npm))
has_wheel = $(shell $(PYTHON) -c 'import setuptools, wheel' 2>/dev/null && echo yes)
has_jar = $(shell command -v javac)
packed = $(foreach part,npm wheel jar,$(if $(filter-out yes,$(PARTIAL))$(has_$(part)),$(part)))
unpacked = $(filter-out $(packed),npm wheel jar)

dist:
	@$(call needs_the_kit,dist)
	$(alone) dist-alone

dist-alone:
	$(MAKE) -s all $(packed)
	rm -rf build/$(name)
	env -u BINDIR -u LIBDIR -u INCLUDEDIR -u DATADIR $(MAKE) -s install DESTDIR="$$PWD/build" PREFIX='/$(name)'
	tar --exclude=__pycache__ --exclude=target --exclude=Cargo.lock --exclude=tests --exclude=make.mk \
	  -hcf build/packages.tar packages/c/include \
	  packages/go packages/java packages/postgresql packages/python packages/rust packages/sqlite
	tar -C build/$(name) -xf build/packages.tar && rm build/packages.tar
	$(if $(filter npm,$(packed)),cp -r build/npm build/$(name)/packages/javascript)
	$(if $(filter wheel,$(packed)),install -D -m 644 -t build/$(name)/wheels $(wheels)/*.whl $(wheels)/*.tar.gz)
	$(if $(filter jar,$(packed)),install -m 644 $(jar) build/$(name)/packages/java)
	install -m 644 LICENSE-MIT LICENSE-APACHE NOTICE SECURITY.md build/$(name)
	mkdir build/$(name)/docs && cp -r docs/*.md docs/images build/$(name)/docs
	install -m 644 packages/archive/README.md build/$(name)/README.md
	$(if $(unpacked),printf '\nLeft out because the tools to build them were missing: %s\n' '$(unpacked)' | \
	  tee -a build/$(name)/README.md >&2)
	install -m 644 packages/c/tests/cases.c crates/test_replay/data/cases.tsv build/$(name)
	umask 022 && { $(call packs,build,$(name)); } >build/$(name).tar.gz
	rm -rf build/$(name)
