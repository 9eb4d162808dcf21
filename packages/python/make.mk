# The wheel and the source distribution.
# The system's Python can build a wheel with its packages python3-setuptools, python3-wheel and python3-dev.
PYTHON = /usr/bin/python3
wheels = build/wheels
wheel: ; $(alone) $(wheels)/made

$(wheels)/made: packages/c/include/rapidhash_c.h LICENSE-MIT LICENSE-APACHE NOTICE \
    $(wildcard packages/python/*.* packages/python/rapidhash/*.*)
	@$(PYTHON) -c 'import setuptools, wheel' || { echo 'make: $(PYTHON) lacks setuptools or wheel' >&2; exit 2; }
	@rm -rf $(wheels) && mkdir -p $(wheels)
	@umask 022 && SOURCE_DATE_EPOCH=$(epoch) CFLAGS='-g0 $(CFLAGS)' $(PYTHON) -m pip wheel --quiet --no-index \
	  --no-deps --no-build-isolation --wheel-dir $(wheels) ./packages/python
	@umask 022 && cd packages/python && $(PYTHON) -Bc 'import backend; backend.build_sdist("../../$(wheels)")' \
	  >../../build/sdist.log 2>&1 || { cat ../../build/sdist.log; exit 2; } >&2
	@umask 022 && cd $(wheels) && tar -xzf yervound*.tar.gz && rm yervound*.tar.gz && folder=$$(ls -d yervound*[0-9]) && \
	  { $(call packs,.,"$$folder"); } >"$$folder.tar.gz" && rm -r "$$folder"
	@touch $@
