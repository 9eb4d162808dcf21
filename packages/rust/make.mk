# The programs by cargo, from their proved text without its contracts. Cargo keeps the old program until it has renamed
# the new one, whatever target its configuration names.
build/cargo/bin/rapid%: $(wildcard packages/rust/*.toml packages/rust/build.rs packages/rust/tools/Cargo.toml) \
    $(shell find packages/rust/src packages/rust/tools/src -name '*.rs' 2>/dev/null)
	@command -v cargo >/dev/null || { echo 'make: neither rt, of the Rattle kit, nor cargo is on PATH' >&2; exit 2; }
	@$(unproved)
	@mkdir -p build
	@log=../../../build/cargo.rapid$*.log && cd packages/rust/tools && \
	  CARGO_TARGET_DIR=../../../build/cargo CARGO_PROFILE_RELEASE_LTO=fat CARGO_PROFILE_RELEASE_CODEGEN_UNITS=1 \
	  CARGO_PROFILE_RELEASE_PANIC=abort CARGO_PROFILE_RELEASE_STRIP=symbols \
	  ../../../scripts/aloud 'make: cargo builds rapid$*' "echo package \$$(grep -c Compiling $$log) of 2" \
	  sh -c 'cargo install --offline --force --no-track --path . --root ../../../build/cargo --bin $$1 2>$$0' \
	  $$log rapid$* || { cat "$$log" >&2; exit 2; }
	@touch $@
