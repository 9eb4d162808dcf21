# The WebAssembly module and the npm package over it.
module = build/rapidhash.wasm
folder = build/npm/rapidhash.cjs
package = build/yervound-rapidhash-1.0.0.tgz
wasm: ; $(alone) $(module)
npm: ; $(alone) $(package)
page: ; $(alone) page-alone

# The linker is called by itself, because clang would run wasm-opt if it is installed.
$(module): packages/javascript/rapidhash.c packages/javascript/string.h packages/c/include/rapidhash_c.h \
    packages/javascript/make.mk
	@for program in clang wasm-ld; do command -v $$program >/dev/null || \
	  { echo "make: $$program, of clang and lld, is not on PATH" >&2; exit 2; }; done
	@mkdir -p build
	@clang --target=wasm32 -std=c99 -Os -Wall -Wextra -Werror -ffreestanding -mbulk-memory \
	  -mmutable-globals -isystem packages/javascript -Ipackages/c/include -c $< -o build/wasm.o
	$(call made,wasm-ld --no-entry --strip-all --export=__heap_base --export=__stack_pointer -z stack-size=16384 \
	  build/wasm.o -o "$$new")

# Lays out the directory of the package. module.mjs contains the module as text, and rapidhash.cjs is for `require`.
$(folder): $(module) $(wildcard packages/javascript/*.*) LICENSE-MIT LICENSE-APACHE NOTICE
	@command -v esbuild >/dev/null || { echo 'make: esbuild is not on PATH' >&2; exit 2; }
	@rm -rf build/npm && mkdir build/npm
	@cd packages/javascript && cp *.mjs index.d.ts package.json README.md ../../build/npm
	@cp LICENSE-MIT LICENSE-APACHE NOTICE build/npm && cp packages/javascript/index.d.ts build/npm/index.d.cts
	@{ printf 'export default "' && base64 -w 0 $(module) && echo '";'; } >build/npm/module.mjs
	$(call made,esbuild build/npm/rapidhash.mjs --bundle --platform=node --target=node18 --log-level=warning \
	  --outfile="$$new")

$(package): $(folder)
	@command -v npm >/dev/null || { echo 'make: npm is not on PATH' >&2; exit 2; }
	@chmod -R $(readable) build/npm && rm -rf build/packed && mkdir build/packed && umask 022 && \
	  npm pack --silent --pack-destination build/packed ./build/npm >build/npm.log && mv -f build/packed/*.tgz $@

page-alone: $(folder)
	@rm -rf build/browser && mkdir build/browser
	@cp packages/javascript/page/*.* build/npm/*.mjs LICENSE-MIT LICENSE-APACHE NOTICE build/browser
