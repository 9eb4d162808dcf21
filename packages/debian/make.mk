# The source package has the files that git lists; Debian's own tools build it.
deb: ; $(alone) deb-alone
deb-alone:
	@rm -rf build/debian && mkdir -p build/debian/source
	@git ls-files -z | xargs -0 cp --parents -t build/debian/source && cp -r packages/debian/debian build/debian/source
	@chmod -R $(readable) build/debian/source
	@umask 022 && cd build/debian/source && MAKEFLAGS= dpkg-buildpackage -us -uc >../log 2>&1 || \
	  { tail -n 20 ../log; echo 'make: the packages failed; full output: build/debian/log'; exit 2; } >&2
