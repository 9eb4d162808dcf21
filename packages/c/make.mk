# The C library: the kit's archive and a shared library linked from it, or both from the header, by cc.
ifeq ($(kit),)
CFLAGS ?= -O2
shared_flags = -Wl,-soname,$(soname),--version-script,packages/c/librapidhash_c.map,-z,relro,-z,now
build/header/rapidhash_c.o: packages/c/rapidhash_c.c packages/c/include/rapidhash_c.h packages/c/make.mk
	@$(unproved)
	@mkdir -p build/header
	$(call made,$(CC) -std=c99 -fPIC -Ipackages/c/include $(CPPFLAGS) $(CFLAGS) -c $< -o "$$new")

$(archive): build/header/rapidhash_c.o
	$(call made,$(AR) rcs "$$new" $<)

$(shared): build/header/rapidhash_c.o packages/c/librapidhash_c.map packages/c/make.mk
	$(call made,$(CC) -shared $(CFLAGS) $(LDFLAGS) $(shared_flags) $< -o "$$new")
else
# The kit's linker, located from the path that rt prints, and the directories that may contain a machine's C library.
linker = $(dir $(shell rt doc))toolchain/bin/ld.lld
system = /lib/x86_64-linux-gnu /lib64 /usr/lib

$(shared): $(archive) packages/c/librapidhash_c.map packages/c/make.mk
	@command -v rt >/dev/null || { echo 'make: rt, whose kit has the linker, is not on PATH' >&2; exit 2; }
	@mkdir -p build
	$(call made,$(linker) -shared -soname $(soname) -z now -z relro -z noexecstack -z text --gc-sections \
	  --build-id=sha1 --eh-frame-hdr --version-script packages/c/librapidhash_c.map --whole-archive $(archive) \
	  --no-whole-archive --as-needed $(addprefix -L,$(system)) -l:libc.so.6 -o "$$new")
endif
