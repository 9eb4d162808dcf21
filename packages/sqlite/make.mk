# The extension for SQLite.
extension = build/rapidhash.so
hardened = -Wl,-z,relro,-z,now
sqlite: ; $(alone) $(extension)

$(extension): packages/sqlite/rapidhash.c $(addprefix packages/c/include/rapidhash_,c.h fields.h) \
  $(wildcard packages/sqlite/*.h) packages/sqlite/make.mk
	@mkdir -p build
	$(call made,$(CC) -std=c99 -Ipackages/c/include -Wall -Wextra -Wpedantic -Werror $(CPPFLAGS) $(or $(CFLAGS),-O2) \
	  -fPIC -fvisibility=hidden -shared $< $(LDFLAGS) $(hardened) -o "$$new")
