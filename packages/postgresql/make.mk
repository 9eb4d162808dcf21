# The extension for PostgreSQL, built in a copy, for the server of PG_CONFIG.
PG_CONFIG = pg_config
postgresql: ; $(alone) postgresql-alone
postgresql-alone:
	@command -v $(PG_CONFIG) >/dev/null || { echo 'make: $(PG_CONFIG), of PostgreSQL, is not on PATH' >&2; exit 2; }
	@[ -e "$$($(PG_CONFIG) --includedir-server)/postgres.h" ] || { echo 'make: the headers of the PostgreSQL server are' \
	  "missing: install postgresql-server-dev-$$($(PG_CONFIG) --version | sed 's/[^0-9]*\([0-9]*\).*/\1/')" >&2; exit 2; }
	@rm -rf build/postgresql && mkdir -p build && cp -r packages/postgresql build
	@MAKEFLAGS= $(MAKE) -s -C build/postgresql PG_CONFIG=$(PG_CONFIG) COPT='-Werror -I../../packages/c/include'
