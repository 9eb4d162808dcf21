/* Makes each allocation of SQLite fail in turn, while the extension is loaded and while a query runs. The query's
 * status must then be SQLITE_NOMEM, or its result must be the same as with enough memory. A SQLite without window
 * functions must be refused. packages/sqlite/tests/sqlite.py builds this program with sanitizers. */
#define SQLITE_CORE 1
#include <sqlite3ext.h>
#include <stdio.h>
#include <stdlib.h>
#include <string.h>

int sqlite3_rapidhash_init(sqlite3 *database, char **error, const struct sqlite3_api_routines *api);

static const char *const queries[] = {
    "SELECT rapidhash_v3('hello')",
    "SELECT rapidhash_v3(zeroblob(column1), 1) FROM (VALUES (3000), (4000))",
    "SELECT rapidhash_v3_agg(column1) FROM (VALUES ('hel'), ('lo'))",
    "SELECT rapidhash_v3_agg(column1) OVER (ORDER BY column2) FROM (VALUES ('lo', 2), ('hel', 1))",
    "SELECT rapidhash_v3_agg(column1, column2) FROM (VALUES ('lo', 2), ('hel', 1))",
    "SELECT rapidhash_v3(1.5)",
    "SELECT rapidhash_v3_key('a', zeroblob(column1), column1) FROM (VALUES (3000), (4000))",
    "SELECT rapidhash_v3_key('a', 1.5)",
    "SELECT rapidhash_v3_key(rapidhash_list(column1)) FROM (VALUES ('[1,\"a\"]'), ('[1.5]'))",
    "SELECT rapidhash_v3_key(rapidhash_decimal(column1), rapidhash_decimal(7)) FROM (VALUES ('1e99'), ('1e'))",
    "SELECT rapidhash_v3_key(rapidhash_date('2024-02-29'), rapidhash_time('2024-02-29 00:00:00Z'))",
    "SELECT rapidhash_v3_key(rapidhash_uuid(column1)) FROM (VALUES ('00112233-4455-6677-8899-aabbccddeeff'))",
    "SELECT rapidhash_hex(rapidhash_v3(column1)) FROM (VALUES ('hello'), (NULL))",
};

static const struct sqlite3_api_routines *routines;
static sqlite3_mem_methods memory;
/* The number of allocations that succeed before one fails. */
static long left = -1;
static long failures;

static int fails(void)
{
    if (left < 0 || left-- > 0)
        return 0;
    failures++;
    return 1;
}

static void *allocate(int size)
{
    return fails() ? NULL : memory.xMalloc(size);
}

static void *reallocate(void *old, int size)
{
    return fails() ? NULL : memory.xRealloc(old, size);
}

/* SQLite passes its routines only to an extension. */
static int keep_routines(sqlite3 *database, char **error, const struct sqlite3_api_routines *api)
{
    (void)database;
    (void)error;
    routines = api;
    return SQLITE_OK;
}

/* Writes the rows of a query and returns its status. SQLite itself may lose the text of an error. */
static int run(const char *query, char *written, size_t room)
{
    sqlite3 *database = NULL;
    sqlite3_stmt *statement = NULL;
    size_t len = 0;
    int status = sqlite3_open(":memory:", &database);
    written[0] = 0;
    if (status == SQLITE_OK)
        status = sqlite3_rapidhash_init(database, NULL, routines);
    if (status == SQLITE_OK)
        status = sqlite3_exec(database, "PRAGMA encoding = 'UTF-16'", NULL, NULL, NULL);
    if (status == SQLITE_OK)
        status = sqlite3_prepare_v2(database, query, -1, &statement, NULL);
    if (status == SQLITE_OK)
        while ((status = sqlite3_step(statement)) == SQLITE_ROW)
            len += (size_t)snprintf(written + len, room - len, "%lld,", sqlite3_column_int64(statement, 0));
    sqlite3_finalize(statement);
    sqlite3_close(database);
    return status;
}

/* Runs a query with enough memory, and then again until no allocation fails. Returns 0 if a run differs. */
static int check(const char *query)
{
    char wanted[200], found[200];
    int status, good = run(query, wanted, sizeof wanted);
    long at = 0;
    do {
        failures = 0;
        left = at++;
        status = run(query, found, sizeof found);
        left = -1;
        if (status != SQLITE_NOMEM && (status != good || strcmp(found, wanted) != 0)) {
            printf("%s: without allocation %ld its status is %d, and it gives %s\n", query, at, status, found);
            return 0;
        }
    } while (failures > 0);
    return at > 10;
}

static int number_of_3_24(void)
{
    return 3024999;
}

static int number_of_3_25(void)
{
    return 3025000;
}

static const char *name_of_3_24(void)
{
    return "3.24";
}

/* Loads the extension into the first SQLite with window functions, and into one without. Returns 0 if it refuses the
 * first, or does not refuse the other by its name. */
static int check_old(void)
{
    sqlite3_api_routines old = *routines;
    sqlite3 *database = NULL;
    char *error = NULL;
    int status;
    old.libversion_number = number_of_3_25;
    status = sqlite3_open(":memory:", &database);
    if (status == SQLITE_OK)
        status = sqlite3_rapidhash_init(database, &error, &old);
    sqlite3_close(database);
    sqlite3_free(error);
    if (status != SQLITE_OK)
        return 0;
    old.libversion_number = number_of_3_24;
    old.libversion = name_of_3_24;
    old.create_window_function = NULL;
    status = sqlite3_rapidhash_init(NULL, &error, &old);
    status = status == SQLITE_ERROR && strcmp(error, "rapidhash needs SQLite 3.25 or later, and this is 3.24") == 0;
    sqlite3_free(error);
    return status;
}

int main(void)
{
    sqlite3_mem_methods failing;
    size_t at;
    sqlite3_config(SQLITE_CONFIG_GETMALLOC, &memory);
    failing = memory;
    failing.xMalloc = allocate;
    failing.xRealloc = reallocate;
    sqlite3_config(SQLITE_CONFIG_MALLOC, &failing);
    sqlite3_config(SQLITE_CONFIG_LOOKASIDE, 0, 0);
    sqlite3_auto_extension((void (*)(void))keep_routines);
    for (at = 0; at < sizeof queries / sizeof *queries; at++)
        if (!check(queries[at]))
            return 1;
    if (!check_old()) {
        puts("SQLite 3.24 is not refused, or 3.25 is");
        return 1;
    }
    puts("every failed allocation ended in SQLITE_NOMEM");
    return 0;
}
