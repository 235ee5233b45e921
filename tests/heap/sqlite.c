/* SQLite: uses tables in memory, with an index, joins and sorts. */
#include <sqlite3.h>

#include "guests.h"

static void *allocate(int bytes) { return current_malloc((size_t)bytes); }
static void *reallocate(void *old, int bytes) { return current_realloc(old, (size_t)bytes); }
static int size_of(void *at) { return (int)current_size(at); }
static int round_up(int bytes) { return (bytes + 15) / 16 * 16; }
static void end(void *unused) { (void)unused; }

static int begin(void *unused)
{
    (void)unused;
    return SQLITE_OK;
}

static void set_up(void)
{
    static const sqlite3_mem_methods methods = {allocate, current_free, reallocate, size_of, round_up, begin, end, NULL};
    MUST(sqlite3_config(SQLITE_CONFIG_SINGLETHREAD) == SQLITE_OK && sqlite3_config(SQLITE_CONFIG_MEMSTATUS, 0) == SQLITE_OK);
    MUST(sqlite3_config(SQLITE_CONFIG_MALLOC, &methods) == SQLITE_OK && sqlite3_initialize() == SQLITE_OK);
}

static void tear_down(void) { MUST(sqlite3_shutdown() == SQLITE_OK); }

static int note_row(void *guest, int count, char **values, char **names)
{
    (void)names;
    for (int i = 0; i < count; i++)
        if (values[i]) note(guest, values[i], strlen(values[i]));
    return 0;
}

static void run(struct guest *guest, sqlite3 *database, const char *text)
{
    char *message = NULL;
    const int status = sqlite3_exec(database, text, note_row, guest, &message);
    note(guest, &status, sizeof status);
    if (message) note(guest, message, strlen(message));
    sqlite3_free(message);
    guest->failed += status != SQLITE_OK;
}

static sqlite3 *database_of(struct guest *guest)
{
    sqlite3 *database = guest->state[0];
    if (database) return database;
    if (sqlite3_open(":memory:", &database) != SQLITE_OK) {
        sqlite3_close(database);
        guest->failed++;
        return NULL;
    }
    run(guest, database, "create table t(a integer primary key, b text, c real); create index i on t(b)");
    return guest->state[0] = database;
}

static void step(struct guest *guest)
{
    static const char *const last[] = {"delete from t where a % 3 = 0",
                                       "select a.a, b.b from t a join t b on a.b = b.b order by b.b, a.a limit 20",
                                       "select b, c from t order by c desc, a limit 5", "reindex", "delete from t"};
    sqlite3 *database = database_of(guest);
    char text[512];
    if (!database) return;
    snprintf(text, sizeof text,
             "with recursive n(x) as (select 1 union all select x + 1 from n where x < %u) "
             "insert into t(b, c) select 'row ' || (x * %u %% 997), x * 1.5 from n",
             1 + any_of(guest, 500), 1 + any_of(guest, 1000));
    run(guest, database, text);
    snprintf(text, sizeof text, "update t set b = b || 'y' where a %% %u = 0; select count(*), sum(c), min(b), max(b) from t",
             2 + any_of(guest, 13));
    run(guest, database, text);
    run(guest, database, "select substr(b, 1, 5) k, count(*) from t group by k order by k limit 4");
    run(guest, database, last[any_of(guest, LEN(last))]);
}

const struct program sqlite = {"SQLite", 6, step, set_up, tear_down};
