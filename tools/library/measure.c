/* Measures puts and gets a second, with a sync after each so many puts, of fstch, and of LMDB and SQLite where they are linked.
 *
 *     measure FOLDER
 *
 * writes a table to standard output: medians of RUNS runs of RUN_SECONDS each, of 1,000 keys of 8 bytes, put by turns, on a file that is
 * made in the folder; of fstch also without barriers, where a sync is one sync of the file. A sync of LMDB and SQLite is the commit of a
 * transaction that has the puts since the last one; of SQLite with a write-ahead log and synchronous=FULL. tools/measure_library builds it.
 */
#define _GNU_SOURCE
#include <fstch.h>

#include <stdio.h>
#include <stdlib.h>
#include <string.h>
#include <time.h>
#include <unistd.h>

#ifdef HAS_LMDB
#include <lmdb.h>
#endif
#ifdef HAS_SQLITE
#include <sqlite3.h>
#endif

enum { KEYS = 1000, KEY_LENGTH = 8, LONGEST = 1000, RUNS = 3, EXTENTS = 254 };
static const double RUN_SECONDS = 0.5;

typedef struct {
    const char *name;
    void (*open)(void);
    void (*put)(const char *key, const uint8_t *value, size_t length);
    void (*sync)(void);
    void (*get)(const char *key, uint8_t *into, size_t length);
    void (*close)(void);
} engine;

static void must(bool holds, const char *what) {
    if (!holds) {
        fprintf(stderr, "measure: %s\n", what);
        exit(1);
    }
}

/* fstch. */

static fstch_store store = FSTCH_CLOSED;

static void done(int32_t answer) {
    char text[64];
    fstch_error_text(answer, text, sizeof text);
    must(answer == FSTCH_DONE, text);
}

static void store_open_with(uint32_t flags) {
    static const char *const path = "measure.fstch";
    uint32_t slot;
    remove(path);
    done(fstch_make(path, 16, EXTENTS, 0));
    done(fstch_open_with(&store, path, flags, &slot));
}

static void store_open(void) {
    store_open_with(0);
}

static void store_open_without(void) {
    store_open_with(FSTCH_NO_BARRIERS);
}

static void store_put(const char *key, const uint8_t *value, size_t length) {
    done(fstch_put(&store, FSTCH_NO_WRITER, key, KEY_LENGTH, value, length));
}

static void store_sync(void) {
    done(fstch_sync(&store));
}

static void store_get(const char *key, uint8_t *into, size_t length) {
    size_t seen;
    done(fstch_get(&store, key, KEY_LENGTH, into, length, &seen));
    must(seen == length, "a value has another length");
}

static void store_close(void) {
    done(fstch_close(&store));
}

static const engine FSTCH = {"fstch", store_open, store_put, store_sync, store_get, store_close};
static const engine WITHOUT = {"fstch without barriers", store_open_without, store_put, store_sync, store_get, store_close};

/* LMDB. */

#ifdef HAS_LMDB
static MDB_env *environment;
static MDB_txn *changes, *looks;
static MDB_dbi table;

static void well(int answer) {
    must(answer == 0, mdb_strerror(answer));
}

static void lmdb_open(void) {
    remove("measure.lmdb");
    remove("measure.lmdb-lock");
    well(mdb_env_create(&environment));
    well(mdb_env_set_mapsize(environment, 64 << 20));
    well(mdb_env_open(environment, "measure.lmdb", MDB_NOSUBDIR, 0644));
    well(mdb_txn_begin(environment, NULL, 0, &changes));
    well(mdb_dbi_open(changes, NULL, 0, &table));
    well(mdb_txn_commit(changes));
    changes = NULL;
    well(mdb_txn_begin(environment, NULL, MDB_RDONLY, &looks));
    mdb_txn_reset(looks);
}

static void lmdb_put(const char *key, const uint8_t *value, size_t length) {
    MDB_val name = {KEY_LENGTH, (void *)key}, content = {length, (void *)value};
    if (changes == NULL) {
        well(mdb_txn_begin(environment, NULL, 0, &changes));
    }
    well(mdb_put(changes, table, &name, &content, 0));
}

static void lmdb_sync(void) {
    well(mdb_txn_commit(changes));
    changes = NULL;
}

static void lmdb_get(const char *key, uint8_t *into, size_t length) {
    MDB_val name = {KEY_LENGTH, (void *)key}, content;
    well(mdb_txn_renew(looks));
    well(mdb_get(looks, table, &name, &content));
    must(content.mv_size == length, "a value has another length");
    memcpy(into, content.mv_data, length);
    mdb_txn_reset(looks);
}

static void lmdb_close(void) {
    mdb_txn_abort(looks);
    mdb_env_close(environment);
}

static const engine LMDB = {"LMDB", lmdb_open, lmdb_put, lmdb_sync, lmdb_get, lmdb_close};
#endif

/* SQLite. */

#ifdef HAS_SQLITE
static sqlite3 *base;
static sqlite3_stmt *put_row, *get_row;
static bool is_changing;

static void sql(const char *text) {
    must(sqlite3_exec(base, text, NULL, NULL, NULL) == SQLITE_OK, sqlite3_errmsg(base));
}

static sqlite3_stmt *prepared(const char *text) {
    sqlite3_stmt *made = NULL;
    must(sqlite3_prepare_v2(base, text, -1, &made, NULL) == SQLITE_OK, sqlite3_errmsg(base));
    return made;
}

static void sqlite_open(void) {
    remove("measure.sqlite");
    remove("measure.sqlite-wal");
    remove("measure.sqlite-shm");
    must(sqlite3_open("measure.sqlite", &base) == SQLITE_OK, "the base can't be opened");
    sql("pragma journal_mode = wal; pragma synchronous = full; create table pairs (key blob primary key, value blob) without rowid");
    put_row = prepared("insert or replace into pairs values (?, ?)");
    get_row = prepared("select value from pairs where key = ?");
    is_changing = false;
}

static void sqlite_put(const char *key, const uint8_t *value, size_t length) {
    if (!is_changing) {
        sql("begin");
        is_changing = true;
    }
    sqlite3_bind_blob(put_row, 1, key, KEY_LENGTH, SQLITE_STATIC);
    sqlite3_bind_blob(put_row, 2, value, (int)length, SQLITE_STATIC);
    must(sqlite3_step(put_row) == SQLITE_DONE, sqlite3_errmsg(base));
    sqlite3_reset(put_row);
}

static void sqlite_sync(void) {
    sql("commit");
    is_changing = false;
}

static void sqlite_get(const char *key, uint8_t *into, size_t length) {
    sqlite3_bind_blob(get_row, 1, key, KEY_LENGTH, SQLITE_STATIC);
    must(sqlite3_step(get_row) == SQLITE_ROW, sqlite3_errmsg(base));
    must((size_t)sqlite3_column_bytes(get_row, 0) == length, "a value has another length");
    memcpy(into, sqlite3_column_blob(get_row, 0), length);
    sqlite3_reset(get_row);
}

static void sqlite_close(void) {
    sqlite3_finalize(put_row);
    sqlite3_finalize(get_row);
    must(sqlite3_close(base) == SQLITE_OK, "the base can't be closed");
}

static const engine SQLITE = {"SQLite", sqlite_open, sqlite_put, sqlite_sync, sqlite_get, sqlite_close};
#endif

/* Measures. */

static double seconds(void) {
    struct timespec now;
    clock_gettime(CLOCK_MONOTONIC, &now);
    return (double)now.tv_sec + (double)now.tv_nsec / 1e9;
}

static char keys[KEYS][KEY_LENGTH + 1];

/* All keys, in an order that isn't theirs. */
static void write_keys(void) {
    for (unsigned number = 0; number < KEYS; number++) {
        snprintf(keys[number], sizeof keys[number], "%0*u", KEY_LENGTH, number * 617 % KEYS);
    }
}

static uint8_t value[LONGEST];

static double puts_a_second(const engine *it, size_t length, unsigned long puts_a_sync) {
    unsigned long puts = 0;
    double begun, now;
    it->open();
    begun = seconds();
    do {
        for (unsigned long more = 0; more < puts_a_sync; more++, puts++) {
            value[puts % length]++;
            it->put(keys[puts % KEYS], value, length);
        }
        it->sync();
        now = seconds();
    } while (now - begun < RUN_SECONDS);
    it->close();
    return (double)puts / (now - begun);
}

static double gets_a_second(const engine *it, size_t length, unsigned long gets_a_look) {
    static uint8_t into[LONGEST];
    unsigned long gets = 0;
    double begun, now;
    it->open();
    for (unsigned long number = 0; number < KEYS; number++) {
        it->put(keys[number], value, length);
    }
    it->sync();
    begun = seconds();
    do {
        for (unsigned long more = 0; more < gets_a_look; more++, gets++) {
            it->get(keys[gets % KEYS], into, length);
        }
        now = seconds();
    } while (now - begun < RUN_SECONDS);
    it->close();
    return (double)gets / (now - begun);
}

static int compare(const void *one, const void *other) {
    double a = *(const double *)one, b = *(const double *)other;
    return (a > b) - (a < b);
}

static double median(double (*measure)(const engine *, size_t, unsigned long), const engine *it, size_t length, unsigned long each) {
    double seen[RUNS];
    for (int run = 0; run < RUNS; run++) {
        seen[run] = measure(it, length, each);
    }
    qsort(seen, RUNS, sizeof *seen, compare);
    return seen[RUNS / 2];
}

static void write_row(const engine *it, size_t length) {
    printf("| %s | %zu |", it->name, length);
    for (unsigned long each = 1; each <= 1000; each *= 10) {
        printf(" %.0f |", median(puts_a_second, it, length, each));
        fflush(stdout);
    }
    printf(" %.0f |\n", median(gets_a_second, it, length, 1000));
    fflush(stdout);
}

int main(int argc, char **argv) {
    static const engine *const engines[] = {
        &FSTCH,
        &WITHOUT,
#ifdef HAS_LMDB
        &LMDB,
#endif
#ifdef HAS_SQLITE
        &SQLITE,
#endif
    };
    must(argc == 2 && chdir(argv[1]) == 0, "usage: measure FOLDER");
    write_keys();
    printf("| Store | Bytes of a value | Puts a second, a sync after each | after 10 | after 100 | after 1,000 | Gets a second |\n");
    printf("| --- | --- | --- | --- | --- | --- | --- |\n");
    for (size_t length = 100; length <= LONGEST; length *= 10) {
        for (size_t it = 0; it < sizeof engines / sizeof *engines; it++) {
            write_row(engines[it], length);
        }
    }
    return 0;
}
