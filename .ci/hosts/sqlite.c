/* The extension for SQLite where memory lies at 8 beyond a multiple of 16, and each request for it is refused in turn; then many
 * queries over features at once, queries that end midway, and an SQLite that is too old.
 *
 *     sqlite MODULE */
#include <dlfcn.h>
#include <sqlite3.h>
#include <sqlite3ext.h>
#include <stdint.h>
#include <stdio.h>
#include <stdlib.h>
#include <string.h>

static int failed = 0;

static int wants(int holds, const char *what) {
    if (!holds) {
        printf("FAILED: %s\n", what);
        failed = 1;
    }
    return holds;
}

/* ---- memory: the size of a piece stands before it */

static long requests, refused;

static void *take(int size) {
    int64_t *piece = ++requests == refused ? NULL : malloc((size_t)size + sizeof *piece);
    if (!piece)
        return NULL;
    *piece = size;
    return piece + 1;
}

static void give_back(void *piece) {
    free((int64_t *)piece - 1);
}

static int size_of(void *piece) {
    return (int)((int64_t *)piece)[-1];
}

static void *change(void *piece, int size) {
    void *changed = take(size);
    if (changed) {
        memcpy(changed, piece, (size_t)(size < size_of(piece) ? size : size_of(piece)));
        give_back(piece);
    }
    return changed;
}

static int round_up(int size) {
    return (size + 7) & ~7;
}

static int begin(void *data) {
    (void)data;
    return SQLITE_OK;
}

static void end(void *data) {
    (void)data;
}

static sqlite3_mem_methods memory = {take, give_back, change, size_of, round_up, begin, end, NULL};

/* ---- queries with their answers */

static const char *const QUERIES[][2] = {
    {"SELECT is_geojson('{\"type\":\"Point\",\"coordinates\":[1,2]}') || is_geojson(x'7b7d') || is_geojson(zeroblob(100000))", "100"},
    {"SELECT geojson_report('{\"type\":\"Point\",\"coordinates\":[1]}')",
     "{\"valid\":false,\"rule\":\"G12\",\"place\":30,\"path\":null,\"message\":\"position of fewer than two elements\",\"warnings\":null}"},
    {"SELECT json_extract(geojson_report('{\"type\":\"Point\",\"coordinates\":[200,2]}'), '$.warnings[0].place')", "30"},
    {"SELECT group_concat(rule || place || message || length(geojson_body)) FROM geojson_features('{\"features\":[{},7 ]}')",
     "G213type missing20,G116not an object20"},
    {"SELECT warnings FROM geojson_features('{\"features\":[{\"type\":\"Point\",\"coordinates\":[200,2]}]}')", NULL},
    {"SELECT sum(\"index\") FROM (SELECT printf('%.3000c', ' ') || '{\"features\":[{},{},{}]}' AS body "
     "UNION ALL SELECT '{\"features\":[1,2 ]}'), geojson_features(body)",
     "4"},
};

/* The first value of the first row of a query. Answers the status, and where that is SQLITE_ROW whether the value is right. */
static int asks(sqlite3 *db, const char *query, const char *wanted, int *is_right) {
    sqlite3_stmt *statement = NULL;
    int status = sqlite3_prepare_v2(db, query, -1, &statement, NULL);
    if (status == SQLITE_OK)
        status = sqlite3_step(statement);
    if (status == SQLITE_ROW) {
        const char *got = (const char *)sqlite3_column_text(statement, 0);
        *is_right = got ? wanted && strcmp(got, wanted) == 0 : !wanted || sqlite3_errcode(db) == SQLITE_NOMEM;
        if (!*is_right)
            printf("%s: %s\n", query, got ? got : "null");
    }
    sqlite3_finalize(statement);
    return status;
}

static sqlite3 *loaded(const char *module) {
    sqlite3 *db = NULL;
    if (sqlite3_open(":memory:", &db) == SQLITE_OK && sqlite3_enable_load_extension(db, 1) == SQLITE_OK &&
        sqlite3_load_extension(db, module, NULL, NULL) == SQLITE_OK)
        return db;
    sqlite3_close(db);
    return NULL;
}

/* Runs all queries; answers how many gave a value. */
static size_t ask_all(const char *module) {
    size_t answered = 0;
    sqlite3 *db = loaded(module);
    for (size_t i = 0; db && i < sizeof QUERIES / sizeof *QUERIES; i++) {
        int is_right = 1;
        answered += asks(db, QUERIES[i][0], QUERIES[i][1], &is_right) == SQLITE_ROW;
        wants(is_right, "an answer");
    }
    wants(sqlite3_close(db) == SQLITE_OK, "a connection closes");
    return answered;
}

/* A query whose memory was refused says so, and gives no other answer than the right one. */
static void refuse_each(const char *module) {
    long most;
    requests = refused = 0;
    wants(ask_all(module) == sizeof QUERIES / sizeof *QUERIES, "each query is answered");
    most = requests;
    for (long at = 1; at <= most; at++) {
        requests = 0;
        refused = at;
        ask_all(module);
    }
    refused = 0;
    wants(sqlite3_memory_used() == 0, "all memory is given back");
    printf("%ld requests refused\n", most);
}

/* ---- queries at once, and queries that end midway */

enum { MANY = 100 };

static void at_once(const char *module) {
    static const char QUERY[] = "SELECT \"index\" FROM geojson_features('{\"features\":[{},{},{},{},{}]}')";
    sqlite3 *db = loaded(module);
    sqlite3_stmt *statements[MANY];
    if (!wants(db != NULL, "the module is loaded"))
        return;
    for (int i = 0; i < MANY; i++)
        wants(sqlite3_prepare_v2(db, QUERY, -1, &statements[i], NULL) == SQLITE_OK, "a query");
    for (int row = 0; row < 3; row++)
        for (int i = 0; i < MANY; i++)
            wants(sqlite3_step(statements[i]) == SQLITE_ROW && sqlite3_column_int(statements[i], 0) == row, "a row of one of many");
    /* A third begins again, a third goes on, and a third ends here. */
    for (int i = 0; i < MANY; i += 3)
        sqlite3_reset(statements[i]);
    for (int i = 0; i < MANY; i++)
        for (int row = i % 3 == 0 ? 0 : 3; row < 6 && i % 3 != 2; row++) {
            int status = sqlite3_step(statements[i]);
            int is_right = row < 5 ? status == SQLITE_ROW && sqlite3_column_int(statements[i], 0) == row : status == SQLITE_DONE;
            wants(is_right, "a row after others");
        }
    for (int i = 0; i < MANY; i++)
        sqlite3_finalize(statements[i]);
    wants(sqlite3_close(db) == SQLITE_OK && sqlite3_memory_used() == 0, "they end");
}

/* ---- an SQLite of an earlier version */

static const sqlite3_api_routines *routines;

static int keep_routines(sqlite3 *db, char **error, const sqlite3_api_routines *api) {
    (void)db, (void)error;
    routines = api;
    return SQLITE_OK;
}

static int earlier(void) {
    return 3030000;
}

static void too_old(const char *module) {
    int (*load)(sqlite3 *, char **, const sqlite3_api_routines *);
    void *library = dlopen(module, RTLD_NOW);
    sqlite3_api_routines old;
    sqlite3 *db = NULL;
    char *error = NULL;
    sqlite3_auto_extension((void (*)(void))keep_routines);
    sqlite3_open(":memory:", &db);
    sqlite3_cancel_auto_extension((void (*)(void))keep_routines);
    *(void **)&load = library ? dlsym(library, "sqlite3_modgeolint_init") : NULL;
    if (!wants(routines && load, "the module has its function"))
        return;
    old = *routines;
    old.libversion_number = earlier;
    wants(load(db, &error, &old) == SQLITE_ERROR && error && strstr(error, "needs SQLite 3.31 or later"), "an SQLite that is too old");
    sqlite3_free(error);
    sqlite3_close(db);
    dlclose(library);
}

int main(int count, char **words) {
    if (count != 2 || sqlite3_config(SQLITE_CONFIG_MALLOC, &memory) != SQLITE_OK)
        return 2;
    refuse_each(words[1]);
    at_once(words[1]);
    too_old(words[1]);
    return failed;
}
