/* The extension for SQLite: is_geojson(body), geojson_report(body), the table-valued geojson_features(body), geolint_version(). */
#include <geolint.h>
#include <sqlite3ext.h>
#include <stdbool.h>
#include <string.h>
SQLITE_EXTENSION_INIT1

enum { OLDEST_SQLITE = 3031000, FLAGS = SQLITE_UTF8 | SQLITE_DETERMINISTIC | SQLITE_INNOCUOUS };

/* How much memory has room for a handle of this size at its multiple. SQLite's memory lies at a multiple of 8 alone. */
static sqlite3_uint64 room_for(size_t size) {
    return size + geolint_alignment() - 1;
}

/* The place of the handle in such memory. */
static void *handle_in(void *memory) {
    uintptr_t below = geolint_alignment() - 1;
    return (void *)(((uintptr_t)memory + below) & ~below);
}

typedef struct Text {
    const char *bytes;
    size_t size;
} Text;

/* The bytes of a blob; of another value those of its text, in UTF-8. False where there is no memory for them. */
static bool get_text(sqlite3_value *value, Text *text) {
    bool is_blob = sqlite3_value_type(value) == SQLITE_BLOB;
    const void *bytes = is_blob ? sqlite3_value_blob(value) : sqlite3_value_text(value);
    text->size = (size_t)sqlite3_value_bytes(value);
    text->bytes = geolint_bytes(bytes);
    return bytes || (is_blob && text->size == 0);
}

/* ---- what is said of a text */

/* Begins a text that is the result of a call, which give ends and frees. */
static sqlite3_str *begin_text(sqlite3_context *context) {
    return sqlite3_str_new(sqlite3_context_db_handle(context));
}

static void give(sqlite3_context *context, sqlite3_str *made) {
    char *text = sqlite3_str_finish(made);
    if (text)
        sqlite3_result_text(context, text, -1, sqlite3_free);
    else
        sqlite3_result_error_nomem(context);
}

/* The rule or the cause of a text that is not valid, and what it says. */
typedef struct Fault {
    char letter;
    unsigned number;
    const char *message;
} Fault;

static Fault fault_of(const geolint_report *report) {
    if (report->verdict == GEOLINT_BROKEN)
        return (Fault){'G', report->rule, geolint_rule(report->rule)};
    return (Fault){'J', report->cause, geolint_cause(report->cause)};
}

static sqlite3_str *add_code(sqlite3_str *text, const Fault *fault) {
    sqlite3_str_appendf(text, "%c%u", fault->letter, fault->number);
    return text;
}

/* The warnings as an array in JSON, an object for each kind that there is. No text of the library has a byte that JSON escapes. */
static sqlite3_str *add_warnings(sqlite3_str *json, const geolint_report *report) {
    const char *comma = "";
    sqlite3_str_appendchar(json, 1, '[');
    for (unsigned kind = 1; kind <= GEOLINT_KINDS; kind++) {
        const geolint_warned *warned = &report->warnings[kind - 1];
        if (warned->count == 0)
            continue;
        sqlite3_str_appendf(json, "%s{\"rule\":\"W%u\",\"count\":%llu,\"place\":%llu,\"message\":\"%s\"}", comma, kind,
                            (sqlite3_uint64)warned->count, (sqlite3_uint64)warned->first, geolint_warning(kind));
        comma = ",";
    }
    sqlite3_str_appendchar(json, 1, ']');
    return json;
}

/* ---- functions of a value, each with a linter of its own: a small text costs little where it is begun again */

/* Checks the value; false where it is null, and so is the result, or where the result is an error. */
static bool judge(sqlite3_context *context, sqlite3_value *value, geolint_report *report) {
    geolint_linter *linter = handle_in(sqlite3_user_data(context));
    Text text;
    if (sqlite3_value_type(value) == SQLITE_NULL)
        return false;
    if (!get_text(value, &text)) {
        sqlite3_result_error_nomem(context);
        return false;
    }
    geolint_begin_again(linter, 0, 0);
    geolint_feed(linter, text.bytes, text.size);
    *report = geolint_finish(linter);
    return true;
}

static void is_geojson(sqlite3_context *context, int count, sqlite3_value **values) {
    geolint_report report;
    (void)count;
    if (judge(context, values[0], &report))
        sqlite3_result_int(context, report.verdict == GEOLINT_VALID);
}

/* An object with the attributes that geojson_verdict has in PostgreSQL. */
static void geojson_report(sqlite3_context *context, int count, sqlite3_value **values) {
    geolint_report report;
    (void)count;
    if (!judge(context, values[0], &report))
        return;
    sqlite3_str *json = begin_text(context);
    if (report.verdict == GEOLINT_VALID) {
        sqlite3_str_appendall(json, "{\"valid\":true,\"rule\":null,\"place\":null,\"path\":null,\"message\":null,\"warnings\":");
        add_warnings(json, &report);
    } else {
        Fault fault = fault_of(&report);
        sqlite3_str_appendall(json, "{\"valid\":false,\"rule\":\"");
        add_code(json, &fault);
        sqlite3_str_appendf(json, "\",\"place\":%llu,\"path\":null,\"message\":\"%s\",\"warnings\":null",
                            (sqlite3_uint64)report.place, fault.message);
    }
    sqlite3_str_appendchar(json, 1, '}');
    give(context, json);
}

static void version_of_geolint(sqlite3_context *context, int count, sqlite3_value **values) {
    (void)count;
    (void)values;
    sqlite3_result_text(context, geolint_version(), -1, SQLITE_STATIC);
}

/* ---- geojson_features(body): a row for each feature */

/* The columns; the hidden one is the argument. */
static const char TABLE[] = "CREATE TABLE x(\"index\" INTEGER, start_place INTEGER, end_place INTEGER, id_place INTEGER, "
                            "valid INTEGER, rule TEXT, place INTEGER, message TEXT, warnings TEXT, geojson_body HIDDEN)";
enum { INDEX, START, END, ID, VALID, RULE, PLACE, MESSAGE, WARNINGS, BODY };

/* A query over the features of a text. The handle lies after it, in the same memory. */
typedef struct Cursor {
    sqlite3_vtab_cursor base;
    sqlite3_value *body; /* a copy, since SQLite keeps an argument only while the rows are begun */
    Text left;           /* what is not fed yet */
    bool has_ended;
    geolint_finding finding;
} Cursor;

static geolint_features *features_of(Cursor *cursor) {
    return handle_in(cursor + 1);
}

static int connect(sqlite3 *db, void *data, int count, const char *const *words, sqlite3_vtab **table, char **error) {
    int status = sqlite3_declare_vtab(db, TABLE);
    (void)data, (void)count, (void)words, (void)error;
    if (status != SQLITE_OK)
        return status;
    *table = sqlite3_malloc64(sizeof **table);
    if (!*table)
        return SQLITE_NOMEM;
    memset(*table, 0, sizeof **table);
    return sqlite3_vtab_config(db, SQLITE_VTAB_INNOCUOUS);
}

static int disconnect(sqlite3_vtab *table) {
    sqlite3_free(table);
    return SQLITE_OK;
}

/* The one plan: the rows of the argument, in their order. */
static int best_index(sqlite3_vtab *table, sqlite3_index_info *info) {
    bool is_given = false;
    for (int i = 0; i < info->nConstraint; i++) {
        if (info->aConstraint[i].iColumn != BODY || info->aConstraint[i].op != SQLITE_INDEX_CONSTRAINT_EQ)
            continue;
        is_given = true;
        if (!info->aConstraint[i].usable)
            continue;
        info->aConstraintUsage[i].argvIndex = 1;
        info->aConstraintUsage[i].omit = 1;
        info->estimatedCost = 1000;
        return SQLITE_OK;
    }
    if (is_given)
        return SQLITE_CONSTRAINT;
    table->zErrMsg = sqlite3_mprintf("geojson_features needs the text: geojson_features(body)");
    return SQLITE_ERROR;
}

static int open_cursor(sqlite3_vtab *table, sqlite3_vtab_cursor **base) {
    Cursor *cursor = sqlite3_malloc64(sizeof *cursor + room_for(geolint_features_size()));
    (void)table;
    if (!cursor)
        return SQLITE_NOMEM;
    memset(cursor, 0, sizeof *cursor);
    geolint_features_begin(features_of(cursor), 0, 0);
    *base = &cursor->base;
    return SQLITE_OK;
}

static int close_cursor(sqlite3_vtab_cursor *base) {
    sqlite3_value_free(((Cursor *)base)->body);
    sqlite3_free(base);
    return SQLITE_OK;
}

/* The next feature, or the end where the text has no more or is refused. */
static int next_row(sqlite3_vtab_cursor *base) {
    Cursor *cursor = (Cursor *)base;
    for (;;) {
        cursor->finding = geolint_features_next(features_of(cursor));
        cursor->has_ended = cursor->finding.report.status != GEOLINT_DONE && cursor->left.size == 0;
        if (cursor->has_ended || cursor->finding.report.status == GEOLINT_DONE)
            return SQLITE_OK;
        size_t taken = geolint_features_feed(features_of(cursor), cursor->left.bytes, cursor->left.size).taken;
        cursor->left.bytes += taken;
        cursor->left.size -= taken;
    }
}

static int begin_rows(sqlite3_vtab_cursor *base, int plan, const char *name, int count, sqlite3_value **values) {
    Cursor *cursor = (Cursor *)base;
    (void)plan, (void)name, (void)count;
    sqlite3_value_free(cursor->body);
    cursor->body = NULL;
    cursor->has_ended = true;
    if (sqlite3_value_type(values[0]) == SQLITE_NULL)
        return SQLITE_OK;
    cursor->body = sqlite3_value_dup(values[0]);
    if (!cursor->body || !get_text(cursor->body, &cursor->left))
        return SQLITE_NOMEM;
    geolint_features_begin_again(features_of(cursor), 0, 0);
    return next_row(base);
}

static int has_ended(sqlite3_vtab_cursor *base) {
    return ((Cursor *)base)->has_ended;
}

static int row_number(sqlite3_vtab_cursor *base, sqlite3_int64 *number) {
    *number = (sqlite3_int64)((Cursor *)base)->finding.number;
    return SQLITE_OK;
}

/* A column of the row; null where there is no such thing. */
static int give_column(sqlite3_vtab_cursor *base, sqlite3_context *context, int column) {
    const Cursor *cursor = (Cursor *)base;
    const geolint_finding *finding = &cursor->finding;
    bool is_valid = finding->report.verdict == GEOLINT_VALID;
    Fault fault = fault_of(&finding->report);
    if (column == INDEX)
        sqlite3_result_int64(context, (sqlite3_int64)finding->number);
    else if (column == START)
        sqlite3_result_int64(context, (sqlite3_int64)finding->place);
    else if (column == END && finding->end)
        sqlite3_result_int64(context, (sqlite3_int64)finding->end);
    else if (column == ID && finding->id)
        sqlite3_result_int64(context, (sqlite3_int64)finding->id);
    else if (column == VALID)
        sqlite3_result_int(context, is_valid);
    else if (column == RULE && !is_valid)
        give(context, add_code(begin_text(context), &fault));
    else if (column == PLACE && !is_valid)
        sqlite3_result_int64(context, (sqlite3_int64)finding->report.place);
    else if (column == MESSAGE && !is_valid)
        sqlite3_result_text(context, fault.message, -1, SQLITE_STATIC);
    else if (column == WARNINGS && is_valid)
        give(context, add_warnings(begin_text(context), &finding->report));
    else if (column == BODY)
        sqlite3_result_value(context, cursor->body);
    return SQLITE_OK;
}

static const sqlite3_module features_module = {
    .xConnect = connect, .xBestIndex = best_index, .xDisconnect = disconnect, .xOpen = open_cursor, .xClose = close_cursor,
    .xFilter = begin_rows, .xNext = next_row, .xEof = has_ended, .xColumn = give_column, .xRowid = row_number,
};

/* ---- what SQLite calls when it loads the module */

static int add_function(sqlite3 *db, const char *name, void (*call)(sqlite3_context *, int, sqlite3_value **)) {
    void *memory = sqlite3_malloc64(room_for(geolint_size()));
    if (!memory)
        return SQLITE_NOMEM;
    geolint_begin(handle_in(memory), 0, 0);
    return sqlite3_create_function_v2(db, name, 1, FLAGS, memory, call, NULL, NULL, sqlite3_free);
}

__attribute__((visibility("default"))) int sqlite3_modgeolint_init(sqlite3 *db, char **error, const sqlite3_api_routines *api) {
    int status;
    SQLITE_EXTENSION_INIT2(api);
    if (sqlite3_libversion_number() < OLDEST_SQLITE) {
        *error = sqlite3_mprintf("geolint needs SQLite 3.31 or later, and this is %s", sqlite3_libversion());
        return SQLITE_ERROR;
    }
    status = add_function(db, "is_geojson", is_geojson);
    if (status == SQLITE_OK)
        status = add_function(db, "geojson_report", geojson_report);
    if (status == SQLITE_OK)
        status = sqlite3_create_function_v2(db, "geolint_version", 0, FLAGS, NULL, version_of_geolint, NULL, NULL, NULL);
    return status == SQLITE_OK ? sqlite3_create_module(db, "geojson_features", &features_module, NULL) : status;
}
