/* The functions of geolint--0.1.0.sql. */
#include "walk.h"

#include <catalog/pg_type.h>
#include <fmgr.h>
#include <funcapi.h>
#include <lib/stringinfo.h>
#include <utils/array.h>
#include <utils/builtins.h>
#include <utils/json.h>
#include <utils/jsonb.h>

PG_MODULE_MAGIC;

/* The attributes of geojson_verdict, in their order, and those of geojson_finding. */
enum { VALID, RULE, PLACE, PATH, MESSAGE, WARNINGS, ATTRIBUTES };
enum { INDEX, START, END, ID, FEATURE_VALID, FEATURE_RULE, FEATURE_PLACE, FEATURE_MESSAGE, FEATURE_WARNINGS, FEATURE_ATTRIBUTES };

/* What the arguments of a call say. */
static Allowed allowed_by(FunctionCallInfo fcinfo) {
    Allowed allowed = {PG_GETARG_INT32(1), PG_GETARG_INT64(2)};
    return allowed;
}

static geolint_report judge_argument(FunctionCallInfo fcinfo, Question question, Coding coding) {
    Allowed allowed = allowed_by(fcinfo);
    Pieces pieces;
    begin_value(&pieces, coding, PG_GETARG_DATUM(0));
    return judge(&pieces, question, &allowed);
}

/* Whether a text passes: valid, and without a warning of a kind that `deny` names. */
static bool passes(FunctionCallInfo fcinfo, const geolint_report *report) {
    ArrayType *deny = PG_GETARG_ARRAYTYPE_P(3);
    bool is_passed = report->verdict == GEOLINT_VALID;
    Datum *kinds;
    bool *nulls;
    int count;
    if (ARR_NDIM(deny) == 0)
        return is_passed;
    deconstruct_array(deny, TEXTOID, -1, false, TYPALIGN_INT, &kinds, &nulls, &count);
    for (int i = 0; i < count; i++) {
        const char *kind = nulls[i] ? "" : TextDatumGetCString(kinds[i]);
        if (strlen(kind) != 2 || kind[0] != 'W' || kind[1] < '1' || kind[1] >= '1' + GEOLINT_KINDS)
            ereport(ERROR, errcode(ERRCODE_INVALID_PARAMETER_VALUE), errmsg("deny has kinds of warning from W1 to W9, as in '{W5}'"));
        is_passed = is_passed && report->warnings[kind[1] - '1'].count == 0;
    }
    return is_passed;
}

static Datum is_argument_valid(FunctionCallInfo fcinfo, Coding coding) {
    geolint_report report = judge_argument(fcinfo, IS_IT_VALID, coding);
    PG_RETURN_BOOL(passes(fcinfo, &report));
}

PG_FUNCTION_INFO_V1(is_geojson_text);
Datum is_geojson_text(PG_FUNCTION_ARGS) {
    return is_argument_valid(fcinfo, CHARACTERS);
}

PG_FUNCTION_INFO_V1(is_geojson_bytea);
Datum is_geojson_bytea(PG_FUNCTION_ARGS) {
    return is_argument_valid(fcinfo, BYTES);
}

/* A jsonb keeps no text: the one that it prints is checked. */
PG_FUNCTION_INFO_V1(is_geojson_jsonb);
Datum is_geojson_jsonb(PG_FUNCTION_ARGS) {
    Allowed allowed = allowed_by(fcinfo);
    Jsonb *body = PG_GETARG_JSONB_P(0);
    StringInfoData text;
    Pieces pieces;
    initStringInfo(&text);
    JsonbToCString(&text, &body->root, VARSIZE(body));
    begin_string(&pieces, CHARACTERS, text.data, text.len);
    geolint_report report = judge(&pieces, IS_IT_VALID, &allowed);
    pfree(text.data);
    PG_FREE_IF_COPY(body, 0);
    PG_RETURN_BOOL(passes(fcinfo, &report));
}

/* What is made once for all rows of a query: the row type of the call, and the warnings of most texts. */
typedef struct Kept {
    TupleDesc type;
    Datum no_warnings;
} Kept;

/* The row type of the call, in its memory context. */
static TupleDesc row_type(FunctionCallInfo fcinfo, int attributes) {
    TupleDesc type;
    if (get_call_result_type(fcinfo, NULL, &type) != TYPEFUNC_COMPOSITE || type->natts != attributes)
        ereport(ERROR, errcode(ERRCODE_DATATYPE_MISMATCH), errmsg("the result is not of the type that this version of geolint has"),
                errhint("Run ALTER EXTENSION geolint UPDATE, or create the extension again."));
    return BlessTupleDesc(CreateTupleDescCopy(type));
}

/* In the memory context of the call. */
static Kept keep(FunctionCallInfo fcinfo, int attributes) {
    Kept kept;
    kept.type = row_type(fcinfo, attributes);
    kept.no_warnings = DirectFunctionCall1(jsonb_in, CStringGetDatum("[]"));
    return kept;
}

static const Kept *kept_for(FunctionCallInfo fcinfo) {
    Kept *kept = fcinfo->flinfo->fn_extra;
    if (!kept) {
        MemoryContext outer = MemoryContextSwitchTo(fcinfo->flinfo->fn_mcxt);
        kept = palloc(sizeof *kept);
        *kept = keep(fcinfo, ATTRIBUTES);
        MemoryContextSwitchTo(outer);
        fcinfo->flinfo->fn_extra = kept;
    }
    return kept;
}

/* The warnings as a jsonb array, an object for each kind that there is. */
static Datum warnings_of(const geolint_report *report) {
    StringInfoData json;
    const char *comma = "";
    initStringInfo(&json);
    appendStringInfoChar(&json, '[');
    for (uint32 kind = 1; kind <= GEOLINT_KINDS; kind++) {
        const geolint_warned *warned = &report->warnings[kind - 1];
        if (warned->count == 0)
            continue;
        appendStringInfo(&json, "%s{\"rule\":\"W%u\",\"count\":" UINT64_FORMAT ",\"place\":" UINT64_FORMAT ",\"message\":", comma, kind,
                         warned->count, warned->first);
        escape_json(&json, geolint_warning(kind));
        appendStringInfoChar(&json, '}');
        comma = ",";
    }
    appendStringInfoChar(&json, ']');
    return DirectFunctionCall1(jsonb_in, CStringGetDatum(json.data));
}

/* Where the attributes of a report stand in a row. */
typedef struct Slots {
    int valid, rule, place, message, warnings;
} Slots;

/* Fills the attributes of a row that say what the report does. The others are as they were. */
static void fill_report(const geolint_report *report, const Kept *kept, Slots at, Datum *values, bool *nulls) {
    bool is_broken = report->verdict == GEOLINT_BROKEN, is_valid = report->verdict == GEOLINT_VALID;
    uint32 number = is_broken ? report->rule : report->cause;
    values[at.valid] = BoolGetDatum(is_valid);
    nulls[at.warnings] = !is_valid;
    nulls[at.rule] = nulls[at.place] = nulls[at.message] = is_valid;
    if (is_valid) {
        values[at.warnings] = report->warned ? warnings_of(report) : kept->no_warnings;
        return;
    }
    values[at.rule] = CStringGetTextDatum(psprintf("%c%u", is_broken ? 'G' : 'J', number));
    values[at.place] = Int64GetDatum((int64)report->place);
    values[at.message] = CStringGetTextDatum(is_broken ? geolint_rule(number) : geolint_cause(number));
}

static Datum report_argument(FunctionCallInfo fcinfo, Coding coding) {
    geolint_report report = judge_argument(fcinfo, WHAT_IS_IT, coding);
    const Kept *kept = kept_for(fcinfo);
    Datum values[ATTRIBUTES] = {0};
    bool nulls[ATTRIBUTES] = {[PATH] = true};
    fill_report(&report, kept, (Slots){VALID, RULE, PLACE, MESSAGE, WARNINGS}, values, nulls);
    return HeapTupleGetDatum(heap_form_tuple(kept->type, values, nulls));
}

PG_FUNCTION_INFO_V1(geojson_report_text);
Datum geojson_report_text(PG_FUNCTION_ARGS) {
    return report_argument(fcinfo, CHARACTERS);
}

PG_FUNCTION_INFO_V1(geojson_report_bytea);
Datum geojson_report_bytea(PG_FUNCTION_ARGS) {
    return report_argument(fcinfo, BYTES);
}

/* A query over the features of a text: what is kept from one row to the next. */
typedef struct Rows {
    Walk *walk;
    Kept kept;
} Rows;

static Datum row_of(const geolint_finding *finding, const Kept *kept) {
    Datum values[FEATURE_ATTRIBUTES] = {0};
    bool nulls[FEATURE_ATTRIBUTES] = {false};
    values[INDEX] = Int64GetDatum((int64)finding->number);
    values[START] = Int64GetDatum((int64)finding->place);
    values[END] = Int64GetDatum((int64)finding->end);
    nulls[END] = finding->end == 0;
    values[ID] = Int64GetDatum((int64)finding->id);
    nulls[ID] = finding->id == 0;
    fill_report(&finding->report, kept, (Slots){FEATURE_VALID, FEATURE_RULE, FEATURE_PLACE, FEATURE_MESSAGE, FEATURE_WARNINGS}, values, nulls);
    return HeapTupleGetDatum(heap_form_tuple(kept->type, values, nulls));
}

/* A row for each feature, as it is asked for. */
static Datum features_of_argument(FunctionCallInfo fcinfo, Coding coding) {
    FuncCallContext *calls;
    MemoryContext outer;
    geolint_finding finding;
    bool is_there;
    Rows *rows;
    if (SRF_IS_FIRSTCALL()) {
        Allowed allowed = allowed_by(fcinfo);
        calls = SRF_FIRSTCALL_INIT();
        outer = MemoryContextSwitchTo(calls->multi_call_memory_ctx);
        rows = palloc(sizeof *rows);
        rows->kept = keep(fcinfo, FEATURE_ATTRIBUTES);
        rows->walk = begin_walk(coding, PG_GETARG_DATUM(0), &allowed);
        calls->user_fctx = rows;
        MemoryContextSwitchTo(outer);
    }
    calls = SRF_PERCALL_SETUP();
    rows = calls->user_fctx;
    outer = MemoryContextSwitchTo(calls->multi_call_memory_ctx);
    is_there = next_feature(rows->walk, &finding);
    MemoryContextSwitchTo(outer);
    if (!is_there)
        SRF_RETURN_DONE(calls);
    SRF_RETURN_NEXT(calls, row_of(&finding, &rows->kept));
}

PG_FUNCTION_INFO_V1(geojson_features_text);
Datum geojson_features_text(PG_FUNCTION_ARGS) {
    return features_of_argument(fcinfo, CHARACTERS);
}

PG_FUNCTION_INFO_V1(geojson_features_bytea);
Datum geojson_features_bytea(PG_FUNCTION_ARGS) {
    return features_of_argument(fcinfo, BYTES);
}

PG_FUNCTION_INFO_V1(version_of_geolint);
Datum version_of_geolint(PG_FUNCTION_ARGS) {
    PG_RETURN_TEXT_P(cstring_to_text(geolint_version()));
}

/* What the package says that the module is of: the commit and the proof kit. */
#ifndef GEOLINT_COMMIT
#define GEOLINT_COMMIT ""
#endif
#ifndef GEOLINT_KIT
#define GEOLINT_KIT ""
#endif

/* The attributes of what geolint_build answers, in their order. */
enum { VERSION, COMMIT, KIT, BUILD_ATTRIBUTES };

PG_FUNCTION_INFO_V1(build_of_geolint);
Datum build_of_geolint(PG_FUNCTION_ARGS) {
    const char *texts[BUILD_ATTRIBUTES] = {geolint_version(), GEOLINT_COMMIT, GEOLINT_KIT};
    Datum values[BUILD_ATTRIBUTES] = {0};
    bool nulls[BUILD_ATTRIBUTES] = {false};
    TupleDesc type = row_type(fcinfo, BUILD_ATTRIBUTES);
    for (int i = 0; i < BUILD_ATTRIBUTES; i++) {
        nulls[i] = *texts[i] == '\0';
        if (!nulls[i])
            values[i] = CStringGetTextDatum(texts[i]);
    }
    PG_RETURN_DATUM(HeapTupleGetDatum(heap_form_tuple(type, values, nulls)));
}
