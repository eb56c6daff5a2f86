/* What geolint.h says of each call at a null pointer, after the end, and of pieces of length 0: C99, and C++11 too. */
#include <geolint.h>
#include <stdio.h>
#include <string.h>

static int failed = 0;

static void wants(int holds, const char *what) {
    if (!holds) {
        printf("FAILED: %s\n", what);
        failed = 1;
    }
}

static const char POINT[] = "{\"type\":\"Point\",\"coordinates\":[1,2]}";
#define POINT_SIZE (sizeof POINT - 1)

static void at_null(void) {
    geolint_report report = geolint_finish(NULL);
    wants(geolint_begin(NULL, 0, 0) == GEOLINT_NULL, "begin at null");
    wants(geolint_begin_again(NULL, 0, 0) == GEOLINT_NULL, "begin again at null");
    wants(geolint_feed(NULL, "x", 1) == GEOLINT_NULL, "feed at null");
    wants(geolint_offset(NULL) == 0, "offset at null");
    wants(geolint_doomed(NULL) == 0, "doomed at null");
    wants(report.status == GEOLINT_NULL && report.verdict == GEOLINT_NO_VERDICT, "finish at null");
    geolint_free(NULL);
}

static void pieces_of_length_0(void) {
    geolint_linter *linter = geolint_new(0, 0);
    geolint_report report;
    if (!linter) {
        wants(0, "memory");
        return;
    }
    wants(geolint_feed(linter, "", 0) == GEOLINT_DONE, "no bytes at all");
    wants(geolint_feed(linter, geolint_bytes(NULL), 0) == GEOLINT_DONE, "a null piece of no bytes");
    wants(geolint_feed(linter, POINT, 10) == GEOLINT_DONE, "a piece");
    wants(geolint_feed(linter, "", 0) == GEOLINT_DONE && geolint_offset(linter) == 10, "no bytes in between");
    wants(geolint_feed(linter, POINT + 10, POINT_SIZE - 10) == GEOLINT_DONE, "the rest");
    report = geolint_finish(linter);
    wants(report.status == GEOLINT_DONE && report.verdict == GEOLINT_VALID && !report.warned, "a point");
    geolint_free(linter);
}

static void after_the_end(void) {
    geolint_linter *linter = geolint_new(0, 0);
    geolint_report report;
    if (!linter) {
        wants(0, "memory");
        return;
    }
    geolint_feed(linter, POINT, POINT_SIZE);
    geolint_finish(linter);
    wants(geolint_feed(linter, "x", 1) == GEOLINT_ENDED, "feed after the end");
    wants(geolint_feed(linter, "", 0) == GEOLINT_ENDED, "no bytes after the end");
    wants(geolint_doomed(linter) == 0 && geolint_offset(linter) == 0, "doomed and offset after the end");
    report = geolint_finish(linter);
    wants(report.status == GEOLINT_ENDED && report.verdict == GEOLINT_NO_VERDICT, "finish after the end");
    wants(geolint_begin(linter, 0, 0) == GEOLINT_DONE, "begin after the end");
    wants(geolint_feed(linter, POINT, POINT_SIZE) == GEOLINT_DONE, "feed after a second beginning");
    wants(geolint_offset(linter) == POINT_SIZE, "offset after a second beginning");
    wants(geolint_finish(linter).verdict == GEOLINT_VALID, "finish after a second beginning");
    geolint_free(linter);
}

static void begun_again(void) {
    geolint_linter *linter = geolint_new(1, 0);
    if (!linter) {
        wants(0, "memory");
        return;
    }
    wants(geolint_feed(linter, "[[", 2) == GEOLINT_REFUSED, "two levels");
    wants(geolint_begin_again(linter, 2, 40) == GEOLINT_DONE, "begin again after a refusal");
    wants(geolint_offset(linter) == 0 && geolint_doomed(linter) == 0, "nothing is left of it");
    wants(geolint_feed(linter, POINT, POINT_SIZE) == GEOLINT_DONE, "a text under the new limits");
    wants(geolint_begin_again(linter, 0, 10) == GEOLINT_DONE, "begin again in a text");
    wants(geolint_feed(linter, POINT, POINT_SIZE) == GEOLINT_REFUSED && geolint_offset(linter) == 10, "ten bytes");
    wants(geolint_finish(linter).cause == GEOLINT_LENGTH, "its verdict");
    wants(geolint_begin_again(linter, 257, 0) == GEOLINT_LIMITS, "begin again beyond the limits");
    wants(geolint_feed(linter, "x", 1) == GEOLINT_ENDED && geolint_finish(linter).status == GEOLINT_ENDED, "the end after it");
    wants(geolint_begin_again(linter, 0, 0) == GEOLINT_DONE, "begin again after the end");
    wants(geolint_feed(linter, POINT, POINT_SIZE) == GEOLINT_DONE && geolint_finish(linter).verdict == GEOLINT_VALID, "a point");
    wants(geolint_begin(linter, 257, 0) == GEOLINT_LIMITS, "begin beyond the limits");
    wants(geolint_begin_again(linter, 0, 0) == GEOLINT_DONE, "begin again after that");
    wants(geolint_feed(linter, POINT, POINT_SIZE) == GEOLINT_DONE && geolint_finish(linter).verdict == GEOLINT_VALID, "a point then");
    geolint_free(linter);
}

static void after_a_refusal(void) {
    geolint_linter *linter = geolint_new(0, 0);
    geolint_report report;
    if (!linter) {
        wants(0, "memory");
        return;
    }
    wants(geolint_feed(linter, "[1,]", 4) == GEOLINT_REFUSED, "a refused piece");
    wants(geolint_feed(linter, "2]", 2) == GEOLINT_REFUSED, "a piece after it");
    wants(geolint_feed(linter, "", 0) == GEOLINT_REFUSED, "no bytes after it");
    wants(geolint_doomed(linter) == 1 && geolint_offset(linter) == 3, "doomed, and the place of the refusal");
    report = geolint_finish(linter);
    wants(report.verdict == GEOLINT_NOT_JSON && report.cause == GEOLINT_SYNTAX && report.place == 3, "its verdict");
    geolint_free(linter);
}

static void limits(void) {
    geolint_linter *linter = (geolint_linter *)malloc(geolint_size());
    uint64_t most = (uint64_t)1 << 60;
    geolint_report report = geolint_check(POINT, POINT_SIZE, 257, 0);
    wants(report.status == GEOLINT_LIMITS && report.verdict == GEOLINT_NO_VERDICT, "257 levels");
    wants(geolint_check(POINT, POINT_SIZE, 0, most + 1).status == GEOLINT_LIMITS, "2^60 and 1 bytes");
    wants(geolint_check(POINT, POINT_SIZE, 256, most).verdict == GEOLINT_VALID, "the widest limits");
    wants(geolint_check(POINT, POINT_SIZE, UINT32_MAX, UINT64_MAX).status == GEOLINT_LIMITS, "limits beyond all");
    report = geolint_check(POINT, POINT_SIZE, 1, 0);
    wants(report.cause == GEOLINT_DEPTH && report.place == 30, "one level");
    report = geolint_check(POINT, POINT_SIZE, 0, 10);
    wants(report.cause == GEOLINT_LENGTH && report.place == 10, "ten bytes");
    wants(geolint_new(257, 0) == NULL, "no linter of 257 levels");
    if (linter) {
        wants(geolint_begin(linter, 0, most + 1) == GEOLINT_LIMITS, "begin beyond the limits");
        wants(geolint_feed(linter, "x", 1) == GEOLINT_ENDED, "feed after it");
        wants(geolint_finish(linter).status == GEOLINT_ENDED, "finish after it");
    }
    free(linter);
}

static void memory(void) {
    size_t alignment = geolint_alignment();
    wants(geolint_size() > 0 && geolint_size() % alignment == 0, "a size");
    wants(alignment > 0 && (alignment & (alignment - 1)) == 0 && alignment <= 16, "an alignment that malloc has");
}

static void texts(void) {
    geolint_text text = {"", 1};
    wants(strcmp(geolint_rule(15), "ring not closed") == 0, "a rule's text");
    wants(strcmp(geolint_cause(GEOLINT_LENGTH), "too long") == 0, "a cause's text");
    wants(strcmp(geolint_warning(9), "crs is no longer used") == 0, "a warning's text");
    wants(*geolint_rule(0) == 0 && *geolint_rule(GEOLINT_RULES + 1) == 0 && *geolint_rule(UINT32_MAX) == 0, "no rule");
    wants(*geolint_cause(0) == 0 && *geolint_cause(5) == 0, "no cause");
    wants(*geolint_warning(0) == 0 && *geolint_warning(GEOLINT_KINDS + 1) == 0, "no warning");
    geolint_version_text(&text);
    wants(text.size == strlen(geolint_version()) + 1, "the version's size");
}

static const char BOTH[] = "{\"type\":\"FeatureCollection\",\"features\":[7,{\"type\":\"Feature\",\"id\":3,\"geometry\":null,\"properties\":null}]}";
#define BOTH_SIZE (sizeof BOTH - 1)

static void features_at_null(void) {
    geolint_progress progress = geolint_features_feed(NULL, "x", 1);
    wants(geolint_features_begin(NULL, 0, 0) == GEOLINT_NULL, "begin features at null");
    wants(progress.status == GEOLINT_NULL && progress.taken == 0 && !progress.ready, "feed features at null");
    wants(geolint_features_next(NULL).report.status == GEOLINT_NULL, "next feature at null");
    wants(geolint_features_offset(NULL) == 0, "offset of features at null");
    wants(geolint_features_finish(NULL).status == GEOLINT_NULL, "finish features at null");
}

static void features_pulled(void) {
    geolint_features *features = (geolint_features *)malloc(geolint_features_size());
    geolint_progress progress;
    geolint_finding finding;
    if (!features) {
        wants(0, "memory");
        return;
    }
    wants(geolint_features_begin(features, 0, 0) == GEOLINT_DONE, "begin features");
    wants(geolint_features_next(features).report.status == GEOLINT_NONE, "no feature yet");
    progress = geolint_features_feed(features, BOTH, BOTH_SIZE);
    wants(progress.status == GEOLINT_DONE && progress.ready == 1 && progress.taken == BOTH_SIZE, "up to where features have ended");
    progress = geolint_features_feed(features, "", 0);
    wants(progress.status == GEOLINT_READY && progress.ready == 1 && progress.taken == 0, "a finding is to be taken first");
    wants(geolint_features_finish(features).status == GEOLINT_READY, "and before the end");
    finding = geolint_features_next(features);
    wants(finding.number == 0 && finding.place == 40 && finding.end == 0 && finding.id == 0, "where a number stands");
    wants(finding.report.verdict == GEOLINT_BROKEN && finding.report.rule == 1 && finding.report.place == 40, "and what it is");
    finding = geolint_features_next(features);
    wants(finding.number == 1 && finding.place == 42 && finding.end == BOTH_SIZE - 2 && finding.id == 65, "where a feature stands");
    wants(finding.report.verdict == GEOLINT_VALID && !finding.report.warned, "and what it is");
    wants(geolint_features_next(features).report.status == GEOLINT_NONE, "no feature more");
    wants(geolint_features_offset(features) == BOTH_SIZE, "its offset");
    progress = geolint_features_feed(features, " ", 1);
    wants(progress.status == GEOLINT_DONE && !progress.ready && progress.taken == 1, "the rest");
    wants(geolint_features_finish(features).rule == 1, "the whole");
    wants(geolint_features_finish(features).status == GEOLINT_ENDED, "finish features after the end");
    wants(geolint_features_feed(features, "x", 1).status == GEOLINT_ENDED, "feed features after the end");
    wants(geolint_features_next(features).report.status == GEOLINT_NONE && geolint_features_offset(features) == 0, "the others after the end");
    wants(geolint_features_begin_again(NULL, 0, 0) == GEOLINT_NULL, "begin features again at null");
    wants(geolint_features_begin_again(features, 0, 0) == GEOLINT_DONE, "begin features again");
    progress = geolint_features_feed(features, BOTH, BOTH_SIZE);
    wants(progress.ready == 1 && geolint_features_begin_again(features, 0, 0) == GEOLINT_DONE, "and with findings that wait");
    wants(geolint_features_next(features).report.status == GEOLINT_NONE && geolint_features_offset(features) == 0, "which are forgotten");
    progress = geolint_features_feed(features, "[1,]  ", 6);
    wants(progress.status == GEOLINT_REFUSED && progress.taken == 6 && !progress.ready, "a refused piece of features");
    wants(geolint_features_finish(features).cause == GEOLINT_SYNTAX, "its verdict");
    wants(geolint_features_begin(features, 257, 0) == GEOLINT_LIMITS, "features beyond the limits");
    wants(geolint_features_feed(features, "x", 1).status == GEOLINT_ENDED, "feed features after it");
    wants(geolint_features_begin_again(features, 0, 0) == GEOLINT_DONE && geolint_features_feed(features, BOTH, BOTH_SIZE).ready == 1, "a feature that waits");
    wants(geolint_features_begin_again(features, 257, 0) == GEOLINT_LIMITS, "begin features again beyond the limits");
    wants(geolint_features_next(features).report.status == GEOLINT_NONE, "it is forgotten");
    free(features);
}

static void records_pulled(void) {
    static const char lines[] = "[1]\n\n{\"type\":\"Point\",\"coordinates\":[1,2]}\n[";
    geolint_records *records = (geolint_records *)malloc(geolint_records_size());
    geolint_progress progress;
    geolint_finding finding;
    geolint_whole whole;
    int i;
    if (!records) {
        wants(0, "memory");
        return;
    }
    wants(geolint_records_begin(NULL, 0, 0, 0) == GEOLINT_NULL && geolint_records_feed(NULL, "x", 1).status == GEOLINT_NULL, "records at null");
    wants(geolint_records_next(NULL).report.status == GEOLINT_NULL && geolint_records_offset(NULL) == 0, "next record at null");
    wants(geolint_records_finish(NULL).report.status == GEOLINT_NULL, "finish records at null");
    wants(geolint_records_begin(records, 2, 0, 0) == GEOLINT_LIMITS, "a framing that is none");
    wants(geolint_records_feed(records, "x", 1).status == GEOLINT_ENDED && geolint_records_finish(records).report.status == GEOLINT_ENDED, "the end after it");
    wants(geolint_records_begin(records, GEOLINT_NEWLINES, 0, 0) == GEOLINT_DONE, "begin records");
    progress = geolint_records_feed(records, lines, sizeof lines - 1);
    wants(progress.status == GEOLINT_DONE && progress.ready == 1 && progress.taken == 4, "up to a line's end");
    wants(geolint_records_feed(records, lines + 4, 1).status == GEOLINT_READY, "a record is to be taken first");
    wants(geolint_records_finish(records).report.status == GEOLINT_READY, "and before the end");
    finding = geolint_records_next(records);
    wants(finding.number == 1 && finding.place == 0 && finding.end == 3 && finding.id == 0 && finding.report.rule == 1, "the first record");
    wants(geolint_records_next(records).report.status == GEOLINT_NONE, "no record more");
    progress = geolint_records_feed(records, lines + 4, sizeof lines - 5);
    finding = geolint_records_next(records);
    wants(progress.taken == 38 && finding.number == 2 && finding.place == 5 && finding.end == 41, "the second record, after an empty line");
    wants(finding.report.verdict == GEOLINT_VALID, "and what it is");
    progress = geolint_records_feed(records, lines + 42, 1);
    wants(progress.taken == 1 && !progress.ready && geolint_records_offset(records) == 43, "the beginning of a third");
    whole = geolint_records_finish(records);
    wants(whole.number == 1 && whole.report.rule == 1 && whole.report.place == 0, "the whole by its first record");
    finding = geolint_records_next(records);
    wants(finding.number == 3 && finding.report.cause == GEOLINT_TRUNCATED && finding.report.place == 43, "the last record");
    wants(geolint_records_next(records).report.status == GEOLINT_NONE, "no record after it");
    wants(geolint_records_finish(records).report.status == GEOLINT_ENDED, "finish records after the end");
    wants(geolint_records_begin(records, GEOLINT_SEQUENCE, 0, 3) == GEOLINT_DONE, "begin a sequence");
    progress = geolint_records_feed(records, "\x1e[1]\n", 5);
    wants(progress.status == GEOLINT_REFUSED && progress.ready == 1, "beyond the limit");
    wants(geolint_records_next(records).report.cause == GEOLINT_LENGTH, "too long");
    for (i = 0; i < 3; i++) {
        wants(geolint_records_begin(records, GEOLINT_NEWLINES, 0, 0) == GEOLINT_DONE && geolint_records_feed(records, lines, 4).ready == 1, "a record that waits");
        wants(geolint_records_begin_again(records, i == 1 ? 2 : GEOLINT_NEWLINES, i == 2 ? 257 : 0, 0) == (i ? GEOLINT_LIMITS : GEOLINT_DONE), "begin records again");
        wants(geolint_records_next(records).report.status == GEOLINT_NONE, "it is forgotten");
        wants(geolint_records_feed(records, lines, 4).status == (i ? GEOLINT_ENDED : GEOLINT_DONE), "another input, where it may begin");
    }
    free(records);
}

static void a_path(void) {
    geolint_locator *locator = (geolint_locator *)malloc(geolint_locator_size());
    char room[64];
    if (!locator) {
        wants(0, "memory");
        return;
    }
    wants(geolint_locator_begin(NULL, 0, 0) == GEOLINT_NULL && geolint_locator_feed(NULL, "x", 1) == GEOLINT_NULL, "a locator at null");
    wants(geolint_locator_step(NULL, 0).size == 0 && geolint_locator_path(NULL, room, sizeof room) == 1, "the path at null");
    wants(geolint_locator_begin(locator, 0, 0) == GEOLINT_DONE, "begin a locator");
    wants(geolint_locator_feed(locator, BOTH, 66) == GEOLINT_DONE, "up to the number of an id");
    wants(geolint_locator_path(locator, room, sizeof room) == 16 && strcmp(room, "$.features[1].id") == 0, "its path");
    wants(geolint_locator_path(locator, room, 6) == 16 && strcmp(room, "$.fea") == 0, "in a small room");
    wants(geolint_locator_path(locator, room, 0) == 16, "in no room");
    wants(geolint_locator_step(locator, 3).size == 0 && geolint_locator_step(locator, UINT32_MAX).size == 0, "no step more");
    wants(geolint_locator_begin(locator, 0, 0) == GEOLINT_DONE && geolint_locator_step(locator, 0).size == 0, "begin it again");
    wants(geolint_locator_feed(locator, "[1,]", 4) == GEOLINT_REFUSED, "a refused piece");
    wants(geolint_locator_begin(locator, 257, 0) == GEOLINT_LIMITS && geolint_locator_feed(locator, "x", 1) == GEOLINT_ENDED, "beyond the limits");
    wants(geolint_locator_path(locator, room, sizeof room) == 1 && strcmp(room, "$") == 0, "the path then");
    free(locator);
}

static void a_line(void) {
    geolint_lines lines = geolint_lines_begin();
    wants(lines.line == 1 && lines.column == 1, "before the first byte");
    lines = geolint_lines_feed(lines, "a\nb", 3);
    wants(lines.line == 2 && lines.column == 2, "after a line and a character");
    lines = geolint_lines_feed(lines, "\xC3\xA9", 2);
    lines = geolint_lines_feed(lines, "", 0);
    wants(lines.line == 2 && lines.column == 3, "after two bytes that are one character");
    lines = geolint_lines_feed(lines, "\n\n", 2);
    wants(lines.line == 4 && lines.column == 1, "after two lines");
}

/* A report as a host may make one, also one of another text. */
static geolint_report report_of(uint32_t verdict, uint32_t number, uint64_t place) {
    geolint_report report;
    memset(&report, 0, sizeof report);
    report.verdict = verdict;
    report.rule = verdict == GEOLINT_BROKEN ? number : 0;
    report.cause = verdict == GEOLINT_NOT_JSON ? number : 0;
    report.place = place;
    return report;
}

static void a_hint(void) {
    static const char second[] = "[1] [2]", swapped[] = "{\"type\":\"Point\",\"coordinates\":[52.5,113.4]}";
    geolint_linter *linter = geolint_new(0, 0);
    geolint_report report = geolint_check("\x1f\x8b\x08", 3, 0, 0);
    geolint_text text = {"", 1};
    wants(strncmp(geolint_hint(&report, "\x1f\x8b\x08", 3), "the file is compressed by gzip: ", 32) == 0, "gzip");
    geolint_hint_text(&report, "\x1f\x8b\x08", 3, &text);
    wants(text.size == strlen(text.bytes) + 1 && text.size > 32, "the size of a hint");
    report = geolint_check(POINT, POINT_SIZE, 0, 0);
    wants(*geolint_hint(&report, POINT, POINT_SIZE) == 0, "no hint for a point");
    report = geolint_check(swapped, sizeof swapped - 1, 0, 0);
    wants(strncmp(geolint_hint(&report, swapped, sizeof swapped - 1), "latitude and longitude look swapped", 35) == 0, "swapped");
    report = geolint_check(second, sizeof second - 1, 0, 0);
    wants(strncmp(geolint_hint(&report, second, sizeof second - 1), "a second text follows", 21) == 0, "a second text");
    geolint_hint_around(&report, 0, second, 7, second, 4, second + 4, 3, &text);
    wants(strcmp(text.bytes, geolint_hint(&report, second, sizeof second - 1)) == 0, "and by the bytes around it");
    geolint_hint_around(&report, 1, second, 7, second, 4, second + 4, 3, &text);
    wants(text.size == 1 && *text.bytes == 0, "none where something is open");
    report = geolint_check("[[1] [2]]", 9, 0, 0);
    wants(*geolint_hint(&report, "[[1] [2]]", 9) == 0, "nor in an array");
    report = report_of(GEOLINT_NOT_JSON, GEOLINT_SYNTAX, 8);
    wants(*geolint_hint(&report, "[1,]", 4) == 0, "a place beyond the text");
    report = report_of(GEOLINT_NOT_JSON, GEOLINT_SYNTAX, UINT64_MAX);
    wants(*geolint_hint(&report, "[1,]", 4) == 0, "far beyond");
    report = report_of(GEOLINT_NOT_JSON, GEOLINT_TRUNCATED, 0);
    wants(*geolint_hint(&report, NULL, 0) == 0, "no bytes");
    report = report_of(GEOLINT_NOT_JSON, GEOLINT_SYNTAX, 4);
    wants(*geolint_hint(&report, "[1,]{", 5) == 0, "a report of another text");
    report = report_of(7, 1, 1);
    wants(*geolint_hint(&report, "[,]", 3) == 0, "no verdict that there is");
    wants(geolint_levels(NULL) == 0, "levels at null");
    if (!linter) {
        wants(0, "memory");
        return;
    }
    wants(geolint_levels(linter) == 0, "no level before the first byte");
    wants(geolint_feed(linter, "[{\"a\":[", 7) == GEOLINT_DONE && geolint_levels(linter) == 3, "three levels");
    wants(geolint_feed(linter, "1]", 2) == GEOLINT_DONE && geolint_levels(linter) == 2, "two levels");
    wants(geolint_feed(linter, "}]]", 3) == GEOLINT_REFUSED && geolint_levels(linter) == 0, "none before a refusal");
    geolint_finish(linter);
    wants(geolint_levels(linter) == 0, "levels after the end");
    geolint_free(linter);
}

static const char PARTS[] = "{\"type\":\"FeatureCollection\",\"features\":[{\"type\":\"Feature\",\"geometry\":null,\"properties\":null},"
                            "{\"type\":\"Feature\",\"geometry\":null,\"properties\":null,\"crs\":1},{}]}";

/* The two features of that text have 52 and 60 bytes, from 40 and from 93 on. */
static void parts(void) {
    geolint_run *run = (geolint_run *)malloc(geolint_run_size());
    geolint_join *join = (geolint_join *)malloc(geolint_join_size());
    geolint_sum sum = geolint_run_sum(NULL), first;
    geolint_report report;
    if (!run || !join) {
        wants(0, "memory");
        exit(1);
    }
    wants(geolint_run_begin(NULL, 0, 15) == GEOLINT_NULL && geolint_run_feed(NULL, "", 0) == GEOLINT_NULL && sum.status == GEOLINT_NULL, "a run at null");
    wants(geolint_join_begin(NULL, 0, 0) == GEOLINT_NULL && geolint_join_feed(NULL, "", 0) == GEOLINT_NULL, "a join at null");
    wants(geolint_join_pass_over(NULL, &sum) == 0 && geolint_join_finish(NULL).status == GEOLINT_NULL, "the rest of it");
    wants(geolint_run_begin(run, 0, 14) == GEOLINT_LIMITS && geolint_run_feed(run, "", 0) == GEOLINT_ENDED, "a run that begins too early");
    wants(geolint_run_begin(run, 2, 15) == GEOLINT_LIMITS && geolint_run_sum(run).status == GEOLINT_ENDED, "a run of two levels");
    wants(geolint_run_begin(run, 0, (UINT64_C(1) << 60) + 1) == GEOLINT_LIMITS, "a run that begins too late");
    wants(geolint_run_likely(PARTS, sizeof PARTS - 1) == 92 && geolint_run_likely("}", 1) == 0 && geolint_run_likely("", 0) == 0, "likely places");
    wants(geolint_run_begin(run, 0, 92) == GEOLINT_DONE && geolint_run_sum(run).end == 92, "a run of no bytes");
    wants(geolint_run_feed(run, PARTS + 92, sizeof PARTS - 1 - 92) == GEOLINT_DONE, "a run");
    first = geolint_run_sum(run);
    wants(first.status == GEOLINT_DONE && first.ended == 1 && first.begin == 92 && first.end == 153 && first.features == 1, "its sum");
    wants(first.warnings[8].count == 1 && first.warnings[8].first == 145 && first.warnings[0].count == 0, "the warnings of a run");
    wants(geolint_run_feed(run, "x", 1) == GEOLINT_REFUSED && geolint_run_sum(run).end == 153, "a refused byte");
    wants(geolint_join_begin(join, 0, 0) == GEOLINT_DONE && geolint_join_pass_over(join, &first) == 0, "a join, and no feature yet");
    wants(geolint_join_feed(join, PARTS, 92) == GEOLINT_DONE && geolint_join_pass_over(join, &first) == 1, "passing over");
    wants(geolint_join_pass_over(join, &first) == 0, "no run twice");
    wants(geolint_join_feed(join, "]}", 2) == GEOLINT_DONE, "the end of the text");
    report = geolint_join_finish(join);
    wants(report.verdict == GEOLINT_VALID && report.warnings[8].count == 1 && report.warnings[8].first == 145, "the report of a join");
    wants(geolint_join_feed(join, "", 0) == GEOLINT_ENDED && geolint_join_pass_over(join, &first) == 0, "a join after the end");
    wants(geolint_join_finish(join).status == GEOLINT_ENDED, "a second end");
    wants(geolint_join_begin(join, 0, 152) == GEOLINT_DONE && geolint_join_feed(join, PARTS, 92) == GEOLINT_DONE, "another join");
    wants(geolint_join_pass_over(join, &first) == 0, "a run beyond the limits");
    wants(geolint_join_begin(join, 257, 0) == GEOLINT_LIMITS && geolint_join_finish(join).status == GEOLINT_ENDED, "a join beyond the limits");
    free(run);
    free(join);
}

static void sizes(void) {
    wants(GEOLINT_SIZE == geolint_size() && GEOLINT_ALIGNMENT == geolint_alignment(), "the size of a linter");
    wants(GEOLINT_FEATURES_SIZE == geolint_features_size() && GEOLINT_RECORDS_SIZE == geolint_records_size(), "the sizes of features and records");
    wants(GEOLINT_LOCATOR_SIZE == geolint_locator_size(), "the size of a locator");
    wants(GEOLINT_RUN_SIZE == geolint_run_size() && GEOLINT_JOIN_SIZE == geolint_join_size(), "the sizes of runs and joins");
}

int main(void) {
    features_at_null();
    features_pulled();
    records_pulled();
    a_path();
    a_line();
    a_hint();
    parts();
    sizes();
    at_null();
    pieces_of_length_0();
    after_the_end();
    begun_again();
    after_a_refusal();
    limits();
    memory();
    texts();
    return failed;
}
