/* A text in pieces of 16 KiB, for counts of instructions by valgrind: `pulled text FILE` feeds a linter, `pulled features FILE`
 * pulls each feature, and `pulled records FILE` each record of a text sequence, or each line where the file begins with no RS. The
 * difference of two files of one shape leaves out the start. */
#include <geolint.h>
#include <stdio.h>
#include <stdlib.h>
#include <string.h>

enum { PIECE = 16384 };

static unsigned char bytes[PIECE];

static uint32_t by_text(FILE *file, void *memory) {
    geolint_linter *linter = memory;
    size_t count;
    geolint_begin(linter, 0, 0);
    while ((count = fread(bytes, 1, PIECE, file)) > 0)
        geolint_feed(linter, bytes, count);
    return geolint_finish(linter).verdict;
}

static uint32_t by_feature(FILE *file, void *memory) {
    geolint_features *features = memory;
    size_t count;
    geolint_features_begin(features, 0, 0);
    while ((count = fread(bytes, 1, PIECE, file)) > 0) {
        const unsigned char *next = bytes;
        while (count > 0) {
            geolint_progress progress = geolint_features_feed(features, next, count);
            next += progress.taken;
            count -= progress.taken;
            while (progress.ready && geolint_features_next(features).report.status == GEOLINT_DONE)
                ;
            if (progress.status != GEOLINT_DONE)
                return GEOLINT_NOT_JSON;
        }
    }
    return geolint_features_finish(features).verdict;
}

static uint32_t by_record(FILE *file, void *memory) {
    geolint_records *records = memory;
    size_t count = fread(bytes, 1, PIECE, file);
    uint32_t framing = count > 0 && bytes[0] == 0x1e ? GEOLINT_SEQUENCE : GEOLINT_NEWLINES;
    geolint_records_begin(records, framing, 0, 0);
    for (; count > 0; count = fread(bytes, 1, PIECE, file)) {
        const unsigned char *next = bytes;
        while (count > 0) {
            geolint_progress progress = geolint_records_feed(records, next, count);
            next += progress.taken;
            count -= progress.taken;
            if (progress.ready && geolint_records_next(records).report.status != GEOLINT_DONE)
                return GEOLINT_NO_VERDICT;
            if (progress.status != GEOLINT_DONE)
                return GEOLINT_NOT_JSON;
        }
    }
    return geolint_records_finish(records).report.verdict;
}

static const struct {
    const char *name;
    uint32_t (*judge)(FILE *file, void *memory);
    size_t (*size)(void);
} WAY[] = {
    {"text", by_text, geolint_size},
    {"features", by_feature, geolint_features_size},
    {"records", by_record, geolint_records_size},
};

int main(int count, char **words) {
    FILE *file = count == 3 ? fopen(words[2], "rb") : NULL;
    size_t unit = geolint_alignment();
    for (size_t way = 0; file && way < sizeof WAY / sizeof WAY[0]; way++)
        if (strcmp(words[1], WAY[way].name) == 0) {
            void *memory = aligned_alloc(unit, (WAY[way].size() + unit - 1) / unit * unit);
            return !memory || WAY[way].judge(file, memory) != GEOLINT_VALID;
        }
    return 2;
}
