/* Random texts in parts that begin anywhere: where a feature has ended, in strings, in features within features, and where
 * geolint_run_likely says. The report of the join is that of the text in one call.
 *
 *     parts SEED COUNT
 */
#include "random.h"
#include <geolint.h>
#include <inttypes.h>
#include <stdio.h>
#include <string.h>

enum { MOST = 32768, PARTS = 12 };

static char text[MOST];
static size_t size;

static void put(const char *words) {
    size_t length = strlen(words);
    if (size + length < MOST - 64) {
        memcpy(text + size, words, length);
        size += length;
    }
}

static void put_space(void) {
    static const char *const spaces[] = {"", "", "", " ", "\n  ", "\t\r\n"};
    put(spaces[below(6)]);
}

static void put_features(int depth);

/* The value of `properties`: nothing, texts that look like features, or features. */
static void put_properties(int depth) {
    switch (below(depth > 2 ? 4 : 6)) {
    case 0: put("null"); break;
    case 1: put("{\"name\":\"},{\\\"type\\\":\\\"Feature\\\",\\\"geometry\\\":null,\\\"properties\\\":null}\"}"); break;
    case 2: put("{\"a\":[\"},{\",\":null,\",\":1}],\"],\"b\":[{},{\"c\":1},{\"type\":1}]}"); break;
    case 3: put("{\"n\":12.5,\"s\":\"caf\xC3\xA9\"}"); break;
    case 4: put("{\"list\":"), put_features(depth + 1), put("}"); break;
    default: put("{\"type\":\"FeatureCollection\",\"features\":"), put_features(depth + 1), put("}"); break;
    }
}

static void put_geometry(void) {
    char place[80];
    switch (below(6)) {
    case 0: put("null"); break;
    case 1: put("{\"type\":\"Polygon\",\"coordinates\":[[[0,0],[0,1],[1,1],[0,0]]]}"); break;
    case 2: put("{\"type\":\"GeometryCollection\",\"geometries\":[{\"type\":\"Point\",\"coordinates\":[1,2]},{\"type\":\"Point\",\"coordinates\":[200,2]}]}"); break;
    default:
        snprintf(place, sizeof place, "{\"type\":\"Point\",\"coordinates\":[%u.%u, %u]}", below(181), below(1000000), below(91));
        put(place);
    }
}

static void put_feature(int depth) {
    static const char *const broken[] = {"{}", "7", "[]", "null", "\"},{\"", "{\"type\":\"Feature\"}", "{\"type\":\"Feature\",\"geometry\":7,\"properties\":null}"};
    if (below(depth ? 6 : 60) == 0) {
        put(broken[below(7)]);
        return;
    }
    put("{\"type\":\"Feature\",\"geometry\":"), put_geometry(), put(","), put_space();
    put("\"properties\":"), put_properties(depth), put_space();
    if (below(9) == 0)
        put(",\"crs\":null,\"bbox\":[0,1,2,0]");
    put("}");
}

static void put_features(int depth) {
    uint32_t count = below(depth ? 4 : 40);
    put("["), put_space();
    for (uint32_t i = 0; i < count; i++) {
        if (i)
            put_space(), put(","), put_space();
        put_feature(depth);
    }
    put_space(), put("]");
}

/* Mostly a FeatureCollection, with its members in some order, and others. */
static void make_text(void) {
    static const char *const types[] = {"\"type\":\"FeatureCollection\"", "\"type\":\"FeatureCollection\"", "\"type\":\"Feature\"", "\"type\":\"Other\"", "\"kind\":1"};
    const char *type = types[below(below(3) ? 2 : 5)];
    int is_first = below(2) == 0;
    size = 0;
    put(below(20) ? "" : "\xEF\xBB\xBF"), put_space(), put("{");
    if (is_first)
        put(type), put(",");
    if (below(6) == 0)
        put("\"others\":"), put_features(1), put(",");
    put_space(), put("\"features\":"), put_features(0);
    if (below(12) == 0)
        put(",\"features\":"), put_features(0);
    if (!is_first)
        put(","), put(type);
    put_space(), put("}"), put_space();
    for (uint32_t changes = below(3) ? 0 : 1 + below(3); changes && size; changes--) {
        size_t at = below((uint32_t)size);
        if (below(3) == 0)
            size = at;
        else
            text[at] = "{}[]:,\"\\0 x"[below(11)];
    }
}

static void *handle_of(size_t bytes) {
    void *handle = malloc(bytes);
    if (!handle)
        exit(2);
    return handle;
}

/* What the run from a place on has, up to another place, in random pieces. */
static geolint_sum sum_between(geolint_run *run, size_t from, size_t to, uint32_t max_depth) {
    geolint_sum sum = {0};
    if (geolint_run_begin(run, max_depth, from) != GEOLINT_DONE)
        return sum;
    while (from < to && !sum.ended) {
        size_t length = 1 + below((uint32_t)(to - from < 900 ? to - from : 900));
        uint32_t status = geolint_run_feed(run, text + from, length);
        sum = geolint_run_sum(run);
        from += length;
        if (status != GEOLINT_DONE)
            break;
    }
    return sum;
}

/* After a feature as it seems, or anywhere. */
static size_t some_place(void) {
    size_t from = below((uint32_t)size + 1);
    return below(4) ? from + geolint_run_likely(text + from, size - from) : from;
}

static int by_place(const void *one, const void *other) {
    size_t a = *(const size_t *)one, b = *(const size_t *)other;
    return (a > b) - (a < b);
}

static unsigned long long passed, read_again, all;

static void feed_up_to(geolint_join *join, size_t *place, size_t until) {
    while (*place < until) {
        size_t length = 1 + below((uint32_t)(until - *place));
        geolint_join_feed(join, text + *place, length);
        *place += length;
        read_again += length;
    }
}

static geolint_report report_in_parts(geolint_run *run, geolint_join *join, uint32_t max_depth, uint64_t max_bytes) {
    size_t places[PARTS], at = 0;
    uint32_t count = below(PARTS);
    geolint_join_begin(join, max_depth, max_bytes);
    for (uint32_t i = 0; i < count; i++)
        places[i] = some_place();
    if (below(8))
        qsort(places, count, sizeof *places, by_place);
    for (uint32_t i = 0; i < count; i++) {
        size_t end = i + 1 < count && below(4) ? places[i + 1] : size;
        geolint_sum sum = sum_between(run, places[i], end, max_depth);
        if (sum.begin < at || sum.begin > size)
            continue;
        feed_up_to(join, &at, sum.begin);
        if (geolint_join_pass_over(join, &sum)) {
            passed += sum.features;
            at = sum.end;
        }
    }
    feed_up_to(join, &at, size);
    all += size;
    return geolint_join_finish(join);
}

int main(int words_count, char **words) {
    unsigned long count, wrong = 0;
    geolint_run *run = handle_of(geolint_run_size());
    geolint_join *join = handle_of(geolint_join_size());
    if (words_count != 3)
        return 2;
    state = strtoull(words[1], NULL, 10) * 2 + 1;
    count = strtoul(words[2], NULL, 10);
    for (unsigned long i = 0; i < count; i++) {
        make_text();
        for (int round = 0; round < 3; round++) {
            uint32_t max_depth = below(3) ? 0 : 2 + below(8);
            uint64_t max_bytes = below(4) || !size ? 0 : 1 + below((uint32_t)size);
            geolint_report report = report_in_parts(run, join, max_depth, max_bytes), whole = geolint_check(text, size, max_depth, max_bytes);
            if (memcmp(&report, &whole, sizeof report)) {
                printf("FAILED: text %lu: verdict %" PRIu32 " at %" PRIu64 ", in one call %" PRIu32 " at %" PRIu64 "\n", i, report.verdict, report.place, whole.verdict, whole.place);
                wrong++;
            }
        }
    }
    free(run);
    free(join);
    printf("%lu texts in parts, %lu wrong; %llu features passed over, %llu of %llu bytes read by the join\n", count, wrong, passed, read_again, all);
    return wrong || !passed;
}
