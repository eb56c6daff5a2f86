/* Says of each input of a file that inputs.py has written what the library finds in it, piece by piece.
 *
 *     inputs FILE
 */
#include <geolint.h>
#include <inttypes.h>
#include <stdio.h>
#include <string.h>

enum { MOST = 65536 };

/* An input, and the lengths of its pieces. */
static char text[MOST];
static uint32_t size, count, cuts[MOST];

static void *handles[4];

/* Where the next piece begins, and how long it is; 0 after the last. `from` and `at` are 0 before the first. */
static int next_piece(uint32_t *at, size_t *from, size_t *length) {
    if (*at > 0)
        *from += cuts[*at - 1];
    if (*at == count)
        return 0;
    *length = cuts[(*at)++];
    return 1;
}

static void print_spot(uint64_t start, uint64_t place, int is_json) {
    char path[6000] = "-";
    geolint_lines lines = geolint_lines_feed(geolint_lines_begin(), text, (size_t)place);
    if (is_json) {
        uint64_t end = place < size ? place + 1 : size, half = start + (end - start) / 2;
        geolint_locator_begin(handles[3], 0, 0);
        geolint_locator_feed(handles[3], text + start, (size_t)(half - start));
        geolint_locator_feed(handles[3], text + half, (size_t)(end - half));
        geolint_locator_path(handles[3], path, sizeof path);
    }
    printf("%" PRIu64 " %" PRIu64 ":%" PRIu64 " %s\n", place, lines.line, lines.column, path);
}

/* What an input is, with a number for records, and where its places stand. */
static void print_report(const char *word, const geolint_report *report, const uint64_t *number, const uint64_t *starts) {
    char tail[24] = "";
    if (number)
        snprintf(tail, sizeof tail, " %" PRIu64, *number);
    if (report->verdict == GEOLINT_VALID) {
        printf("%s valid%s\n", word, tail);
        for (uint32_t kind = 1; kind <= GEOLINT_KINDS; kind++) {
            const geolint_warned *warned = &report->warnings[kind - 1];
            if (warned->count) {
                printf("W%" PRIu32 " %" PRIu64 " ", kind, warned->count);
                print_spot(starts[kind], warned->first, 1);
            }
        }
    } else {
        printf("%s %c%" PRIu32 "%s ", word, report->rule ? 'G' : 'J', report->rule ? report->rule : report->cause, tail);
        print_spot(starts[0], report->place, report->rule != 0);
    }
}

static void print_feature(const geolint_finding *it) {
    if (it->report.verdict != GEOLINT_VALID) {
        printf("feature %" PRIu64 " G%" PRIu32 " ", it->number, it->report.rule);
        print_spot(0, it->report.place, 1);
        return;
    }
    for (uint32_t kind = 1; kind <= GEOLINT_KINDS; kind++)
        if (it->report.warnings[kind - 1].count) {
            printf("feature %" PRIu64 " W%" PRIu32 " ", it->number, kind);
            print_spot(0, it->report.warnings[kind - 1].first, 1);
        }
}

static geolint_report checked(uint32_t *levels) {
    uint32_t at = 0;
    size_t from = 0, length;
    geolint_begin_again(handles[0], 0, 0);
    while (next_piece(&at, &from, &length))
        geolint_feed(handles[0], text + from, length);
    *levels = geolint_levels(handles[0]);
    return geolint_finish(handles[0]);
}

/* The hint: by the bytes around the place, and of a text also by all of them. */
static void print_hint(const geolint_report *report, uint32_t levels, int is_text) {
    const uint64_t place = report->verdict == GEOLINT_VALID ? report->warnings[4].first : report->place;
    const size_t before = place < 256 ? (size_t)place : 256, after = size - place < 256 ? (size_t)(size - place) : 256;
    geolint_text hint = {"", 1};
    geolint_hint_around(report, levels, text, size < 512 ? size : 512, text + place - before, before, text + place, after, &hint);
    if (*hint.bytes)
        printf("hint %s\n", hint.bytes);
    if (hint.size != strlen(hint.bytes) + 1 || (is_text && strcmp(hint.bytes, geolint_hint(report, text, size))))
        puts("another hint");
}

static void tell_features(void) {
    static geolint_finding found[MOST];
    const uint64_t starts[GEOLINT_KINDS + 1] = {0};
    size_t from = 0, length, told = 0;
    uint32_t at = 0;
    geolint_features_begin(handles[1], 0, 0);
    while (next_piece(&at, &from, &length)) {
        geolint_progress progress = {0, 0, 0};
        for (size_t taken = 0; taken < length; taken += (size_t)progress.taken) {
            progress = geolint_features_feed(handles[1], text + from + taken, length - taken);
            while (progress.ready && (found[told] = geolint_features_next(handles[1])).report.status == GEOLINT_DONE)
                told++;
        }
    }
    uint32_t levels;
    geolint_report report = geolint_features_finish(handles[1]), other = checked(&levels), whole = geolint_check(text, size, 0, 0);
    print_report("text", &report, NULL, starts);
    print_hint(&report, levels, 1);
    if (memcmp(&report, &other, sizeof report) || memcmp(&report, &whole, sizeof report))
        puts("another verdict");
    for (size_t i = 0; i < told && report.verdict != GEOLINT_NOT_JSON; i++)
        print_feature(&found[i]);
}

/* Keeps where the record begins in which the fault or a kind of warning is first. */
static void keep(const geolint_finding *it, uint64_t *starts, int *kept) {
    for (uint32_t kind = 0; kind <= GEOLINT_KINDS; kind++) {
        int has = kind ? it->report.verdict == GEOLINT_VALID && it->report.warnings[kind - 1].count > 0 : it->report.verdict != GEOLINT_VALID;
        if (has && !kept[kind]) {
            starts[kind] = it->place;
            kept[kind] = 1;
        }
    }
}

static void tell_records(const char *word, uint32_t framing) {
    uint64_t starts[GEOLINT_KINDS + 1] = {0};
    int kept[GEOLINT_KINDS + 1] = {0};
    size_t from = 0, length;
    uint32_t at = 0;
    geolint_finding it;
    geolint_records_begin(handles[2], framing, 0, 0);
    while (next_piece(&at, &from, &length)) {
        geolint_progress progress = {0, 0, 0};
        for (size_t taken = 0; taken < length; taken += (size_t)progress.taken) {
            progress = geolint_records_feed(handles[2], text + from + taken, length - taken);
            if (progress.ready) {
                it = geolint_records_next(handles[2]);
                keep(&it, starts, kept);
            }
        }
    }
    geolint_whole whole = geolint_records_finish(handles[2]);
    it = geolint_records_next(handles[2]);
    if (it.report.status == GEOLINT_DONE)
        keep(&it, starts, kept);
    print_report(word, &whole.report, &whole.number, starts);
    if (whole.report.verdict != GEOLINT_VALID)
        print_hint(&whole.report, 1, 0);
}

int main(int words_count, char **words) {
    FILE *file = words_count > 1 ? fopen(words[1], "rb") : NULL;
    const size_t sizes[] = {geolint_size(), geolint_features_size(), geolint_records_size(), geolint_locator_size()};
    unsigned number = 0;
    for (int i = 0; i < 4; i++)
        if (!(handles[i] = malloc(sizes[i])))
            return 2;
    if (!file || geolint_begin(handles[0], 0, 0) != GEOLINT_DONE)
        return 2;
    while (fread(&size, 4, 1, file) == 1) {
        if (size > MOST || fread(&count, 4, 1, file) != 1 || count > MOST || fread(cuts, 4, count, file) != count || fread(text, 1, size, file) != size)
            return 2;
        printf("%u\n", number++);
        tell_features();
        tell_records("sequence", GEOLINT_SEQUENCE);
        tell_records("newlines", GEOLINT_NEWLINES);
    }
    for (int i = 0; i < 4; i++)
        free(handles[i]);
    fclose(file);
    return 0;
}
