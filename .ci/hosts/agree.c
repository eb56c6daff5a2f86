/* Random inputs, made from the files that are named: the text in one call, and cut into random pieces, give one report; and
 * where a program is named that is the report of `PROGRAM stdin` and its status. Features and records that are pulled, and the path, the
 * line and the column of the place, are the same of one piece and of random ones.
 *
 *     agree SEED COUNT PROGRAM FILE..     `-` for no program
 */
#define _GNU_SOURCE
#include "random.h"
#include <geolint.h>
#include <inttypes.h>
#include <stdio.h>
#include <string.h>
#include <sys/mman.h>
#include <sys/wait.h>
#include <unistd.h>

enum { MOST = 8192, FILES = 64, REPORT = 2048 };

static char texts[FILES][MOST];
static size_t sizes[FILES];

static size_t read_file(const char *path, char *to) {
    FILE *file = fopen(path, "rb");
    size_t size = file ? fread(to, 1, MOST, file) : 0;
    if (file)
        fclose(file);
    return size;
}

static size_t mutate(char *text, size_t size) {
    static const char bytes[] = "{}[]:,\"\\0123456789eE+-. \n\t/truefalsn\xC3\xA9\xEF";
    uint32_t kind = below(8);
    size_t at = size ? below((uint32_t)size) : 0;
    size_t span = size - at ? below((uint32_t)(size - at > 40 ? 40 : size - at)) : 0;
    if (kind < 4 && size) {
        text[at] = bytes[below(sizeof bytes - 1)];
    } else if (kind == 4) {
        memmove(text + at, text + at + span, size - at - span);
        size -= span;
    } else if (kind == 5 && size + span <= MOST) {
        memmove(text + at + span, text + at, size - at);
        size += span;
    } else if (kind == 6 && size < MOST) {
        memmove(text + at + 1, text + at, size - at);
        text[at] = bytes[below(sizeof bytes - 1)];
        size++;
    } else if (kind == 7 && below(4) == 0) {
        size = at;
    }
    return size;
}

static size_t print_report(const geolint_report *report, char *to) {
    size_t size = 0;
    if (report->verdict == GEOLINT_BROKEN)
        return (size_t)snprintf(to, REPORT, "broken G%" PRIu32 " at %" PRIu64 ": %s\n", report->rule, report->place,
                                geolint_rule(report->rule));
    if (report->verdict == GEOLINT_NOT_JSON)
        return (size_t)snprintf(to, REPORT, "not JSON at %" PRIu64 ": %s\n", report->place, geolint_cause(report->cause));
    size = (size_t)snprintf(to, REPORT, "valid\n");
    for (uint32_t kind = 1; kind <= GEOLINT_KINDS; kind++) {
        const geolint_warned *warned = &report->warnings[kind - 1];
        if (warned->count)
            size += (size_t)snprintf(to + size, REPORT - size, "warning W%" PRIu32 " count %" PRIu64 " first %" PRIu64 ": %s\n",
                                     kind, warned->count, warned->first, geolint_warning(kind));
    }
    return size;
}

/* Bytes in memory of their own, so that valgrind sees a read past their end. */
static char *copied(const char *bytes, size_t size) {
    char *copy = malloc(size ? size : 1);
    if (!copy)
        exit(2);
    memcpy(copy, bytes, size);
    return copy;
}

static geolint_report judge_whole(const char *text, size_t size) {
    char *copy = copied(text, size);
    geolint_report report = geolint_check(copy, size, 0, 0);
    free(copy);
    return report;
}

static geolint_report judge_cut(geolint_linter *linter, const char *text, size_t size) {
    size_t from = 0;
    geolint_begin_again(linter, 0, 0);
    while (from < size) {
        size_t most = below(3) ? 16 : size - from;
        size_t length = below((uint32_t)(most < size - from ? most : size - from) + 1);
        char *piece = copied(text + from, length);
        geolint_feed(linter, piece, length);
        free(piece);
        from += length;
    }
    return geolint_finish(linter);
}

/* A piece of random length, in memory of its own, with its place. */
typedef struct {
    const char *text;
    size_t size, from;
    int is_cut;
    char *piece;
    size_t length;
} pieces;

static int next_piece(pieces *it) {
    size_t left = it->size - it->from, most = it->is_cut && below(3) ? 16 : left;
    free(it->piece);
    it->piece = NULL;
    if (!left)
        return 0;
    it->length = it->is_cut ? below((uint32_t)(most < left ? most : left) + 1) : left;
    it->piece = copied(it->text + it->from, it->length);
    it->from += it->length;
    return 1;
}

/* FNV-1a of what was reported, in turn. */
static uint64_t with_bytes(uint64_t sum, const void *bytes, size_t size) {
    for (size_t at = 0; at < size; at++)
        sum = (sum ^ ((const unsigned char *)bytes)[at]) * UINT64_C(1099511628211);
    return sum;
}

static uint64_t with_feature(uint64_t sum, const geolint_finding *it) {
    uint64_t places[] = {it->number, it->place, it->end, it->id};
    return with_bytes(with_bytes(sum, places, sizeof places), &it->report, sizeof it->report);
}

/* The features that are reported, and the verdict; how many there are is counted. */
static uint64_t pull_features(geolint_features *features, pieces it, uint64_t *count) {
    uint64_t sum = 0;
    geolint_report report;
    geolint_features_begin(features, 0, 0);
    while (next_piece(&it)) {
        geolint_progress progress = {0, 0, 0};
        for (size_t at = 0; at < it.length; at += progress.taken) {
            progress = geolint_features_feed(features, it.piece + at, it.length - at);
            if (progress.status > GEOLINT_REFUSED || (!progress.ready && progress.taken != it.length - at))
                return 1 + (uint64_t)it.is_cut;
            while (progress.ready) {
                geolint_finding finding = geolint_features_next(features);
                if (finding.report.status != GEOLINT_DONE)
                    break;
                ++*count;
                sum = with_feature(sum, &finding);
            }
        }
    }
    report = geolint_features_finish(features);
    return with_bytes(sum, &report, sizeof report);
}

/* The records that are reported, and what the input is as a whole. */
static uint64_t pull_records(geolint_records *records, uint32_t framing, pieces it) {
    uint64_t sum = 0;
    geolint_whole whole;
    geolint_finding finding;
    geolint_records_begin(records, framing, 0, 0);
    while (next_piece(&it)) {
        geolint_progress progress = {0, 0, 0};
        for (size_t at = 0; at < it.length; at += progress.taken) {
            progress = geolint_records_feed(records, it.piece + at, it.length - at);
            if (progress.status != GEOLINT_DONE || (!progress.ready && progress.taken != it.length - at))
                return 1 + (uint64_t)it.is_cut;
            finding = geolint_records_next(records);
            if ((finding.report.status == GEOLINT_DONE) != progress.ready)
                return 1 + (uint64_t)it.is_cut;
            sum = progress.ready ? with_feature(sum, &finding) : sum;
        }
    }
    whole = geolint_records_finish(records);
    finding = geolint_records_next(records);
    sum = finding.report.status == GEOLINT_DONE ? with_feature(sum, &finding) : sum;
    return with_bytes(with_bytes(sum, &whole.report, sizeof whole.report), &whole.number, sizeof whole.number);
}

/* The path, the line and the column of a place. */
static uint64_t find_place(geolint_locator *locator, pieces it) {
    char room[6000];
    geolint_lines lines = geolint_lines_begin();
    uint64_t found[2];
    geolint_locator_begin(locator, 0, 0);
    while (next_piece(&it)) {
        geolint_locator_feed(locator, it.piece, it.length);
        lines = geolint_lines_feed(lines, it.piece, it.length);
    }
    found[0] = lines.line;
    found[1] = lines.column;
    return with_bytes(with_bytes(0, found, sizeof found), room, geolint_locator_path(locator, room, sizeof room));
}

/* A handle that reports features, one that reports records, and a locator. */
static void *room[3];

/* Whether one piece and random pieces give the same findings, paths, lines and columns. */
static int pulls_alike(const char *text, size_t size, uint64_t place, uint64_t *count) {
    pieces whole = {text, size, 0, 0, NULL, 0}, cut = {text, size, 0, 1, NULL, 0};
    uint64_t other = 0, before = *count;
    if (!room[0]) {
        room[0] = malloc(geolint_features_size());
        room[1] = malloc(geolint_records_size());
        room[2] = malloc(geolint_locator_size());
    }
    if (!room[0] || !room[1] || !room[2])
        exit(2);
    if (pull_features(room[0], whole, count) != pull_features(room[0], cut, &other) || *count - before != other)
        return 0;
    for (uint32_t framing = GEOLINT_SEQUENCE; framing <= GEOLINT_NEWLINES; framing++)
        if (pull_records(room[1], framing, whole) != pull_records(room[1], framing, cut))
            return 0;
    whole.size = cut.size = place < size ? (size_t)place + 1 : size;
    return find_place(room[2], whole) == find_place(room[2], cut);
}

/* What the program prints, with its status after it. */
static size_t run_program(const char *program, const char *text, size_t size, char *to) {
    static int input = -1, output = -1;
    int status = 0;
    ssize_t got;
    if (input < 0) {
        input = memfd_create("input", 0);
        output = memfd_create("output", 0);
    }
    if (ftruncate(input, 0) || ftruncate(output, 0) || pwrite(input, text, size, 0) != (ssize_t)size)
        return 0;
    pid_t child = vfork();
    if (child == 0) {
        lseek(input, 0, SEEK_SET);
        lseek(output, 0, SEEK_SET);
        dup2(input, 0);
        dup2(output, 1);
        execl(program, program, "stdin", (char *)NULL);
        _exit(127);
    }
    waitpid(child, &status, 0);
    got = pread(output, to, REPORT - 32, 0);
    return (size_t)got + (size_t)sprintf(to + got, "status %d\n", WEXITSTATUS(status));
}

int main(int count, char **words) {
    static char text[MOST], one[REPORT], cut[REPORT], wanted[REPORT];
    int inputs = count > 4 ? atoi(words[2]) : 0, files = count - 4, wrong = 0, tally[4] = {0};
    uint64_t features = 0;
    geolint_linter *linter = geolint_new(0, 0);
    if (inputs < 1 || files > FILES || !linter)
        return 2;
    state = strtoull(words[1], NULL, 10) * 2 + 1;
    for (int file = 0; file < files; file++)
        sizes[file] = read_file(words[4 + file], texts[file]);
    for (int input = 0; input < inputs && wrong < 5; input++) {
        int file = (int)below((uint32_t)files);
        size_t size = sizes[file];
        memcpy(text, texts[file], size);
        for (uint32_t more = below(3); more > 0; more--)
            size = mutate(text, size);
        geolint_report report = judge_whole(text, size), other = judge_cut(linter, text, size);
        size_t one_size = print_report(&report, one), cut_size = print_report(&other, cut);
        int same = one_size == cut_size && memcmp(one, cut, one_size) == 0;
        same = same && pulls_alike(text, size, report.place, &features);
        tally[report.verdict & 3]++;
        if (strcmp(words[3], "-") != 0) {
            one_size += (size_t)sprintf(one + one_size, "status %d\n", report.verdict == GEOLINT_VALID ? 0 : 1);
            size_t wanted_size = run_program(words[3], text, size, wanted);
            same = same && wanted_size == one_size && memcmp(one, wanted, one_size) == 0;
        }
        if (!same) {
            wrong++;
            printf("FAILED: input %d of seed %s, %s:\n%.*s-- cut:\n%.*s-- program:\n%s", input, words[1], words[4 + file],
                   (int)one_size, one, (int)cut_size, cut, wanted);
        }
    }
    geolint_free(linter);
    for (int kind = 0; kind < 3; kind++)
        free(room[kind]);
    printf("%d valid, %d broken, %d not JSON, %d wrong, %" PRIu64 " features\n", tally[1], tally[2], tally[3], wrong, features);
    return wrong != 0;
}
