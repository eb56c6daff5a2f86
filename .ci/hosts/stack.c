/* How deep a stack the calls need: each runs on a thread whose stack is painted, and geolint.h says the most that may be
 * written. The texts of the files that are named are checked in one call, in one piece and byte by byte. */
#define _GNU_SOURCE
#include <geolint.h>
#include <pthread.h>
#include <stdio.h>
#include <string.h>
#include <sys/mman.h>

enum { STACK = 1 << 20, MOST = 1 << 16, PAINT = 0xA5, CHECK = 208 * 1024, STREAM = 8 * 1024 };

struct work {
    void *(*check)(void *);
    const char *text;
    size_t size;
    geolint_linter *linter;
    geolint_report report;
    geolint_features *features;
    geolint_records *records;
    geolint_locator *locator;
    geolint_run *run;
    geolint_join *join;
};

static void *nothing(void *at) {
    struct work *work = at;
    memset(&work->report, 0, sizeof work->report);
    return NULL;
}

static void *by_call(void *at) {
    struct work *work = at;
    work->report = geolint_check(work->text, work->size, 0, 0);
    return NULL;
}

static void *by_pieces(void *at) {
    struct work *work = at;
    geolint_begin(work->linter, 0, 0);
    geolint_feed(work->linter, work->text, work->size);
    geolint_finish(work->linter);
    geolint_begin_again(work->linter, 0, 0);
    for (size_t from = 0; from < work->size; from++) {
        geolint_feed(work->linter, work->text + from, 1);
        geolint_doomed(work->linter);
        geolint_offset(work->linter);
        geolint_levels(work->linter);
    }
    work->report = geolint_finish(work->linter);
    return NULL;
}

static void *by_hint(void *at) {
    struct work *work = at;
    const size_t half = work->size / 2;
    geolint_text text = {"", 1};
    memset(&work->report, 0, sizeof work->report);
    work->report.verdict = GEOLINT_NOT_JSON;
    work->report.cause = GEOLINT_SYNTAX;
    work->report.place = half;
    geolint_hint_text(&work->report, work->text, work->size, &text);
    geolint_hint_around(&work->report, 0, work->text, half, work->text, half, work->text + half, work->size - half, &text);
    return NULL;
}

static void *by_findings(void *at) {
    struct work *work = at;
    geolint_features_begin(work->features, 0, 0);
    for (size_t from = 0; from < work->size;) {
        from += geolint_features_feed(work->features, work->text + from, work->size - from).taken;
        while (geolint_features_next(work->features).report.status == GEOLINT_DONE)
            geolint_features_offset(work->features);
    }
    work->report = geolint_features_finish(work->features);
    for (uint32_t framing = GEOLINT_SEQUENCE; framing <= GEOLINT_NEWLINES; framing++) {
        geolint_records_begin(work->records, framing, 0, 0);
        for (size_t from = 0; from < work->size;) {
            from += geolint_records_feed(work->records, work->text + from, work->size - from).taken;
            geolint_records_next(work->records);
        }
        work->report = geolint_records_finish(work->records).report;
    }
    return NULL;
}

static void *by_place(void *at) {
    struct work *work = at;
    geolint_lines lines = geolint_lines_begin();
    char room[64];
    geolint_locator_begin(work->locator, 0, 0);
    geolint_locator_feed(work->locator, work->text, work->size / 2);
    geolint_locator_path(work->locator, room, sizeof room);
    lines = geolint_lines_feed(lines, work->text, work->size / 2);
    work->report.place = lines.line;
    return NULL;
}

static size_t likely_place(const struct work *work) {
    const size_t half = work->size / 2;
    return half + geolint_run_likely(work->text + half, work->size - half);
}

static void *by_beginning(void *at) {
    struct work *work = at;
    geolint_run_begin(work->run, 0, likely_place(work));
    return NULL;
}

/* With the run that is begun. */
static void *by_parts(void *at) {
    struct work *work = at;
    const size_t place = likely_place(work);
    geolint_run_feed(work->run, work->text + place, work->size - place);
    geolint_sum sum = geolint_run_sum(work->run);
    geolint_join_begin(work->join, 0, 0);
    geolint_join_feed(work->join, work->text, place);
    geolint_join_pass_over(work->join, &sum);
    geolint_join_feed(work->join, work->text + place, work->size - place);
    work->report = geolint_join_finish(work->join);
    return NULL;
}

/* How many bytes of a stack were written; 0 where there was no thread. */
static size_t written(struct work *work, unsigned char *stack) {
    pthread_attr_t how;
    pthread_t thread;
    size_t left = 0;
    memset(stack, PAINT, STACK);
    if (pthread_attr_init(&how) || pthread_attr_setstack(&how, stack, STACK))
        return 0;
    if (pthread_create(&thread, &how, work->check, work) || pthread_join(thread, NULL))
        return 0;
    pthread_attr_destroy(&how);
    while (left < STACK && stack[left] == PAINT)
        left++;
    return STACK - left;
}

/* The ways in which a text is checked, each with the most bytes of stack that it may write. */
static struct {
    void *(*check)(void *);
    const char *what;
    size_t most, depth;
} ways[] = {
    {by_call, "a text in memory", CHECK, 0},
    {by_pieces, "a linter", STREAM, 0},
    {by_findings, "findings", STREAM, 0},
    {by_place, "a place", 2 * STREAM, 0},
    {by_hint, "a hint", STREAM, 0},
    {by_beginning, "the beginning of a run", 2 * CHECK, 0},
    {by_parts, "parts", STREAM, 0},
};
enum { WAYS = sizeof ways / sizeof *ways };

int main(int count, char **words) {
    static char text[MOST];
    void *stack = mmap(NULL, STACK, PROT_READ | PROT_WRITE, MAP_PRIVATE | MAP_ANONYMOUS | MAP_STACK, -1, 0);
    struct work work = {nothing, text, 0, geolint_new(0, 0), {0}, malloc(geolint_features_size()), malloc(geolint_records_size()), malloc(geolint_locator_size()), malloc(geolint_run_size()), malloc(geolint_join_size())};
    size_t bare, depth;
    int failed;
    if (stack == MAP_FAILED || !work.linter || !work.features || !work.records || !work.locator || !work.run || !work.join || count < 2)
        return 2;
    /* What the first calls need for being linked is the system's. */
    for (size_t way = 0; way < WAYS; way++)
        ways[way].check(&work);
    written(&work, stack);
    bare = written(&work, stack);
    failed = !bare;
    for (int file = 1; file < count; file++) {
        FILE *from = fopen(words[file], "rb");
        work.size = from ? fread(text, 1, MOST, from) : 0;
        if (from)
            fclose(from);
        for (size_t way = 0; way < WAYS; way++) {
            work.check = ways[way].check;
            depth = written(&work, stack) - bare;
            ways[way].depth = depth > ways[way].depth ? depth : ways[way].depth;
        }
    }
    geolint_free(work.linter);
    free(work.features);
    free(work.records);
    free(work.locator);
    free(work.run);
    free(work.join);
    for (size_t way = 0; way < WAYS; way++) {
        printf("%s%zu bytes for %s", way ? ", " : "", ways[way].depth, ways[way].what);
        failed |= ways[way].depth > ways[way].most;
    }
    printf("\n");
    return failed;
}
