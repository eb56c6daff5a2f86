/* The processor times of the library: `judge FILE` prints the best seconds of three calls on the file's text; `judge` alone
 * prints what a small text costs, beside yajl's library, as a table in Markdown. */
#include <geolint.h>
#include <stdio.h>
#include <stdlib.h>
#include <string.h>
#include <time.h>
#include <yajl/yajl_parse.h>

static double now(void) {
    struct timespec at;
    clock_gettime(CLOCK_PROCESS_CPUTIME_ID, &at);
    return (double)at.tv_sec + (double)at.tv_nsec * 1e-9;
}

static const char TEXT[] = "{\"type\":\"Feature\",\"properties\":{\"name\":\"a\"},\"geometry\":"
                           "{\"type\":\"Point\",\"coordinates\":[17.11,48.12]}}";
enum { SIZE = sizeof TEXT - 1, TIMES = 5000, ROUNDS = 41, WAYS = 4 };

static int by_call(void) {
    return geolint_check(TEXT, SIZE, 0, 0).verdict == GEOLINT_VALID;
}

static geolint_linter *kept;

static int by_kept_linter(void) {
    geolint_begin_again(kept, 0, 0);
    geolint_feed(kept, TEXT, SIZE);
    return geolint_finish(kept).verdict == GEOLINT_VALID;
}

static int by_new_linter(void) {
    geolint_linter *linter = geolint_new(0, 0);
    int valid;
    geolint_feed(linter, TEXT, SIZE);
    valid = geolint_finish(linter).verdict == GEOLINT_VALID;
    geolint_free(linter);
    return valid;
}

static int by_yajl(void) {
    yajl_handle handle = yajl_alloc(NULL, NULL, NULL);
    int valid = yajl_parse(handle, (const unsigned char *)TEXT, SIZE) == yajl_status_ok &&
                yajl_complete_parse(handle) == yajl_status_ok;
    yajl_free(handle);
    return valid;
}

static const struct {
    const char *name;
    int (*judge)(void);
} WAY[WAYS] = {
    {"yajl: alloc, parse, complete, free", by_yajl},
    {"`geolint_check`", by_call},
    {"begin again, feed and finish, in memory that is kept", by_kept_linter},
    {"`geolint_new`, feed, finish and `geolint_free`", by_new_linter},
};

static double nanoseconds(int (*judge)(void)) {
    double begun = now();
    for (int time = 0; time < TIMES; time++)
        if (!judge())
            exit(1);
    return (now() - begun) / TIMES * 1e9;
}

static int by_size(const void *left, const void *right) {
    double difference = *(const double *)left - *(const double *)right;
    return (difference > 0) - (difference < 0);
}

/* In each round each way has its turn, so that what else the machine does hits all of them. */
static int small(void) {
    static double took[WAYS][ROUNDS], ratio[WAYS][ROUNDS];
    kept = geolint_new(0, 0);
    if (!kept)
        return 2;
    for (int round = 0; round < ROUNDS; round++)
        for (int way = 0; way < WAYS; way++) {
            took[way][round] = nanoseconds(WAY[way].judge);
            ratio[way][round] = took[way][round] / took[0][round];
        }
    geolint_free(kept);
    printf("| A text of %d bytes | nanoseconds | times yajl |\n|---|---:|---:|\n", (int)SIZE);
    for (int way = 0; way < WAYS; way++) {
        qsort(took[way], ROUNDS, sizeof(double), by_size);
        qsort(ratio[way], ROUNDS, sizeof(double), by_size);
        printf("| %s | %.0f | %.2f |\n", WAY[way].name, took[way][ROUNDS / 2], ratio[way][ROUNDS / 2]);
    }
    return 0;
}

static int whole(const char *path) {
    FILE *file = fopen(path, "rb");
    char *text;
    long size;
    double best = 1e9;
    if (!file || fseek(file, 0, SEEK_END) || (size = ftell(file)) < 0 || fseek(file, 0, SEEK_SET))
        return 2;
    text = malloc((size_t)size + 1);
    if (!text || fread(text, 1, (size_t)size, file) != (size_t)size)
        return 2;
    for (int round = 0; round < 3; round++) {
        double begun = now(), took;
        if (geolint_check(text, (size_t)size, 0, 0).verdict != GEOLINT_VALID)
            return 1;
        took = now() - begun;
        best = took < best ? took : best;
    }
    printf("%.6f\n", best);
    fclose(file);
    free(text);
    return 0;
}

int main(int count, char **words) {
    return count > 1 ? whole(words[1]) : small();
}
