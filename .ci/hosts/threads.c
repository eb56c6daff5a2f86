/* Two threads with a linter each, over two texts, so many times: each gets its own verdict.
 *
 *     threads ROUNDS
 */
#include <geolint.h>
#include <pthread.h>
#include <stdio.h>
#include <string.h>

struct work {
    const char *text;
    uint32_t verdict;
    uint64_t place;
    int rounds;
    int wrong;
};

static void *judge(void *at) {
    struct work *work = at;
    size_t size = strlen(work->text);
    for (int round = 0; round < work->rounds; round++) {
        geolint_linter *linter = geolint_new(0, 0);
        if (!linter) {
            work->wrong++;
            break;
        }
        for (size_t from = 0; from < size; from += 7)
            geolint_feed(linter, work->text + from, size - from < 7 ? size - from : 7);
        geolint_report report = geolint_finish(linter);
        geolint_report again = geolint_check(work->text, size, 0, 0);
        work->wrong += report.verdict != work->verdict || report.place != work->place;
        work->wrong += again.verdict != work->verdict || again.place != work->place;
        geolint_free(linter);
    }
    return NULL;
}

int main(int count, char **words) {
    int rounds = count > 1 ? atoi(words[1]) : 0;
    struct work first = {"{\"type\":\"LineString\",\"coordinates\":[[0,0],[1,1],[2,2]]}", GEOLINT_VALID, 0, rounds, 0};
    struct work second = {"{\"type\":\"Polygon\",\"coordinates\":[[[0,0],[1,0],[1,1],[0,0,0]]]}", GEOLINT_BROKEN, 33, rounds, 0};
    pthread_t threads[2];
    if (rounds < 1 || pthread_create(&threads[0], NULL, judge, &first) || pthread_create(&threads[1], NULL, judge, &second))
        return 2;
    pthread_join(threads[0], NULL);
    pthread_join(threads[1], NULL);
    if (first.wrong || second.wrong)
        printf("FAILED: %d and %d wrong verdicts\n", first.wrong, second.wrong);
    return first.wrong || second.wrong;
}
