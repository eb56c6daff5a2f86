/* Checks each file that is named, whole and in pieces of 37 bytes, and prints a line: the verdict with its rule and place, or each
 * kind of warning with its count and its first place. */
#include <geolint.h>
#include <inttypes.h>
#include <stdio.h>
#include <string.h>

static void print(const geolint_report *it) {
    if (it->verdict == GEOLINT_VALID) {
        printf("valid");
        for (int kind = 0; kind < GEOLINT_KINDS; kind++)
            if (it->warnings[kind].count)
                printf(" W%d %" PRIu64 " %" PRIu64, kind + 1, it->warnings[kind].count, it->warnings[kind].first);
        printf("\n");
    } else if (it->verdict == GEOLINT_BROKEN) {
        printf("broken G%" PRIu32 " %" PRIu64 "\n", it->rule, it->place);
    } else {
        printf("not JSON J%" PRIu32 " %" PRIu64 "\n", it->cause, it->place);
    }
}

int main(int count, char **names) {
    static char bytes[1 << 22];
    geolint_linter *linter = geolint_new(0, 0);
    for (int i = 1; i < count; i++) {
        FILE *file = fopen(names[i], "rb");
        if (!file) return 2;
        size_t size = fread(bytes, 1, sizeof bytes, file);
        fclose(file);
        geolint_report whole = geolint_check(bytes, size, 0, 0);
        geolint_begin_again(linter, 0, 0);
        for (size_t at = 0; at < size; at += 37) geolint_feed(linter, bytes + at, size - at < 37 ? size - at : 37);
        geolint_report pieces = geolint_finish(linter);
        if (memcmp(&whole, &pieces, sizeof whole)) {
            fprintf(stderr, "%s: whole and in pieces differ\n", names[i]);
            return 1;
        }
        print(&whole);
    }
    geolint_free(linter);
    return 0;
}
