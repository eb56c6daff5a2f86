/* Checks a file, read in pieces, and prints the report of `geolint stdin`: C with geolint.h.
 *
 *     cc report.c -o report $(pkg-config --cflags --libs geolint)
 *     ./report [PATH]     standard input where there is no path
 *
 * The status is the program's: 0 valid, 1 not valid, 2 no verdict. */
#include <geolint.h>
#include <inttypes.h>
#include <stdio.h>

static void print_report(const geolint_report *report) {
    switch (report->verdict) {
    case GEOLINT_VALID:
        printf("valid\n");
        for (uint32_t kind = 1; kind <= GEOLINT_KINDS; kind++) {
            const geolint_warned *warned = &report->warnings[kind - 1];
            if (warned->count > 0)
                printf("warning W%" PRIu32 " count %" PRIu64 " first %" PRIu64 ": %s\n", kind, warned->count,
                       warned->first, geolint_warning(kind));
        }
        break;
    case GEOLINT_BROKEN:
        printf("broken G%" PRIu32 " at %" PRIu64 ": %s\n", report->rule, report->place, geolint_rule(report->rule));
        break;
    case GEOLINT_NOT_JSON:
        printf("not JSON at %" PRIu64 ": %s\n", report->place, geolint_cause(report->cause));
        break;
    }
}

int main(int count, char **words) {
    FILE *file = count > 1 ? fopen(words[1], "rb") : stdin;
    if (!file) {
        perror(words[1]);
        return 2;
    }
    geolint_linter *linter = geolint_new(0, 0);
    if (!linter) {
        fprintf(stderr, "no memory\n");
        return 2;
    }
    char piece[8192];
    size_t size;
    while ((size = fread(piece, 1, sizeof piece, file)) > 0)
        if (geolint_feed(linter, piece, size) == GEOLINT_REFUSED)
            break;
    if (ferror(file)) {
        perror("cannot read");
        return 2;
    }
    geolint_report report = geolint_finish(linter);
    geolint_free(linter);
    print_report(&report);
    if (fflush(stdout) != 0) {
        perror("cannot write");
        return 2;
    }
    return report.verdict == GEOLINT_VALID ? 0 : 1;
}
