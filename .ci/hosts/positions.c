/* A million positions of odd forms, in lines, polygons and lists of points of many arrays each: a text in one call, where the
 * library reads positions many at a time, and byte by byte, where it reads none of them as a whole, give one report.
 *
 *     positions SEED TEXTS
 */
#include "random.h"
#include <geolint.h>
#include <inttypes.h>
#include <stdio.h>
#include <string.h>

enum { POSITIONS = 100, ROOM = 32768 };

static char text[ROOM];
static size_t size;

static void add(const char *more) {
    size_t length = strlen(more);
    memcpy(text + size, more, length);
    size += length;
}

static void add_byte(char byte) { text[size++] = byte; }

static void add_digits(uint32_t count) {
    while (count-- > 0)
        add_byte((char)('0' + below(10)));
}

/* An ordinary number, with a minus sign if it is to be negative: one to three digits before the point. */
static void add_usual(int negative, uint32_t natural, uint32_t fraction) {
    if (negative)
        add_byte('-');
    add_byte((char)(natural > 1 ? '1' + below(natural == 3 ? 1 : 9) : '0' + below(10)));
    add_digits(natural - 1);
    add_byte('.');
    add_digits(fraction);
}

/* An integer, with a minus sign if it is to be negative: one to three digits. */
static void add_integer(int negative, uint32_t natural) {
    if (negative)
        add_byte('-');
    add_byte((char)(natural > 1 ? '1' + below(natural == 3 ? 1 : 9) : '0' + below(10)));
    add_digits(natural - 1);
}

/* A number that no usual writer makes. Some of these are no number of JSON. */
static void add_odd(void) {
    static const char *const odd[] = {"-0.0", "0.5", "01.5", "-01.5", "1.", ".5", "-.5", "--1.5", "+1.5", "1-2.5", "1.5-", "1.-5", "1.2.3", "1e2", "1.5e1",
                                      "-1.5E-1", "7", "-7", "1234.5", "180.0000000", "180.00000001", "-180.0", "90.0", "-90.00000000000001", "1.00000000000000",
                                      "1.00000000000001", "1.1234567000001", "12.000000000000000000000001", "null", "[1.5,2.5]", "\"1.5\"", " 1.5", "1.5 "};
    add(odd[below(sizeof odd / sizeof *odd)]);
}

/* One in `integers` is an integer, none where that is 0. */
static void add_number(int negative, uint32_t natural, uint32_t fraction, uint32_t integers, int is_odd) {
    if (is_odd && below(3) == 0)
        add_odd();
    else if (integers > 0 && below(integers) == 0)
        add_integer(negative, natural);
    else
        add_usual(is_odd ? (int)below(2) : negative, is_odd && below(4) == 0 ? 1 + below(4) : natural, is_odd ? 1 + below(16) : fraction);
}

/* How the positions of a text are written: with a space inside the brackets, a space after each comma, a third number. Or over
 * several lines, with so much white space at the beginning of a line with a number, or with a bracket. One in so many of each
 * position's first and second number is an integer, none where that is 0. */
struct form {
    int inside, after_comma, third, lines;
    uint32_t number, bracket, integers[2];
    char white;
};

/* The end of a line and the white space of the next: mostly what the form says. */
static void add_line(const struct form *form, uint32_t white, int is_odd) {
    if (is_odd && below(6) == 0)
        add_byte(" \r\t\n"[below(4)]);
    if (!is_odd || below(8) != 0)
        add_byte('\n');
    if (is_odd && below(6) == 0)
        white += white == 0 || below(2) == 0 ? 1 : UINT32_MAX;
    while (white-- > 0)
        add_byte(form->white);
}

/* What stands after an opening bracket, before a closing one, or after a comma: mostly what the form says. */
static void add_gap(const struct form *form, int spaced, uint32_t white, int is_odd) {
    if (form->lines)
        add_line(form, white, is_odd);
    else if (is_odd && below(6) == 0)
        add(below(2) == 0 ? "  " : "\n");
    else if (spaced != (is_odd && below(6) == 0))
        add_byte(' ');
}

/* A height of up to four digits before the point, whole now and then, with up to nine places. */
static void add_height(int is_odd) {
    static const uint32_t places[] = {0, 1, 1, 2, 3, 7, 8, 9};
    uint32_t natural = 1 + below(4), fraction = is_odd ? places[below(8)] : 1 + below(2);
    if (below(5) == 0)
        add_byte('-');
    add_byte((char)(natural > 1 ? '1' + below(9) : '0' + below(10)));
    add_digits(natural - 1);
    if (fraction > 0) {
        add_byte('.');
        add_digits(fraction);
    }
}

/* A position, odd in one of `rare` cases. */
static void add_position(const struct form *form, const int *negative, uint32_t fraction, uint32_t rare) {
    int is_odd = below(rare) == 0, has_third = form->third != (is_odd && below(3) == 0);
    add_byte('[');
    add_gap(form, form->inside, form->number, is_odd);
    add_number(negative[0], 1 + below(3), fraction, form->integers[0], is_odd);
    add_byte(',');
    add_gap(form, form->after_comma, form->number, is_odd);
    add_number(negative[1], 1 + below(2), fraction, form->integers[1], is_odd);
    if (has_third) {
        add_byte(',');
        add_gap(form, form->after_comma, form->number, is_odd);
        if (is_odd && below(2) == 0)
            add_odd();
        else
            add_height(is_odd);
    }
    add_gap(form, form->inside, form->bracket, is_odd);
    add_byte(']');
}

/* A comma between two positions, and what stands after it. */
static void add_comma(const struct form *form, uint32_t rare) {
    add_byte(',');
    add_gap(form, form->after_comma, form->bracket, below(rare) == 0);
}

static void make_text(void) {
    static const char *const types[] = {"LineString", "MultiPoint", "Polygon", "MultiLineString", "MultiPolygon"};
    static const uint32_t depths[] = {0, 0, 1, 1, 2};
    uint32_t type = below(5), depth = depths[type], fraction = 1 + below(15), rare = below(3) == 0 ? 8 : 300;
    int negative[2] = {(int)below(2), (int)below(2)}, inside = below(4) == 0;
    struct form form = {inside, inside || below(3) == 0, below(3) == 0, below(3) == 0, 1 + below(16), 1 + below(12), {0, 0}, ' '};
    size_t first, length, before_bracket;
    size = 0;
    if (below(3) == 0)
        for (int number = 0; number < 2; number++)
            form.integers[number] = (const uint32_t[]){0, 1, 1, 2, 20}[below(5)];
    if (form.lines) {
        form.third = below(8) == 0;
        form.white = below(3) == 0 ? '\t' : ' ';
        if (below(40) == 0)
            form.number = 29 + below(6);
    }
    before_bracket = form.lines ? 1 + form.bracket : (size_t)form.inside;
    add("{\"type\":\"");
    add(types[type]);
    add("\",\"coordinates\":[");
    for (uint32_t level = 0; level < depth; level++)
        add_byte('[');
    first = size;
    add_position(&form, negative, fraction, rare);
    length = size - first;
    for (uint32_t count = 2; count < POSITIONS; count++) {
        /* The ring's first position again, or one that differs from it in its last byte, now and then. */
        add_comma(&form, rare);
        if (below(60) == 0) {
            memcpy(text + size, text + first, length);
            size += length;
            if (below(2) == 0)
                text[size - 2 - before_bracket] = (char)('0' + below(10));
        } else {
            add_position(&form, negative, fraction, rare);
        }
        if (below(50) == 0)
            negative[below(2)] ^= 1;
    }
    add_comma(&form, rare);
    memcpy(text + size, text + first, length);
    size += length;
    for (uint32_t level = 0; level <= depth; level++)
        add_byte(']');
    add_byte('}');
}

int main(int count, char **words) {
    uint32_t texts = count == 3 ? (uint32_t)strtoul(words[2], NULL, 10) : 0, wrong = 0, tally[4] = {0};
    geolint_linter *linter = geolint_new(0, 0);
    if (!texts || !linter)
        return 2;
    state = strtoull(words[1], NULL, 10) * 2 + 1;
    for (uint32_t number = 0; number < texts && wrong < 5; number++) {
        geolint_report whole, bytewise;
        make_text();
        whole = geolint_check(text, size, 0, 0);
        geolint_begin_again(linter, 0, 0);
        for (size_t at = 0; at < size; at++)
            geolint_feed(linter, text + at, 1);
        bytewise = geolint_finish(linter);
        tally[whole.verdict & 3]++;
        if (memcmp(&whole, &bytewise, sizeof whole) != 0) {
            wrong++;
            printf("FAILED: text %" PRIu32 " of seed %s: verdict %" PRIu32 " rule %" PRIu32 " at %" PRIu64 ", byte by byte verdict %" PRIu32 " rule %" PRIu32
                   " at %" PRIu64 "\n%.*s\n",
                   number, words[1], whole.verdict, whole.rule, whole.place, bytewise.verdict, bytewise.rule, bytewise.place, (int)size, text);
        }
    }
    geolint_free(linter);
    printf("%" PRIu32 " positions: %" PRIu32 " texts valid, %" PRIu32 " broken, %" PRIu32 " not JSON, %" PRIu32 " wrong\n", texts * POSITIONS, tally[1], tally[2],
           tally[3], wrong);
    return wrong != 0;
}
