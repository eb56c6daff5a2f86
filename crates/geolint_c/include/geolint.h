/* geolint: is a text GeoJSON (RFC 7946), and if it is not, where and why.
 *
 * Two ways in: geolint_check checks a text in memory; a linter (geolint_begin, geolint_feed, geolint_finish) checks a text
 * that comes in pieces, in the memory that the host gives it. In the same way geolint_features_.. reports each feature of a text and
 * geolint_records_.. each record of an input; geolint_run_.. and geolint_join_.. check one text in parts, on several threads;
 * geolint_locator_.. finds the path to a place, geolint_lines_.. its line and column, and geolint_hint.. says what an input that is not
 * valid looks like. The library takes no memory, keeps no state of its own, opens nothing and prints nothing. Any number of linters may
 * be in use at once, each on one thread at a time. What is said of a linter holds of the other handles too, each by its own calls.
 *
 * What is proved of the library. Each call below that gives a verdict states its result by the definitions of the two standards (as
 * the profile in docs/DECISIONS.md reads them) on the whole text, and a prover checks it on each build:
 *   - geolint_check gives the verdict of these bytes: whether they are a JSON text (RFC 8259), then the broken rule of the
 *     least place in the whole text, otherwise of each kind of warning how many there are and the least place;
 *   - geolint_finish gives the same of all bytes fed since the linter was begun last, however they were cut into pieces;
 *   - geolint_feed answers GEOLINT_REFUSED only where every input that begins with the bytes fed so far is no JSON text within
 *     the limits, and GEOLINT_DONE only where these bytes begin a JSON text within the depth and are no more than allowed (not
 *     that such a text ends within the bytes allowed);
 *   - geolint_doomed answers 1 only where no input that begins with the bytes fed so far is valid, and otherwise 0;
 *   - geolint_offset says how many bytes were taken: all that were fed, or once they are refused the place of the refusal;
 *   - geolint_features_next gives, for each text within the depth that goes on from the bytes taken and has fewer than 2^63 names,
 *     values and brackets, the features that have ended in them, in turn and each once: its number, its place, the place after its
 *     closing bracket where it is an object or an array, the place of its `id`, and the report of the least of its faults, or where
 *     it has none of its warnings;
 *   - geolint_records_next gives the records that have ended in the bytes taken, in turn and each once: number, place, end and report;
 *     geolint_records_finish what the input is by them;
 *   - geolint_join_finish gives the verdict of all bytes that the join was given, fed or passed over, where each sum that it passed over
 *     is one of those bytes; geolint_run_sum gives such a sum;
 *   - geolint_locator_step gives the steps of the path that the bytes taken lead to, in each text that goes on from them;
 *   - geolint_lines_feed gives the line and the column after the bytes fed, each up to 2^64 - 1;
 *   - geolint_levels says how many arrays and objects are open after the bytes taken, in each text that goes on from them;
 *   - geolint_hint_text and geolint_hint_around give the text of the hint that the definitions have for the report and these bytes;
 *   - each text is the one that the definitions have for its number, with a byte 0 at its end;
 *   - each call returns, reads and writes no memory but what it is passed, and leaves a linter that can be used again; what it
 *     does at null and after the end is as each says below. Between two calls a linter may go from thread to thread.
 * Tested and not proved: this header with the functions in it, and that the library is linked as it was built.
 *
 * What the caller owes, as no library can test it:
 *   - a pointer that is not null points to what its parameter says, for the whole call;
 *   - `bytes` is not null, nor `head`, `before` and `after`, whatever the length is: for a length of 0 any address will do, such as
 *     that of "". geolint_bytes below makes such an address of a pointer that may be null;
 *   - a linter lies in memory of geolint_size() bytes at a multiple of geolint_alignment(), and is passed to no call before
 *     geolint_begin has got this memory. It is not copied, not moved and not written by the host. The other handles lie in as many
 *     bytes as their own functions say, at a multiple of geolint_alignment() too, and are passed to their own calls alone.
 *     Memory of an allocator that aligns to 8 bytes alone, as sqlite3_malloc does, has to be aligned by the host;
 *   - one call at a time for each linter. Where the next call comes from another thread, a lock, a thread's start or join or the
 *     like orders the two.
 *
 * C99 and C++11. Places are byte offsets from 0. */
#ifndef GEOLINT_H
#define GEOLINT_H

#include <stddef.h>
#include <stdint.h>
#include <stdlib.h>

#ifdef __cplusplus
extern "C" {
#endif

/* What a call answers. */
enum geolint_status {
    GEOLINT_DONE = 0,    /* of a piece: the bytes so far begin a JSON text within the depth, and are no more than allowed */
    GEOLINT_REFUSED = 1, /* of a piece: the input is refused, and so is every input that begins so */
    GEOLINT_ENDED = 2,   /* the linter has ended, and stays so until it is begun again */
    GEOLINT_LIMITS = 3,  /* the limits are not allowed: nothing can be checked under them */
    GEOLINT_NULL = 4,    /* the pointer is null: nothing was changed */
    GEOLINT_READY = 5,   /* a finding is ready, and is to be taken first: nothing was changed */
    GEOLINT_NONE = 6     /* no finding is ready */
};

/* What a text is. */
enum geolint_verdict {
    GEOLINT_NO_VERDICT = 0, /* there is none: the report's status says why */
    GEOLINT_VALID = 1,      /* a GeoJSON text, perhaps with warnings */
    GEOLINT_BROKEN = 2,     /* a JSON text that breaks the rule G<rule> at this place */
    GEOLINT_NOT_JSON = 3    /* no JSON text within the limits, by the cause J<cause> at this place */
};

/* Why an input is not JSON. */
enum geolint_cause {
    GEOLINT_SYNTAX = 1,    /* J1: the byte at the place cannot stand there */
    GEOLINT_TRUNCATED = 2, /* J2: the input ends before a text does */
    GEOLINT_DEPTH = 3,     /* J3: more arrays and objects inside each other than allowed */
    GEOLINT_LENGTH = 4     /* J4: longer than allowed */
};

/* The rules G1 to G21, the kinds of warning W1 to W9. */
#define GEOLINT_RULES 21
#define GEOLINT_KINDS 9

/* Of one kind: how many (it stays at 4294967295), and the place of the first; 0 and 0 where there is none. */
typedef struct geolint_warned {
    uint64_t count;
    uint64_t first;
} geolint_warned;

/* A verdict in plain numbers. What does not belong to the verdict is 0. */
typedef struct geolint_report {
    uint32_t status;  /* enum geolint_status: GEOLINT_DONE where there is a verdict */
    uint32_t verdict; /* enum geolint_verdict */
    uint32_t rule;    /* 1 to 21, of a broken text */
    uint32_t cause;   /* enum geolint_cause, of an input that is no JSON text */
    uint64_t place;   /* of the rule or the cause */
    uint64_t warned;  /* 1 where a valid text has a warning, otherwise 0 */
    geolint_warned warnings[GEOLINT_KINDS]; /* of W1 to W9, in this order */
} geolint_report;

/* A linter, in memory of the host: geolint_size() bytes at a multiple of geolint_alignment(). */
typedef struct geolint_linter geolint_linter;

/* The address of bytes, where a null pointer may stand for no bytes. */
static inline const void *geolint_bytes(const void *bytes) {
    return bytes ? bytes : "";
}

/* ---- a text in memory */

/* Checks `length` bytes. `max_depth` is how many arrays and objects may be open inside each other, from 1 to 256, and
 * `max_bytes` how many bytes a text may have, from 1 to 2^60; 0 stands for the most of either. Other limits give
 * GEOLINT_NO_VERDICT with GEOLINT_LIMITS. As measured, it needs 208 KiB of stack, all of which it writes for a text of more than
 * 8 KiB or of more than 8 levels; on a smaller stack use a linter in other memory. */
geolint_report geolint_check(const void *bytes, size_t length, uint32_t max_depth, uint64_t max_bytes);

/* ---- a text in pieces */

/* How many bytes a linter takes, and at a multiple of what address it lies (a power of two, at most 16). */
size_t geolint_size(void);
size_t geolint_alignment(void);

/* Begins a linter in this memory, whatever is there, before the first byte of an input: GEOLINT_DONE. The limits are those
 * of geolint_check; where they are not allowed the answer is GEOLINT_LIMITS, and the linter has ended. Null: GEOLINT_NULL.
 * A linter may be begun again at any time, also by geolint_begin_again. There is nothing to free in it: the host frees its
 * memory, once, when it likes. */
uint32_t geolint_begin(geolint_linter *linter, uint32_t max_depth, uint64_t max_bytes);

/* As geolint_begin, for memory that geolint_begin has got before: a host that checks many texts pays little for each, since
 * what the linter there has written once need not be written again. */
uint32_t geolint_begin_again(geolint_linter *linter, uint32_t max_depth, uint64_t max_bytes);

/* Takes the next bytes: GEOLINT_DONE or GEOLINT_REFUSED. After a refusal each further piece is refused and changes
 * nothing, and a host may stop reading: the verdict is settled. A broken rule does not end the reading. A piece of length 0
 * adds nothing to the bytes fed, and is answered as they are. After the end: GEOLINT_ENDED. Null: GEOLINT_NULL. */
uint32_t geolint_feed(geolint_linter *linter, const void *bytes, size_t length);

/* How many bytes were taken. After the end, and for null: 0. */
uint64_t geolint_offset(geolint_linter *linter);

/* 1 where no input that begins with the bytes fed is valid, as far as that is seen early, so that a host may stop for a yes or
 * no; otherwise 0. It is 1 after a refusal, and once the bytes show an outermost value that is no object (a number, a string
 * and a word show it when they have ended), or in the outermost object a known name twice, a first `type` that is none of the
 * nine, or a name that this type forbids. After the end, and for null: 0. */
uint32_t geolint_doomed(geolint_linter *linter);

/* How many arrays and objects are open after the bytes taken: once they are refused, before the place of the refusal. After the
 * end, and for null: 0. */
uint32_t geolint_levels(geolint_linter *linter);

/* The verdict of all that was fed, and the end of the linter. After the end there is GEOLINT_NO_VERDICT with
 * GEOLINT_ENDED, and for null with GEOLINT_NULL. As measured, no call on a linter needs more than 8 KiB of stack. */
geolint_report geolint_finish(geolint_linter *linter);

/* ---- findings: what a piece shows, and what is found in a feature or in a record */

/* What a call took of a piece. */
typedef struct geolint_progress {
    uint64_t taken;  /* how many of its bytes; the host passes the others again, in the next call */
    uint32_t status; /* enum geolint_status */
    uint32_t ready;  /* 1 where a finding is ready, otherwise 0 */
} geolint_progress;

/* What is found in a feature or in a record. Places are from the start of the input. */
typedef struct geolint_finding {
    uint64_t number; /* of a feature: how many stand before it; of a record: counted from 1, 0 of bytes before the first RS */
    uint64_t place;  /* of its first byte */
    uint64_t end;    /* the place after its last byte; of a feature that is neither an object nor an array 0 */
    uint64_t id;     /* of a feature: the place of the value of its first member `id`, or 0 where it has none; of a record 0 */
    geolint_report report; /* what it is; the status is GEOLINT_NONE where there is no finding */
} geolint_finding;

/* ---- the features of a text
 *
 * A feature is an element of the array that the first member `features` of the text's object holds, whatever the object's `type`
 * says. Each is reported in its turn, once its last byte has come: the least of its faults, or where it has none its warnings. A
 * call takes bytes up to where features have ended, and up to 256 of them wait then to be pulled.
 *
 *     while (length) {
 *         geolint_progress progress = geolint_features_feed(features, bytes, length);
 *         bytes += progress.taken;
 *         length -= progress.taken;
 *         while (progress.ready) {
 *             geolint_finding finding = geolint_features_next(features);
 *             if (finding.report.status != GEOLINT_DONE)
 *                 break;
 *             ..
 *         }
 *         if (progress.status != GEOLINT_DONE)
 *             break;
 *     }
 *     report = geolint_features_finish(features); */

/* In memory of the host: geolint_features_size() bytes at a multiple of geolint_alignment(). */
typedef struct geolint_features geolint_features;

size_t geolint_features_size(void);

/* As geolint_begin. */
uint32_t geolint_features_begin(geolint_features *features, uint32_t max_depth, uint64_t max_bytes);

/* As geolint_begin_again: findings that are not pulled yet are forgotten, also where the limits are not allowed. */
uint32_t geolint_features_begin_again(geolint_features *features, uint32_t max_depth, uint64_t max_bytes);

/* Takes the next bytes, up to where features have ended: all of these bytes, or some, and then at least one finding is ready. More may
 * be ready, each in its turn, and all are to be pulled before the next bytes. How much a call takes at once is not said: a finding's
 * `end` says where its feature ends. The status is that of geolint_feed for the bytes taken. Once the text is refused, each further
 * piece is taken and changes nothing. Where a finding is ready before: GEOLINT_READY, and nothing is taken. After the end:
 * GEOLINT_ENDED. Null: GEOLINT_NULL. */
geolint_progress geolint_features_feed(geolint_features *features, const void *bytes, size_t length);

/* The next feature that has ended in the bytes taken, where one is ready; otherwise the status of its report is GEOLINT_NONE, and for
 * null GEOLINT_NULL. */
geolint_finding geolint_features_next(geolint_features *features);

/* As geolint_offset. */
uint64_t geolint_features_offset(geolint_features *features);

/* As geolint_finish; where a finding is ready, GEOLINT_NO_VERDICT with GEOLINT_READY, and nothing ends. */
geolint_report geolint_features_finish(geolint_features *features);

/* ---- the records of a text sequence (RFC 8142), or of newline-delimited texts */

enum geolint_framing {
    GEOLINT_SEQUENCE = 0, /* RS stands before each text, and LF at its end */
    GEOLINT_NEWLINES = 1  /* each line is a text; a line of white space alone is none */
};

/* In memory of the host: geolint_records_size() bytes at a multiple of geolint_alignment(). */
typedef struct geolint_records geolint_records;

size_t geolint_records_size(void);

/* As geolint_begin. The depth is allowed to each record, and the number of bytes to the whole input. A framing that is neither of
 * the two is answered as limits that are not allowed. */
uint32_t geolint_records_begin(geolint_records *records, uint32_t framing, uint32_t max_depth, uint64_t max_bytes);

/* As geolint_records_begin, for memory that it has got before, at little cost: a finding that is not pulled yet is forgotten, also
 * where the limits or the framing are not allowed. */
uint32_t geolint_records_begin_again(geolint_records *records, uint32_t framing, uint32_t max_depth, uint64_t max_bytes);

/* Takes the next bytes, up to and with the separator after the next record. A record that is not valid ends there as well, and the
 * next is checked. GEOLINT_REFUSED: more bytes came than are allowed, and no further one matters. Where a finding is ready before:
 * GEOLINT_READY, and nothing is taken. After the end: GEOLINT_ENDED. Null: GEOLINT_NULL. */
geolint_progress geolint_records_feed(geolint_records *records, const void *bytes, size_t length);

/* The record that has ended, where one is ready; otherwise the status of its report is GEOLINT_NONE, and for null GEOLINT_NULL. */
geolint_finding geolint_records_next(geolint_records *records);

/* How many bytes were taken, of those that are allowed. After the end, and for null: 0. */
uint64_t geolint_records_offset(geolint_records *records);

/* What an input of records is as a whole. */
typedef struct geolint_whole {
    geolint_report report; /* valid where each record is, with the warnings of all; otherwise that of the first that is not */
    uint64_t number;       /* how many records there are, or the number of the first that is not valid */
} geolint_whole;

/* What the input is as a whole, and its end. The last record is ready after it, if there is one: geolint_records_next gives it.
 * Where a finding is ready before, there is GEOLINT_NO_VERDICT with GEOLINT_READY, and nothing ends. After the end there is
 * GEOLINT_NO_VERDICT with GEOLINT_ENDED, and for null with GEOLINT_NULL. */
geolint_whole geolint_records_finish(geolint_records *records);

/* ---- a text in parts
 *
 * One FeatureCollection is checked by several threads, or by several machines. A run is a part of a text: whole features, each after a
 * comma. It is checked as if a feature of the text had ended right before it, and a join reads the text without its runs: it passes over
 * one only where it stands right after a feature itself. So whatever the text is, and wherever runs begin, the verdict is that of one
 * reading. A run that begins in a wrong place, as in a string, costs time and nothing else, and a text without runs is read as a whole.
 *
 *     geolint_run_begin(run, 0, place);                 // on its own thread: the part from `place` on
 *     while (the part has more bytes) {
 *         status = geolint_run_feed(run, bytes, length);
 *         sum = geolint_run_sum(run);
 *         if (status != GEOLINT_DONE || sum.ended)
 *             break;
 *     }
 *
 *     place = 0;                                        // then, with the sums in the order of their places
 *     for (each sum) {
 *         geolint_join_feed(join, the bytes from `place` up to sum.begin);
 *         place = geolint_join_pass_over(join, &sum) ? sum.end : sum.begin;
 *     }
 *     geolint_join_feed(join, the bytes from `place` on);
 *     report = geolint_join_finish(join);
 *
 * Where parts may begin: at equal shares of the text, each moved on by what geolint_run_likely says, to where the next 65536 bytes or so
 * have a feature (`sum.features`) and are not refused. A part goes on up to where the next one begins.
 *
 * What the caller owes, beside the above: that the bytes that a run is fed stand at its place in the text that the join is of, and that a
 * sum that the join is passed is one that geolint_run_sum gave, for the same `max_depth` or a lesser one. */

/* What is found in a run: in the longest row of whole features that its bytes begin with, of which none breaks a rule. */
typedef struct geolint_sum {
    uint32_t status;   /* enum geolint_status: GEOLINT_DONE where there is a sum */
    uint32_t ended;    /* 1 where a feature with a fault follows: no further byte makes the run longer; otherwise 0 */
    uint64_t begin;    /* the place where the run begins */
    uint64_t end;      /* the place after its last feature; that where it begins, if it has none */
    uint64_t features; /* how many it has */
    geolint_warned warnings[GEOLINT_KINDS]; /* their warnings, of W1 to W9, at places of the text */
} geolint_sum;

/* In memory of the host: geolint_run_size() bytes at a multiple of geolint_alignment(). A run has no end: begin it again for another. */
typedef struct geolint_run geolint_run;

size_t geolint_run_size(void);

/* Begins a run, before the byte at this place of a text: GEOLINT_DONE. No feature ends before the place 15, and none within fewer than 3
 * levels: then, or where the place is beyond 2^60 or the depth is not allowed, the answer is GEOLINT_LIMITS. Null: GEOLINT_NULL. As
 * measured, it needs 400 KiB of stack, and no other call on a run or a join more than 8 KiB. */
uint32_t geolint_run_begin(geolint_run *run, uint32_t max_depth, uint64_t place);

/* Takes the next bytes, as geolint_feed does. Once they are refused, no further byte makes the run longer. A run that was not begun well:
 * GEOLINT_ENDED. Null: GEOLINT_NULL. */
uint32_t geolint_run_feed(geolint_run *run, const void *bytes, size_t length);

/* What is found in the run so far. Of one that was not begun well the status is GEOLINT_ENDED, and for null GEOLINT_NULL. */
geolint_sum geolint_run_sum(geolint_run *run);

/* How many of these bytes end with the first closing brace that a comma and the beginning of an object follow, so that a run may begin
 * there; 0 where there is none. It is a guess. */
size_t geolint_run_likely(const void *bytes, size_t length);

/* In memory of the host: geolint_join_size() bytes at a multiple of geolint_alignment(). */
typedef struct geolint_join geolint_join;

size_t geolint_join_size(void);

/* As geolint_begin. */
uint32_t geolint_join_begin(geolint_join *join, uint32_t max_depth, uint64_t max_bytes);

/* As geolint_feed. */
uint32_t geolint_join_feed(geolint_join *join, const void *bytes, size_t length);

/* Passes over the run of this sum, which is not null: 1 where a feature has ended right before the place where it begins, and it is within
 * the limits. The next bytes are then those from `end` on. Otherwise 0, and nothing has changed. After the end, and for null: 0. */
uint32_t geolint_join_pass_over(geolint_join *join, const geolint_sum *sum);

/* As geolint_finish. */
geolint_report geolint_join_finish(geolint_join *join);

/* ---- the path to a place */

/* In memory of the host: geolint_locator_size() bytes at a multiple of geolint_alignment(). It has no end; begin it again for another
 * text or another place. As measured, no call on a locator needs more than 16 KiB of stack. */
typedef struct geolint_locator geolint_locator;

size_t geolint_locator_size(void);

/* As geolint_begin. */
uint32_t geolint_locator_begin(geolint_locator *locator, uint32_t max_depth, uint64_t max_bytes);

/* Takes the next bytes, as geolint_feed does: for the path to a place those before it, and the one that stands there. */
uint32_t geolint_locator_feed(geolint_locator *locator, const void *bytes, size_t length);

/* The text of one step of a path, as [3] or .geometry, with bytes 0 after it; `size` is 0 where there is no such step. */
typedef struct geolint_step {
    uint64_t size;
    char bytes[24];
} geolint_step;

/* The step, counted from 0 at the root, of the path to the value that the bytes taken lead to: that which begins with the last of them,
 * where it is no array and no object; otherwise the innermost array or object that is open; otherwise the root. */
geolint_step geolint_locator_step(geolint_locator *locator, uint32_t step);

/* Writes the path as $.features[3].geometry, with a byte 0 at its end, as far as `size` bytes have room for it; answers how long it
 * is without that byte. So a room of one byte more takes it whole. Null has the path of the root. */
static inline size_t geolint_locator_path(geolint_locator *locator, char *room, size_t size) {
    size_t length = 0;
    uint32_t i = 0;
    geolint_step step = {1, "$"};
    while (step.size) {
        uint64_t at;
        for (at = 0; at < step.size; at++, length++)
            if (length + 1 < size)
                room[length] = step.bytes[at];
        step = geolint_locator_step(locator, i++);
    }
    if (size)
        room[length < size ? length : size - 1] = 0;
    return length;
}

/* ---- lines and columns */

/* The line and the column of the place after some bytes, each from 1. A line ends with LF alone; a column counts characters, so that a
 * tab, a byte order mark and the CR before an LF are one each. */
typedef struct geolint_lines {
    uint64_t line;
    uint64_t column;
} geolint_lines;

/* Before the first byte: 1 and 1. */
geolint_lines geolint_lines_begin(void);

/* After these bytes more. For the line and the column of a place the bytes before it are fed. */
geolint_lines geolint_lines_feed(geolint_lines lines, const void *bytes, size_t length);

/* ---- sizes, for a host that puts one into a struct or an array
 *
 * They are those that the functions return, on systems with 64-bit addresses. */

#define GEOLINT_ALIGNMENT 16
#define GEOLINT_SIZE 199072
#define GEOLINT_FEATURES_SIZE 246208
#define GEOLINT_RECORDS_SIZE 199504
#define GEOLINT_LOCATOR_SIZE 5136
#define GEOLINT_RUN_SIZE 199232
#define GEOLINT_JOIN_SIZE 199248

/* ---- texts */

/* A text of the library, which lies there for good: `bytes` ends with a byte 0, and `size` counts that byte too. */
typedef struct geolint_text {
    const char *bytes;
    size_t size;
} geolint_text;

/* Each writes the text to `text`, which is not null and holds a text already, as {"", 1}; the functions below them are
 * easier to call. A number that is no rule, cause or kind gets an empty text. */
void geolint_rule_text(uint32_t rule, geolint_text *text);
void geolint_cause_text(uint32_t cause, geolint_text *text);
void geolint_warning_text(uint32_t kind, geolint_text *text);
void geolint_version_text(geolint_text *text);

/* What the rule G<rule>, the cause J<cause> or the warning W<kind> says, as the program prints it; never null. */
static inline const char *geolint_rule(uint32_t rule) {
    geolint_text text = {"", 1};
    geolint_rule_text(rule, &text);
    return text.bytes;
}

static inline const char *geolint_cause(uint32_t cause) {
    geolint_text text = {"", 1};
    geolint_cause_text(cause, &text);
    return text.bytes;
}

static inline const char *geolint_warning(uint32_t kind) {
    geolint_text text = {"", 1};
    geolint_warning_text(kind, &text);
    return text.bytes;
}

/* The version of the library, as "0.1.0". */
static inline const char *geolint_version(void) {
    geolint_text text = {"", 1};
    geolint_version_text(&text);
    return text.bytes;
}

/* ---- hints
 *
 * A hint is one line of advice on an input that is not valid, as geolint-files gives it: what the input looks like, and a command that
 * makes it right. It recognizes files of another kind (compressed, a database, HTML), other encodings, slips in JSON, numbers that are not
 * read, and of a valid text latitude and longitude that look swapped. It is a guess by the report and by some bytes: the first 512 of
 * the input, and the 256 before a place and from it on. The place is that of the report, and of a valid text the `first` of W5. */

/* Each writes the hint to `text`, which is not null and holds a text already; an empty text where there is no hint. `report` is not
 * null.
 *
 * geolint_hint_text goes by all bytes of the text that the report is of. Where a later byte is refused by its syntax, it reads the text
 * up to there once more. */
void geolint_hint_text(const geolint_report *report, const void *bytes, size_t length, geolint_text *text);

/* For an input that came in pieces: its first bytes, those before the place and those from it on, of each as many as the host has (more
 * than the above are passed over). `levels` is what geolint_levels answered before geolint_finish; of a record pass 1. */
void geolint_hint_around(const geolint_report *report, uint32_t levels, const void *head, size_t head_size, const void *before, size_t before_size, const void *after, size_t after_size, geolint_text *text);

/* The hint for a text in memory, by its report; never null, and empty where there is none. */
static inline const char *geolint_hint(const geolint_report *report, const void *bytes, size_t length) {
    geolint_text text = {"", 1};
    geolint_hint_text(report, geolint_bytes(bytes), length, &text);
    return text.bytes;
}

/* ---- a linter in memory of malloc */

/* Takes the memory of a linter, once, and begins it. Null where there is no memory or the limits are not allowed. */
static inline geolint_linter *geolint_new(uint32_t max_depth, uint64_t max_bytes) {
    geolint_linter *linter = (geolint_linter *)malloc(geolint_size());
    if (linter && geolint_begin(linter, max_depth, max_bytes) != GEOLINT_DONE) {
        free(linter);
        linter = NULL;
    }
    return linter;
}

/* Gives the memory back that geolint_new took; null is allowed. The pointer must not be used after it, nor be freed twice. */
static inline void geolint_free(geolint_linter *linter) {
    free(linter);
}

#ifdef __cplusplus
}
#endif

#endif
