/* Checks a value of a column. Each backend keeps one linter, so that a small text costs little: a new one writes 199 KB. */
#ifndef JUDGE_H
#define JUDGE_H

#include "pieces.h"

#include <geolint.h>

/* What is asked of a text, which says how far it is read. */
typedef enum Question {
    IS_IT_VALID, /* to the byte that shows that it is not */
    WHAT_IS_IT   /* to the byte that is refused */
} Question;

/* What a text may be. */
typedef struct Allowed {
    int32 max_depth; /* 1 to 256 */
    int64 max_bytes; /* 1 to 2^60 */
} Allowed;

/* An error of the statement, which says what limits there are: where the library allows none such. */
HIDDEN void wants_allowed(const Allowed *allowed, bool is_begun);

/* The report of what the pieces have, which are read as far as the question needs, and end. Where the question is IS_IT_VALID, only that is
 * known of it. Limits that are not allowed are an error of the statement. */
HIDDEN geolint_report judge(Pieces *pieces, Question question, const Allowed *allowed);

#endif
