/* Feeds a value to the linter of this backend, piece by piece. */
#include "judge.h"

#include <utils/memutils.h>

/* The linter of this backend. A text is fed from its beginning to its end by one call, so one linter is enough; one that an error
 * left in the midst of a text begins again at the next. */
static geolint_linter *linter = NULL;

static void make_linter(void) {
    static MemoryContext context = NULL;
    Size alignment = geolint_alignment();
    if (!context)
        context = AllocSetContextCreate(TopMemoryContext, "geolint", ALLOCSET_SMALL_SIZES);
    char *memory = MemoryContextAlloc(context, geolint_size() + alignment);
    linter = (geolint_linter *)TYPEALIGN(alignment, memory);
    geolint_begin(linter, 0, 0);
}

void wants_allowed(const Allowed *allowed, bool is_begun) {
    /* 0 stands for the most of either in the library. */
    if (!is_begun || allowed->max_depth < 1 || allowed->max_bytes < 1)
        ereport(ERROR, errcode(ERRCODE_INVALID_PARAMETER_VALUE),
                errmsg("max_depth is from 1 to 256, and max_bytes from 1 to 1152921504606846976"));
}

geolint_report judge(Pieces *pieces, Question question, const Allowed *allowed) {
    const char *bytes;
    Size length;
    bool is_open = true;
    if (!linter)
        make_linter();
    wants_allowed(allowed, geolint_begin_again(linter, (uint32)allowed->max_depth, (uint64)allowed->max_bytes) == GEOLINT_DONE);
    while (is_open && next_piece(pieces, &bytes, &length))
        is_open = geolint_feed(linter, bytes, length) == GEOLINT_DONE && !(question == IS_IT_VALID && geolint_doomed(linter));
    end_pieces(pieces);
    return geolint_finish(linter);
}
