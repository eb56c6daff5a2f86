/* What is found in each feature of a value of a column, one at a time. */
#ifndef WALK_H
#define WALK_H

#include "judge.h"

/* A text under way, of which the features that have ended are reported. */
typedef struct Walk {
    Pieces pieces;
    geolint_features *features;
    const char *bytes; /* what is left of the piece under way */
    Size length;
    bool is_open; /* more of the text is to be fed */
} Walk;

/* Begins to walk over a value, in the memory context of the call, which all further calls are made in. Limits that are not allowed are an
 * error of the statement. */
HIDDEN Walk *begin_walk(Coding coding, Datum value, const Allowed *allowed);

/* The next feature; false where the text has no more, or is refused. */
HIDDEN bool next_feature(Walk *walk, geolint_finding *finding);

#endif
