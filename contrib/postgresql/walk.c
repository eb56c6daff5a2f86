/* Walks over the features of a value: each query that asks for them has a linter of its own, since it stops at each. */
#include "walk.h"

Walk *begin_walk(Coding coding, Datum value, const Allowed *allowed) {
    Walk *walk = palloc0(sizeof *walk);
    Size alignment = geolint_alignment();
    walk->features = (geolint_features *)TYPEALIGN(alignment, (char *)palloc(geolint_features_size() + alignment));
    wants_allowed(allowed, geolint_features_begin(walk->features, (uint32)allowed->max_depth, (uint64)allowed->max_bytes) == GEOLINT_DONE);
    walk->is_open = true;
    begin_value(&walk->pieces, coding, value);
    return walk;
}

bool next_feature(Walk *walk, geolint_finding *finding) {
    for (;;) {
        geolint_progress progress;
        *finding = geolint_features_next(walk->features);
        if (finding->report.status == GEOLINT_DONE)
            return true;
        if (!walk->is_open || (walk->length == 0 && !next_piece(&walk->pieces, &walk->bytes, &walk->length))) {
            end_pieces(&walk->pieces);
            walk->is_open = false;
            return false;
        }
        progress = geolint_features_feed(walk->features, walk->bytes, walk->length);
        walk->bytes += progress.taken;
        walk->length -= progress.taken;
        walk->is_open = progress.status == GEOLINT_DONE;
    }
}
