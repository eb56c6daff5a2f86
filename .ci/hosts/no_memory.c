/* Where there is no memory, geolint_new and the classes of C++ say so: C99, and C++11 too. */
#include <stdlib.h>

static void *no_memory(size_t size) {
    (void)size;
    return NULL;
}

#define malloc(size) no_memory(size)
#ifdef __cplusplus
#include <geolint.hpp>

int main() {
    geolint::Linter linter;
    geolint::Features features;
    geolint::Records records(GEOLINT_SEQUENCE);
    geolint::Locator locator;
    for (geolint::Finding finding : features.feed("1", 1))
        return finding.number() + 1 > 0;
    for (geolint::Finding finding : records.feed("1", 1))
        return finding.number() + 1 > 0;
    return geolint_new(0, 0) != NULL || linter || linter.feed("1", 1) || linter.finish().judged() || features || features.finish().judged() || records ||
           records.finish().judged() || locator || locator.feed("1", 1) || locator.path() != "$";
}
#else
#include <geolint.h>

int main(void) {
    return geolint_new(0, 0) != NULL;
}
#endif
