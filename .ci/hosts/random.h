/* Random numbers for the programs that make inputs. */
#include <stdint.h>

static uint64_t state;

/* xorshift64*: the same numbers on each machine. */
static uint32_t below(uint32_t most) {
    state ^= state >> 12;
    state ^= state << 25;
    state ^= state >> 27;
    return (uint32_t)((state * UINT64_C(2685821657736338717)) >> 32) % most;
}
