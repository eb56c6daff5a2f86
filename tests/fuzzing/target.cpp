// A fuzz target over the static library: a linter that is fed in random pieces says what geolint_check says of the whole text.
//
// Each piece lies against a page that may not be read, so a read beyond it ends the run. The library is compiled without counters
// of coverage: a breakpoint at the start of each of its basic blocks (a list made by blocks.py, its name in GEOLINT_BLOCKS) counts
// the first time that one is run, which costs nothing afterwards.
#include <algorithm>
#include <csignal>
#include <cstdint>
#include <cstdio>
#include <cstdlib>
#include <cstring>
#include <vector>

#include <sys/mman.h>
#include <ucontext.h>
#include <unistd.h>

#include "geolint.h"

namespace {

constexpr size_t most_blocks = 1 << 16;
constexpr size_t most_features = 4096;
__attribute__((used, section("__libfuzzer_extra_counters"))) volatile uint8_t counters[most_blocks + most_features];

struct Block {
    uint8_t *at;
    uint8_t byte;
};
std::vector<Block> blocks;

// A block is run for the first time: it is counted, and its first byte is put back.
void reached(int, siginfo_t *, void *context) {
    auto &next = static_cast<ucontext_t *>(context)->uc_mcontext.gregs[REG_RIP];
    auto *at = reinterpret_cast<uint8_t *>(next - 1);
    auto found = std::lower_bound(blocks.begin(), blocks.end(), at, [](const Block &it, uint8_t *to) { return it.at < to; });
    if (found == blocks.end() || found->at != at) {
        abort();
    }
    *at = found->byte;
    counters[found - blocks.begin()] = 1;
    next -= 1;
}

[[noreturn]] void fails(const char *what) {
    fprintf(stderr, "geolint differs: %s\n", what);
    abort();
}

// Random numbers by the text alone, so that a text that fails does so again.
struct Dice {
    uint64_t state;
    uint64_t roll(uint64_t sides) {
        state ^= state << 13;
        state ^= state >> 7;
        state ^= state << 17;
        return state % sides;
    }
};

uint64_t hash(const uint8_t *data, size_t size) {
    uint64_t sum = 0xcbf29ce484222325;
    for (size_t at = 0; at < size; at++) {
        sum = (sum ^ data[at]) * 0x100000001b3;
    }
    return sum ? sum : 1;
}

// Room between two pages that may not be read or written.
struct Room {
    static constexpr size_t size = 1 << 20;
    uint8_t *begin;
    Room() {
        const size_t page = sysconf(_SC_PAGESIZE);
        auto *all = static_cast<uint8_t *>(mmap(nullptr, size + 2 * page, PROT_NONE, MAP_PRIVATE | MAP_ANONYMOUS, -1, 0));
        if (all == MAP_FAILED || mprotect(all + page, size, PROT_READ | PROT_WRITE) != 0) {
            fails("there is no memory");
        }
        begin = all + page;
    }
    // The bytes, at one end of the room.
    const uint8_t *with(const uint8_t *data, size_t length, bool at_end) {
        auto *to = at_end ? begin + size - length : begin;
        return static_cast<const uint8_t *>(memcpy(to, data, length));
    }
};

struct Limits {
    uint32_t depth;
    uint64_t bytes;
};

geolint_report whole(Room &room, const uint8_t *data, size_t size, Limits limits) {
    return geolint_check(room.with(data, size, true), size, limits.depth, limits.bytes);
}

// What a linter says that is fed in random pieces, and that what it said before the end is right.
geolint_report in_pieces(Room &room, geolint_linter *linter, const uint8_t *data, size_t size, Dice &dice) {
    const uint64_t most = dice.roll(3) == 0 ? 1 : 1 + dice.roll(dice.roll(2) ? 16 : 400);
    bool is_refused = false, is_doomed = false;
    uint64_t offset = 0;
    for (size_t at = 0; at < size;) {
        const size_t length = std::min<size_t>(size - at, dice.roll(most + 1));
        const uint32_t status = geolint_feed(linter, room.with(data + at, length, dice.roll(2)), length);
        at += length;
        if (status != GEOLINT_DONE && status != GEOLINT_REFUSED) {
            fails("a piece is neither taken nor refused");
        }
        if (is_refused && (status != GEOLINT_REFUSED || geolint_offset(linter) != offset)) {
            fails("a refusal is taken back");
        }
        is_refused = status == GEOLINT_REFUSED;
        offset = geolint_offset(linter);
        if (is_refused ? offset > at : offset != at) {
            fails("the bytes taken are not those that were fed");
        }
        if (is_doomed && !geolint_doomed(linter)) {
            fails("doom is taken back");
        }
        is_doomed = geolint_doomed(linter);
    }
    const geolint_report report = geolint_finish(linter);
    if (is_doomed && report.verdict == GEOLINT_VALID) {
        fails("a doomed text is valid");
    }
    if (is_refused && (report.verdict != GEOLINT_NOT_JSON || report.place != offset)) {
        fails("a refused text has another verdict");
    }
    return report;
}

geolint_linter *linter_in_room(Room &room) {
    const size_t alignment = geolint_alignment(), size = (geolint_size() + alignment - 1) / alignment * alignment;
    return reinterpret_cast<geolint_linter *>(room.begin + Room::size - size);
}

} // namespace

extern "C" int LLVMFuzzerInitialize(int *, char ***) {
    const char *name = getenv("GEOLINT_BLOCKS");
    FILE *list = name ? fopen(name, "r") : nullptr;
    if (!list) {
        return 0;
    }
    struct sigaction action = {};
    action.sa_sigaction = reached;
    action.sa_flags = SA_SIGINFO;
    sigaction(SIGTRAP, &action, nullptr);
    for (unsigned long at; fscanf(list, "%lx", &at) == 1 && blocks.size() < most_blocks;) {
        auto *byte = reinterpret_cast<uint8_t *>(at);
        blocks.push_back({byte, *byte});
    }
    fclose(list);
    const uintptr_t page = sysconf(_SC_PAGESIZE);
    for (const Block &block : blocks) {
        auto *start = reinterpret_cast<void *>(reinterpret_cast<uintptr_t>(block.at) / page * page);
        if (mprotect(start, page, PROT_READ | PROT_WRITE | PROT_EXEC) != 0) {
            fails("breakpoints are not allowed");
        }
        *block.at = 0xcc;
    }
    fprintf(stderr, "geolint: %zu blocks of the library are counted\n", blocks.size());
    return 0;
}

extern "C" int LLVMFuzzerTestOneInput(const uint8_t *data, size_t size) {
    static Room room, other;
    static geolint_linter *linter = linter_in_room(other);
    static bool is_begun = false;
    if (size > Room::size) {
        return 0;
    }
    Dice dice = {hash(data, size)};
    const Limits limits = {dice.roll(8) ? 0 : static_cast<uint32_t>(1 + dice.roll(8)), dice.roll(8) ? 0 : 1 + dice.roll(size + 2)};
    const geolint_report wanted = whole(room, data, size, limits);
    const auto begin = is_begun && dice.roll(2) ? geolint_begin_again : geolint_begin;
    is_begun = true;
    if (begin(linter, limits.depth, limits.bytes) != GEOLINT_DONE) {
        fails("a linter cannot be begun");
    }
    const geolint_report got = in_pieces(room, linter, data, size, dice);
    if (memcmp(&got, &wanted, sizeof got) != 0) {
        fails("the pieces and the whole have two verdicts");
    }
    if (wanted.status != GEOLINT_DONE || wanted.verdict < GEOLINT_VALID || wanted.verdict > GEOLINT_NOT_JSON) {
        fails("there is no verdict");
    }
    // Each verdict, and each set of kinds of warning, is a feature too.
    size_t kinds = 0;
    for (size_t kind = 0; kind < GEOLINT_KINDS; kind++) {
        kinds |= size_t(wanted.warnings[kind].count != 0) << kind;
    }
    counters[most_blocks + (wanted.verdict == GEOLINT_VALID ? 256 + kinds : wanted.rule + 32 * wanted.cause) % most_features] = 1;
    return 0;
}
