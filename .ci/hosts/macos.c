/* The library of macOS under Linux: the calls of geolint.h by the code of the dylib that the variable GEOLINT_DYLIB names, loaded into memory
 * as dyld would. It stands in for a Mac, which tests have not: it shows that the code, the places that are to be moved and the calls are
 * right, and not that dyld, the code signature and Gatekeeper agree. A host is linked with it in place of the library.
 *
 * CALLS names a file with CALL(..) for each call.
 */
#include <stdint.h>
#include <stdio.h>
#include <stdlib.h>
#include <string.h>
#include <sys/mman.h>
#include <unistd.h>

#ifdef __x86_64__
#define CPU 0x01000007u
#define CALL(name) \
    void *at_##name; \
    __asm__(".text\n.globl " #name "\n.type " #name ", @function\n" #name ": jmp *at_" #name "(%rip)\n");
#else
#define CPU 0x0100000cu
#define CALL(name) \
    void *at_##name; \
    __asm__(".text\n.globl " #name "\n.type " #name ", %function\n" #name ": adrp x16, at_" #name "\nldr x16, [x16, :lo12:at_" #name "]\nbr x16\n");
#endif
/* Only the calls are seen from without. */
#pragma GCC visibility push(hidden)
#include CALLS
#pragma GCC visibility pop
#undef CALL

/* What of the format is read here, by its names. */
enum { MH_MAGIC_64 = 0xfeedfacf, FAT_MAGIC = 0xcafebabe, LC_SYMTAB = 2, LC_SEGMENT_64 = 0x19, LC_DYLD_INFO_ONLY = 0x80000022, N_TYPE_EXT = 0x0f, MOST_SEGMENTS = 8 };
struct header {
    uint32_t magic, cpu, subtype, kind, commands, commands_size, flags, reserved;
};
struct segment {
    uint32_t command, size;
    char name[16];
    uint64_t address, memory_size, offset, file_size;
    uint32_t most_protection, protection, sections, flags;
};
struct info {
    uint32_t command, size, rebase, rebase_size, bind, bind_size, weak, weak_size, lazy, lazy_size, exports, exports_size;
};
struct symbols {
    uint32_t command, size, offset, count, strings, strings_size;
};
struct symbol {
    uint32_t name;
    uint8_t type, section;
    uint16_t description;
    uint64_t address;
};

static const uint8_t *image;
static uint8_t *base;
static struct segment segments[MOST_SEGMENTS];
static int segment_count;
static struct info info;
static struct symbols symbols;

static void fail(const char *what, const char *which) {
    fprintf(stderr, "macos.c: %s: %s\n", what, which);
    exit(9);
}

/* ---- the functions of the system that the library may ask for */

extern unsigned __int128 __udivti3(unsigned __int128, unsigned __int128);
static void zero(void *at, size_t size) { memset(at, 0, size); }

static void *system_function(const char *name) {
    static const struct {
        const char *name;
        void *at;
    } known[] = {{"_memcpy", memcpy}, {"_memmove", memmove}, {"_memset", memset}, {"_memcmp", memcmp}, {"_bcmp", memcmp}, {"_bzero", zero}, {"___bzero", zero}, {"___udivti3", __udivti3},
        {"dyld_stub_binder", abort}};
    for (size_t i = 0; i < sizeof known / sizeof *known; i++)
        if (!strcmp(known[i].name, name))
            return known[i].at;
    fail("the library asks for", name);
    return NULL;
}

/* ---- the file */

static uint32_t big_endian(const uint8_t *at) { return (uint32_t)at[0] << 24 | (uint32_t)at[1] << 16 | (uint32_t)at[2] << 8 | at[3]; }

/* The part of a universal file that is for this processor. */
static const uint8_t *slice(const uint8_t *file) {
    if (big_endian(file) != FAT_MAGIC)
        return file;
    for (uint32_t i = 0; i < big_endian(file + 4); i++) {
        const uint8_t *entry = file + 8 + 20 * i;
        if (big_endian(entry) == CPU)
            return file + big_endian(entry + 8);
    }
    fail("the library has nothing for", "this processor");
    return NULL;
}

static const uint8_t *read_file(const char *path) {
    FILE *file = fopen(path, "rb");
    long size = 0;
    uint8_t *bytes = NULL;
    if (!file || fseek(file, 0, SEEK_END) || (size = ftell(file)) < (long)sizeof(struct header))
        fail("cannot be read", path);
    rewind(file);
    bytes = malloc((size_t)size);
    if (!bytes || fread(bytes, 1, (size_t)size, file) != (size_t)size)
        fail("cannot be read", path);
    fclose(file);
    return bytes;
}

static void read_commands(void) {
    struct header header;
    memcpy(&header, image, sizeof header);
    if (header.magic != MH_MAGIC_64 || header.cpu != CPU)
        fail("no library", "for this processor");
    const uint8_t *at = image + sizeof header;
    for (uint32_t i = 0; i < header.commands; i++) {
        uint32_t command[2];
        memcpy(command, at, sizeof command);
        if (command[0] == LC_SEGMENT_64 && segment_count < MOST_SEGMENTS)
            memcpy(&segments[segment_count++], at, sizeof *segments);
        if (command[0] == LC_DYLD_INFO_ONLY)
            memcpy(&info, at, sizeof info);
        if (command[0] == LC_SYMTAB)
            memcpy(&symbols, at, sizeof symbols);
        at += command[1];
    }
}

static void map_segments(void) {
    uint64_t end = 0;
    for (int i = 0; i < segment_count; i++)
        if (segments[i].address + segments[i].memory_size > end)
            end = segments[i].address + segments[i].memory_size;
    base = mmap(NULL, end, PROT_READ | PROT_WRITE, MAP_PRIVATE | MAP_ANONYMOUS, -1, 0);
    if (base == MAP_FAILED)
        fail("no memory", "for the library");
    for (int i = 0; i < segment_count; i++)
        memcpy(base + segments[i].address, image + segments[i].offset, segments[i].file_size);
}

static void protect_segments(void) {
    for (int i = 0; i < segment_count; i++) {
        const struct segment *it = &segments[i];
        int protection = (it->protection & 1 ? PROT_READ : 0) | (it->protection & 2 ? PROT_WRITE : 0) | (it->protection & 4 ? PROT_EXEC : 0);
        __builtin___clear_cache((char *)base + it->address, (char *)base + it->address + it->memory_size);
        if (it->memory_size && mprotect(base + it->address, it->memory_size, protection))
            fail("cannot be protected", it->name);
    }
}

/* ---- what has to be moved, and what is asked for: two lists of steps, each of a byte with what follows it */

static uint64_t number(const uint8_t **at) {
    uint64_t value = 0;
    for (int shift = 0;; shift += 7) {
        value |= (uint64_t)(**at & 0x7f) << shift;
        if (!(*(*at)++ & 0x80))
            return value;
    }
}

/* Adds the place of the library to so many words, each `stride` after the one before. */
static uint8_t *move(uint8_t *at, uint64_t count, uint64_t stride) {
    for (; count > 0; count--, at += stride) {
        uint64_t word;
        memcpy(&word, at, sizeof word);
        word += (uint64_t)base;
        memcpy(at, &word, sizeof word);
    }
    return at;
}

static void rebase(const uint8_t *step, const uint8_t *end) {
    uint8_t *at = NULL;
    uint64_t count;
    while (step < end) {
        uint8_t low = *step & 0x0f;
        switch (*step++ & 0xf0) {
        case 0x00: return;
        case 0x10: break;
        case 0x20: at = base + segments[low].address + number(&step); break;
        case 0x30: at += number(&step); break;
        case 0x40: at += low * 8; break;
        case 0x50: at = move(at, low, 8); break;
        case 0x60: at = move(at, number(&step), 8); break;
        case 0x70: at = move(at, 1, 8) + number(&step); break;
        case 0x80:
            count = number(&step);
            at = move(at, count, 8 + number(&step));
            break;
        default: fail("a step that is not known", "of what is moved");
        }
    }
}

/* Writes the address of a function to so many words. */
static uint8_t *put(uint8_t *at, const char *name, uint64_t count, uint64_t stride) {
    for (void *function = system_function(name); count > 0; count--, at += stride)
        memcpy(at, &function, sizeof function);
    return at;
}

static void bind(const uint8_t *step, const uint8_t *end, int is_lazy) {
    uint8_t *at = NULL;
    const char *name = "";
    uint64_t count;
    while (step < end) {
        uint8_t low = *step & 0x0f;
        switch (*step++ & 0xf0) {
        case 0x00:
            /* Of what is bound late each has an end. */
            if (!is_lazy)
                return;
            break;
        case 0x10: case 0x30: case 0x50: break;
        case 0x20: case 0x60: number(&step); break;
        case 0x40:
            name = (const char *)step;
            step += strlen(name) + 1;
            break;
        case 0x70: at = base + segments[low].address + number(&step); break;
        case 0x80: at += number(&step); break;
        case 0x90: at = put(at, name, 1, 8); break;
        case 0xa0: at = put(at, name, 1, 8) + number(&step); break;
        case 0xb0: at = put(at, name, 1, 8) + low * 8; break;
        case 0xc0:
            count = number(&step);
            at = put(at, name, count, 8 + number(&step));
            break;
        default: fail("a step that is not known", "of what is asked for");
        }
    }
}

/* ---- the calls */

static void *call(const char *name) {
    for (uint32_t i = 0; i < symbols.count; i++) {
        struct symbol symbol;
        memcpy(&symbol, image + symbols.offset + i * sizeof symbol, sizeof symbol);
        /* A name there begins with a _ of its own. */
        if ((symbol.type & N_TYPE_EXT) == N_TYPE_EXT && !strcmp((const char *)image + symbols.strings + symbol.name + 1, name))
            return base + symbol.address;
    }
    fail("the library has no call", name);
    return NULL;
}

__attribute__((constructor)) static void load(void) {
    const char *path = getenv("GEOLINT_DYLIB");
    if (!path)
        fail("no variable", "GEOLINT_DYLIB");
    image = slice(read_file(path));
    read_commands();
    map_segments();
    rebase(image + info.rebase, image + info.rebase + info.rebase_size);
    bind(image + info.bind, image + info.bind + info.bind_size, 0);
    bind(image + info.lazy, image + info.lazy + info.lazy_size, 1);
    protect_segments();
#define CALL(name) at_##name = call(#name);
#include CALLS
}
