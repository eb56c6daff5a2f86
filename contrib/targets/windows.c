/* What a program in Rattle asks of Linux's C library, on Windows: files, folders, words, clocks and memory, with Linux's numbers.
 *
 * Names are UTF-8 in the program and UTF-16 in Windows. Windows also has names that are no Unicode text; their bytes are none either, and
 * the program says so. windows.py writes the calls: under these names, and by Linux's calling convention. */
#define WIN32_LEAN_AND_MEAN
#include <windows.h>

#include <shellapi.h>
#include <stdint.h>
#include <stdio.h>
#include <stdlib.h>
#include <string.h>
#ifdef __x86_64__
#include <cpuid.h>
#define ASKED(result, name) __attribute__((sysv_abi)) result posix_##name
#else
#define ASKED(result, name) result posix_##name
#endif

/* ---- errors: Linux's numbers, and its words */

static const struct {
    int number;
    const char *text;
} errors[] = {
#define ERROR_OF(name, number, text) {number, text},
#define ERRORS(it) \
    it(NO_ENTRY, 2, "No such file or directory") it(IO, 5, "Input/output error") it(BAD_FILE, 9, "Bad file descriptor") \
    it(NO_MEMORY, 12, "Cannot allocate memory") it(NO_ACCESS, 13, "Permission denied") it(EXISTS, 17, "File exists") \
    it(NO_FOLDER, 20, "Not a directory") it(IS_FOLDER, 21, "Is a directory") it(INVALID, 22, "Invalid argument") \
    it(TOO_MANY_FILES, 24, "Too many open files") it(TOO_LARGE, 27, "File too large") it(NO_SPACE, 28, "No space left on device") \
    it(NO_SEEK, 29, "Illegal seek") it(NO_READER, 32, "Broken pipe") it(TOO_LONG, 36, "File name too long") \
    it(NOT_EMPTY, 39, "Directory not empty") it(LINKS, 40, "Too many levels of symbolic links") \
    it(NO_TEXT, 84, "Invalid or incomplete multibyte or wide character")
    ERRORS(ERROR_OF)};
#define NUMBER_OF(name, number, text) E_##name = number,
enum { ERRORS(NUMBER_OF) };

static __thread int32_t error_number;

static int fail(int number) {
    error_number = number;
    return -1;
}

/* Fails as the last call of Windows did. */
static int fail_as_windows(void) {
    switch (GetLastError()) {
    case ERROR_FILE_NOT_FOUND:
    case ERROR_PATH_NOT_FOUND:
    case ERROR_INVALID_NAME:
    case ERROR_BAD_NETPATH:
    case ERROR_BAD_NET_NAME:
    case ERROR_BAD_PATHNAME:
    case ERROR_INVALID_DRIVE:
    case ERROR_NOT_READY: return fail(E_NO_ENTRY);
    case ERROR_ACCESS_DENIED:
    case ERROR_SHARING_VIOLATION:
    case ERROR_LOCK_VIOLATION:
    case ERROR_WRITE_PROTECT: return fail(E_NO_ACCESS);
    case ERROR_BROKEN_PIPE:
    case ERROR_PIPE_NOT_CONNECTED:
    case ERROR_NO_DATA: return fail(E_NO_READER);
    case ERROR_FILE_EXISTS:
    case ERROR_ALREADY_EXISTS: return fail(E_EXISTS);
    case ERROR_INVALID_FUNCTION: return fail(E_IS_FOLDER); /* a folder is read */
    case ERROR_DIRECTORY: return fail(E_NO_FOLDER);
    case ERROR_DIR_NOT_EMPTY: return fail(E_NOT_EMPTY);
    case ERROR_HANDLE_DISK_FULL:
    case ERROR_DISK_FULL: return fail(E_NO_SPACE);
    case ERROR_CANT_RESOLVE_FILENAME: return fail(E_LINKS);
    case ERROR_TOO_MANY_OPEN_FILES: return fail(E_TOO_MANY_FILES);
    case ERROR_INVALID_HANDLE: return fail(E_BAD_FILE);
    case ERROR_FILENAME_EXCED_RANGE: return fail(E_TOO_LONG);
    case ERROR_NOT_ENOUGH_MEMORY:
    case ERROR_OUTOFMEMORY: return fail(E_NO_MEMORY);
    default: return fail(E_IO);
    }
}

static int done(BOOL is_done) {
    return is_done ? 0 : fail_as_windows();
}

ASKED(int32_t, rattle_errno)(void) {
    return error_number;
}

ASKED(void, rattle_set_errno)(int32_t number) {
    error_number = number;
}

ASKED(int32_t, __xpg_strerror_r)(int32_t number, char *bytes, int64_t size) {
    const char *text = "Unknown error";
    for (size_t i = 0; i < sizeof errors / sizeof *errors; i++)
        if (errors[i].number == number) text = errors[i].text;
    snprintf(bytes, (size_t)size, "%s", text);
    return 0;
}

/* ---- names */

/* A name in the program has at most 4,095 bytes. The folder in which the program runs may come before it. */
enum { MOST_BYTES = 4096, MOST_WIDE = 2 * MOST_BYTES };

/* From this many characters on, Windows wants the whole path, and a mark before it. */
enum { WHOLE_FROM = 240 };

/* The name as Windows takes it, or NULL. */
static WCHAR *wide(const char *name, WCHAR to[MOST_WIDE]) {
    WCHAR given[MOST_BYTES], whole[MOST_WIDE];
    if (!*name) return fail(E_NO_ENTRY), NULL;
    if (!MultiByteToWideChar(CP_UTF8, MB_ERR_INVALID_CHARS, name, -1, given, MOST_BYTES)) return fail(E_NO_TEXT), NULL;
    for (WCHAR *it = given; *it; it++)
        if (*it == '/') *it = '\\';
    DWORD size = GetFullPathNameW(given, MOST_WIDE - 8, whole, NULL);
    if (size >= MOST_WIDE - 8) return fail(E_TOO_LONG), NULL;
    BOOL is_marked = !wcsncmp(given, L"\\\\?\\", 4) || !wcsncmp(whole, L"\\\\.\\", 4);
    if (is_marked || size < WHOLE_FROM)
        wcscpy(to, given);
    else if (!wcsncmp(whole, L"\\\\", 2))
        wcscat(wcscpy(to, L"\\\\?\\UNC"), whole + 1);
    else
        wcscat(wcscpy(to, L"\\\\?\\"), whole);
    return to;
}

/* A text as UTF-8, as much of it as there is room for, and how many bytes it has. Half of a pair has three bytes, which are no UTF-8. */
static int64_t narrow(const WCHAR *text, char *bytes, int64_t room) {
    int64_t size = 0;
    for (; *text; text++) {
        uint32_t it = *text;
        if (it >= 0xD800 && it < 0xDC00 && text[1] >= 0xDC00 && text[1] < 0xE000)
            it = 0x10000 + ((it - 0xD800) << 10) + (*++text - 0xDC00);
        int more = it < 0x80 ? 0 : it < 0x800 ? 1 : it < 0x10000 ? 2 : 3;
        static const uint8_t first[] = {0, 0xC0, 0xE0, 0xF0};
        for (int left = more; left >= 0; left--, size++)
            if (size < room) bytes[size] = (char)(left == more ? first[more] | it >> 6 * left : 0x80 | (it >> 6 * left & 0x3F));
    }
    return size;
}

/* The same where Linux answers a size, and -2 where there is too little room. */
static int64_t answered(const WCHAR *text, char *bytes, int64_t room) {
    int64_t size = narrow(text, bytes, room);
    return size > room ? -2 : size;
}

/* ---- descriptors */

typedef struct {
    HANDLE handle;
    BOOL is_terminal;
    char waiting[4]; /* of a terminal: the begin of a character */
    int waits;
    WCHAR *folder; /* of a folder: its path, and the names in it that are still to be given, each ended by NUL */
    char *names;
    int64_t names_begin, names_end, names_room;
} descriptor;

enum { MOST = 512 };
static descriptor files[MOST];

/* The three that a program begins with. A terminal is one that obeys colours. */
__attribute__((constructor)) static void begin(void) {
    static const DWORD standard[] = {STD_INPUT_HANDLE, STD_OUTPUT_HANDLE, STD_ERROR_HANDLE};
    static const DWORD obeys = ENABLE_PROCESSED_OUTPUT | ENABLE_VIRTUAL_TERMINAL_PROCESSING;
    for (int i = 0; i < 3; i++) {
        DWORD mode;
        HANDLE it = GetStdHandle(standard[i]);
        files[i].handle = it == INVALID_HANDLE_VALUE ? NULL : it;
        files[i].is_terminal = GetConsoleMode(it, &mode) && (i == 0 || SetConsoleMode(it, mode | obeys));
    }
}

static descriptor *at(int fd) {
    descriptor *it = fd >= 0 && fd < MOST && files[fd].handle ? files + fd : NULL;
    if (!it) fail(E_BAD_FILE);
    return it;
}

static int put(descriptor made) {
    for (int i = 3; i < MOST; i++)
        if (!files[i].handle) return files[i] = made, i;
    return fail(E_TOO_MANY_FILES);
}

ASKED(int32_t, close)(int32_t fd) {
    descriptor *it = at(fd);
    if (!it) return -1;
    if (!it->folder) CloseHandle(it->handle);
    free(it->folder);
    free(it->names);
    memset(it, 0, sizeof *it);
    return 0;
}

/* ---- files */

enum { WRITE_ONLY = 1, READ_WRITE = 2, CREATE = 0100, EXCLUSIVE = 0200, TRUNCATE = 01000 };

static const DWORD SHARED = FILE_SHARE_READ | FILE_SHARE_WRITE | FILE_SHARE_DELETE;

ASKED(int32_t, open)(const char *name, int32_t flags, ...) {
    WCHAR path[MOST_WIDE];
    descriptor made = {0};
    if (!wide(name, path)) return -1;
    DWORD wants = flags & WRITE_ONLY ? GENERIC_WRITE : flags & READ_WRITE ? GENERIC_READ | GENERIC_WRITE : GENERIC_READ;
    DWORD how = OPEN_EXISTING;
    if (flags & CREATE)
        how = flags & EXCLUSIVE ? CREATE_NEW : flags & TRUNCATE ? CREATE_ALWAYS : OPEN_ALWAYS;
    else if (flags & TRUNCATE)
        how = TRUNCATE_EXISTING;
    made.handle = CreateFileW(path, wants, SHARED, NULL, how, FILE_ATTRIBUTE_NORMAL | FILE_FLAG_BACKUP_SEMANTICS, NULL);
    if (made.handle == INVALID_HANDLE_VALUE) return fail_as_windows();
    int fd = put(made);
    if (fd < 0) CloseHandle(made.handle);
    return fd;
}

/* As many bytes as one call of Windows takes. */
static DWORD at_once(int64_t size) {
    return size > 1 << 30 ? 1 << 30 : (DWORD)size;
}

static int64_t read_at(HANDLE it, void *bytes, int64_t size, OVERLAPPED *from) {
    DWORD count = 0;
    if (ReadFile(it, bytes, at_once(size), &count, from)) return count;
    DWORD why = GetLastError();
    return why == ERROR_BROKEN_PIPE || why == ERROR_HANDLE_EOF ? 0 : fail_as_windows();
}

ASKED(int64_t, read)(int32_t fd, void *bytes, int64_t size) {
    descriptor *it = at(fd);
    return it ? read_at(it->handle, bytes, size, NULL) : -1;
}

/* Where the next read begins stays as it was. */
ASKED(int64_t, pread)(int32_t fd, void *bytes, int64_t size, int64_t offset) {
    descriptor *it = at(fd);
    OVERLAPPED from = {0};
    LARGE_INTEGER zero = {0}, next;
    if (!it) return -1;
    from.Offset = (DWORD)offset;
    from.OffsetHigh = (DWORD)(offset >> 32);
    if (!SetFilePointerEx(it->handle, zero, &next, FILE_CURRENT)) return fail_as_windows();
    int64_t count = read_at(it->handle, bytes, size, &from);
    SetFilePointerEx(it->handle, next, NULL, FILE_BEGIN);
    return count;
}

/* Writes UTF-8 to a terminal, whatever its code page is. A character that is cut at the end waits for its rest. */
static int64_t write_terminal(descriptor *it, const char *bytes, int64_t size) {
    enum { PIECE = 4096 };
    char text[PIECE + 4];
    WCHAR shown[PIECE + 4];
    DWORD written;
    int taken = size > PIECE ? PIECE : (int)size, whole = it->waits + taken, end = whole - 1;
    if (!taken) return 0;
    memcpy(text, it->waiting, (size_t)it->waits);
    memcpy(text + it->waits, bytes, (size_t)taken);
    while (end > 0 && whole - end < 4 && (text[end] & 0xC0) == 0x80) end--;
    uint8_t first = (uint8_t)text[end];
    if (end + (first < 0xC0 ? 1 : first < 0xE0 ? 2 : first < 0xF0 ? 3 : 4) <= whole) end = whole;
    int count = end ? MultiByteToWideChar(CP_UTF8, 0, text, end, shown, PIECE + 4) : 0;
    if (count && !WriteConsoleW(it->handle, shown, (DWORD)count, &written, NULL)) return fail_as_windows();
    it->waits = whole - end;
    memcpy(it->waiting, text + end, (size_t)it->waits);
    return taken;
}

ASKED(int64_t, write)(int32_t fd, const void *bytes, int64_t size) {
    descriptor *it = at(fd);
    DWORD count = 0;
    if (!it) return -1;
    if (it->is_terminal) return write_terminal(it, bytes, size);
    return WriteFile(it->handle, bytes, at_once(size), &count, NULL) ? (int64_t)count : fail_as_windows();
}

ASKED(int64_t, __write)(int32_t fd, const void *bytes, int64_t size) {
    return posix_write(fd, bytes, size);
}

ASKED(int64_t, rattle_write_no_sigpipe)(int32_t fd, const void *bytes, int64_t size) {
    return posix_write(fd, bytes, size);
}

ASKED(int64_t, lseek)(int32_t fd, int64_t offset, int32_t whence) {
    descriptor *it = at(fd);
    LARGE_INTEGER to, now;
    if (!it) return -1;
    if (GetFileType(it->handle) != FILE_TYPE_DISK) return fail(E_NO_SEEK);
    to.QuadPart = offset;
    return SetFilePointerEx(it->handle, to, &now, (DWORD)whence) ? now.QuadPart : fail_as_windows();
}

ASKED(int32_t, isatty)(int32_t fd) {
    descriptor *it = at(fd);
    return it && it->is_terminal;
}

static int remove_file(const WCHAR *path) {
    if (DeleteFileW(path)) return 0;
    int status = fail_as_windows();
    DWORD is = GetFileAttributesW(path);
    return is != INVALID_FILE_ATTRIBUTES && is & FILE_ATTRIBUTE_DIRECTORY ? fail(E_IS_FOLDER) : status;
}

ASKED(int32_t, unlink)(const char *name) {
    WCHAR path[MOST_WIDE];
    return wide(name, path) ? remove_file(path) : -1;
}

ASKED(int32_t, rename)(const char *from, const char *to) {
    WCHAR source[MOST_WIDE], target[MOST_WIDE];
    return wide(from, source) && wide(to, target) ? done(MoveFileExW(source, target, MOVEFILE_REPLACE_EXISTING)) : -1;
}

/* ---- what is known of a file: Linux's structure, as far as std reads it */

typedef struct {
    int64_t seconds;
    uint32_t nanoseconds;
    int32_t spare;
} moment;

typedef struct {
    uint32_t mask, block_size;
    uint64_t attributes;
    uint32_t links, user, group;
    uint16_t mode, spare;
    uint64_t number, size, blocks, attributes_mask;
    moment accessed, created, changed, modified;
    uint32_t special_major, special_minor, device_major, device_minor;
    uint64_t rest[14];
} known;

enum { ALL_KNOWN = 0xFFF, NO_FOLLOW = 0x100, EMPTY_PATH = 0x1000 };
enum { PIPE = 0010000, DEVICE = 0020000, FOLDER = 0040000, REGULAR = 0100000, LINK = 0120000 };

/* Windows counts tenths of microseconds from the year 1601 on. */
static moment moment_of(FILETIME time) {
    int64_t it = (int64_t)((uint64_t)time.dwHighDateTime << 32 | time.dwLowDateTime) - 116444736000000000;
    return (moment){it / 10000000, (uint32_t)(it % 10000000) * 100, 0};
}

static int look_at(HANDLE it, BOOL follows, known *found) {
    BY_HANDLE_FILE_INFORMATION told;
    DWORD kind = GetFileType(it);
    memset(found, 0, sizeof *found);
    found->block_size = 4096;
    found->mask = ALL_KNOWN;
    if (kind != FILE_TYPE_DISK) return found->mode = kind == FILE_TYPE_PIPE ? PIPE : DEVICE, 0;
    if (!GetFileInformationByHandle(it, &told)) return fail_as_windows();
    found->mode = told.dwFileAttributes & FILE_ATTRIBUTE_DIRECTORY ? FOLDER : REGULAR;
    if (!follows && told.dwFileAttributes & FILE_ATTRIBUTE_REPARSE_POINT) found->mode = LINK;
    found->links = told.nNumberOfLinks;
    found->number = (uint64_t)told.nFileIndexHigh << 32 | told.nFileIndexLow;
    found->size = (uint64_t)told.nFileSizeHigh << 32 | told.nFileSizeLow;
    found->device_minor = told.dwVolumeSerialNumber;
    found->accessed = moment_of(told.ftLastAccessTime);
    found->created = moment_of(told.ftCreationTime);
    found->changed = found->modified = moment_of(told.ftLastWriteTime);
    return 0;
}

static HANDLE open_to_look(const char *name, BOOL follows) {
    WCHAR path[MOST_WIDE];
    if (!wide(name, path)) return NULL;
    DWORD flags = FILE_FLAG_BACKUP_SEMANTICS | (follows ? 0 : FILE_FLAG_OPEN_REPARSE_POINT);
    HANDLE it = CreateFileW(path, 0, SHARED, NULL, OPEN_EXISTING, flags, NULL);
    return it == INVALID_HANDLE_VALUE ? fail_as_windows(), NULL : it;
}

ASKED(int32_t, statx)(int32_t fd, const char *name, int32_t flags, uint32_t mask, known *found) {
    (void)mask;
    if (!*name && flags & EMPTY_PATH) {
        descriptor *it = at(fd);
        return it ? look_at(it->handle, TRUE, found) : -1;
    }
    HANDLE it = open_to_look(name, !(flags & NO_FOLLOW));
    if (!it) return -1;
    int status = look_at(it, !(flags & NO_FOLLOW), found);
    CloseHandle(it);
    return status;
}

/* The path without links, with `/` between its names, as the program takes paths apart. */
ASKED(char *, realpath)(const char *name, char *bytes) {
    WCHAR path[MOST_WIDE];
    HANDLE it = open_to_look(name, TRUE);
    if (!it) return NULL;
    DWORD size = GetFinalPathNameByHandleW(it, path, MOST_WIDE, FILE_NAME_NORMALIZED | VOLUME_NAME_DOS);
    if (!size) fail_as_windows();
    CloseHandle(it);
    if (!size) return NULL;
    if (size >= MOST_WIDE) return fail(E_TOO_LONG), NULL;
    for (WCHAR *each = path; *each; each++)
        if (*each == '\\') *each = '/';
    WCHAR *begin = !wcsncmp(path, L"//?/UNC/", 8) ? path + 6 : !wcsncmp(path, L"//?/", 4) ? path + 4 : path;
    if (begin == path + 6) *begin = '/', begin[1] = '/';
    int64_t length = narrow(begin, bytes, MOST_BYTES - 1);
    if (length >= MOST_BYTES) return fail(E_TOO_LONG), NULL;
    bytes[length] = 0;
    return bytes;
}

/* The only link that is read is the program itself. */
ASKED(int64_t, readlink)(const char *name, char *bytes, int64_t room) {
    WCHAR path[MOST_WIDE];
    if (strcmp(name, "/proc/self/exe")) return fail(E_INVALID);
    if (!GetModuleFileNameW(NULL, path, MOST_WIDE)) return fail_as_windows();
    return answered(path, bytes, room);
}

/* ---- folders */

/* The path of what is called `name` in an open folder, or in the one in which the program runs. */
static WCHAR *wide_in(int32_t fd, const char *name, WCHAR path[MOST_WIDE]) {
    WCHAR last[MOST_BYTES];
    if (fd < 0) return wide(name, path);
    descriptor *it = at(fd);
    if (!it || !it->folder) return fail(E_BAD_FILE), NULL;
    if (!MultiByteToWideChar(CP_UTF8, MB_ERR_INVALID_CHARS, name, -1, last, MOST_BYTES)) return fail(E_NO_TEXT), NULL;
    if (wcslen(it->folder) + wcslen(last) + 2 > MOST_WIDE) return fail(E_TOO_LONG), NULL;
    wcscpy(path, it->folder);
    if (!wcscmp(last, L".")) return path;
    if (path[wcslen(path) - 1] != '\\') wcscat(path, L"\\");
    return wcscat(path, last);
}

static BOOL add_name(descriptor *folder, const WCHAR *name) {
    int64_t begin = folder->names_end, size = narrow(name, NULL, 0) + 1;
    if (begin + size > folder->names_room) {
        folder->names_room = 2 * (begin + size) + 4096;
        char *more = realloc(folder->names, (size_t)folder->names_room);
        if (!more) return FALSE;
        folder->names = more;
    }
    narrow(name, folder->names + begin, size);
    folder->names_end = begin + size;
    folder->names[folder->names_end - 1] = 0;
    return TRUE;
}

/* Reads the names at once: Windows removes no folder that is searched. */
static int read_names(descriptor *folder) {
    WCHAR all[MOST_WIDE + 2];
    WIN32_FIND_DATAW entry;
    BOOL has_room = TRUE;
    wcscpy(all, folder->folder);
    wcscat(all, all[wcslen(all) - 1] == '\\' ? L"*" : L"\\*");
    HANDLE search = FindFirstFileW(all, &entry);
    if (search == INVALID_HANDLE_VALUE) return fail_as_windows();
    do has_room = add_name(folder, entry.cFileName);
    while (has_room && FindNextFileW(search, &entry));
    DWORD why = has_room ? GetLastError() : ERROR_NOT_ENOUGH_MEMORY;
    FindClose(search);
    SetLastError(why);
    return why == ERROR_NO_MORE_FILES ? 0 : fail_as_windows();
}

/* A link is followed where a slash stands after its name. */
ASKED(int32_t, rattle_open_dir_at)(int32_t fd, const char *name) {
    WCHAR path[MOST_WIDE];
    descriptor made = {.handle = INVALID_HANDLE_VALUE};
    size_t length = strlen(name);
    if (!wide_in(fd, name, path)) return -1;
    DWORD is = GetFileAttributesW(path);
    if (is == INVALID_FILE_ATTRIBUTES) return fail_as_windows();
    if (!(is & FILE_ATTRIBUTE_DIRECTORY)) return fail(E_NO_FOLDER);
    if (is & FILE_ATTRIBUTE_REPARSE_POINT && length && name[length - 1] != '/') return fail(E_LINKS);
    made.folder = _wcsdup(path);
    int status = made.folder ? read_names(&made) : fail(E_NO_MEMORY);
    int fd_made = status ? status : put(made);
    if (fd_made < 0) {
        free(made.folder);
        free(made.names);
    }
    return fd_made;
}

/* Each entry has its length in two bytes from the 16th on, and its name from the 19th on, ended by NUL. */
ASKED(int64_t, getdents64)(int32_t fd, char *bytes, int64_t size) {
    enum { LENGTH = 16, NAME = 19 };
    descriptor *it = at(fd);
    int64_t used = 0;
    if (!it) return -1;
    if (!it->folder) return fail(E_NO_FOLDER);
    while (it->names_begin < it->names_end) {
        const char *name = it->names + it->names_begin;
        int64_t name_size = (int64_t)strlen(name) + 1, length = NAME + name_size;
        if (used + length > size) return used ? used : fail(E_INVALID);
        char *entry = bytes + used;
        memset(entry, 0, NAME);
        entry[LENGTH] = (char)length;
        entry[LENGTH + 1] = (char)(length >> 8);
        memcpy(entry + NAME, name, (size_t)name_size);
        it->names_begin += name_size;
        used += length;
    }
    return used;
}

ASKED(int32_t, mkdir)(const char *name, uint32_t mode) {
    WCHAR path[MOST_WIDE];
    (void)mode;
    return wide(name, path) ? done(CreateDirectoryW(path, NULL)) : -1;
}

ASKED(int32_t, rmdir)(const char *name) {
    WCHAR path[MOST_WIDE];
    return wide(name, path) ? done(RemoveDirectoryW(path)) : -1;
}

ASKED(int32_t, unlinkat)(int32_t fd, const char *name, int32_t flags) {
    enum { REMOVES_FOLDER = 0x200 };
    WCHAR path[MOST_WIDE];
    if (!wide_in(fd, name, path)) return -1;
    return flags & REMOVES_FOLDER ? done(RemoveDirectoryW(path)) : remove_file(path);
}

/* ---- the words of the call: no shell of Windows expands `*` and `?` in the last name of a path, so this does */

static WCHAR **words;
static int64_t word_count, word_room;

static void add_word(WCHAR *word) {
    if (word && word_count == word_room) {
        word_room = word_room * 2 + 64;
        WCHAR **more = realloc(words, (size_t)word_room * sizeof *words);
        if (!more) abort();
        words = more;
    }
    if (!word) abort();
    words[word_count++] = word;
}

static BOOL matches(const WCHAR *pattern, const WCHAR *name) {
    for (; *pattern && *pattern != '*'; pattern++, name++)
        if (!*name || (*pattern != '?' && CompareStringOrdinal(pattern, 1, name, 1, TRUE) != CSTR_EQUAL)) return FALSE;
    if (!*pattern) return !*name;
    for (;; name++) {
        if (matches(pattern + 1, name)) return TRUE;
        if (!*name) return FALSE;
    }
}

static int by_name(const void *one, const void *other) {
    return CompareStringOrdinal(*(WCHAR *const *)one, -1, *(WCHAR *const *)other, -1, TRUE) - CSTR_EQUAL;
}

/* Adds the paths that a word names, in the order of their names: the word itself where there is none. */
static void expand(WCHAR *word) {
    WIN32_FIND_DATAW entry;
    WCHAR *last = word;
    int64_t before = word_count;
    for (WCHAR *it = word; *it; it++)
        if (*it == '\\' || *it == '/' || *it == ':') last = it + 1;
    size_t folder = (size_t)(last - word);
    WCHAR *all = calloc(folder + 2, sizeof *all);
    if (!all) abort();
    memcpy(all, word, folder * sizeof *all);
    all[folder] = '*';
    HANDLE search = *word != '-' && wcspbrk(last, L"*?") ? FindFirstFileW(all, &entry) : INVALID_HANDLE_VALUE;
    for (BOOL is_found = search != INVALID_HANDLE_VALUE; is_found; is_found = FindNextFileW(search, &entry)) {
        if (!wcscmp(entry.cFileName, L".") || !wcscmp(entry.cFileName, L"..") || !matches(last, entry.cFileName)) continue;
        WCHAR *path = calloc(folder + wcslen(entry.cFileName) + 1, sizeof *path);
        if (path) wcscat(memcpy(path, word, folder * sizeof *path), entry.cFileName);
        add_word(path);
    }
    if (search != INVALID_HANDLE_VALUE) FindClose(search);
    free(all);
    if (word_count == before) add_word(word);
    qsort(words + before, (size_t)(word_count - before), sizeof *words, by_name);
}

ASKED(int64_t, rattle_arg_count)(void) {
    int count = 0;
    WCHAR **given = words ? NULL : CommandLineToArgvW(GetCommandLineW(), &count);
    for (int i = 0; i < count; i++) {
        if (i == 0)
            add_word(given[i]);
        else
            expand(given[i]);
    }
    return word_count;
}

ASKED(int64_t, rattle_arg)(int64_t i, char *bytes, int64_t room) {
    return i >= 0 && i < posix_rattle_arg_count() ? answered(words[i], bytes, room) : -1;
}

ASKED(int64_t, rattle_env)(const char *name, char *bytes, int64_t room) {
    WCHAR key[MOST_BYTES];
    static WCHAR value[32768];
    if (!MultiByteToWideChar(CP_UTF8, MB_ERR_INVALID_CHARS, name, -1, key, MOST_BYTES)) return -1;
    SetLastError(0);
    if (!GetEnvironmentVariableW(key, value, 32768) && GetLastError()) return -1;
    return answered(value, bytes, room);
}

/* ---- clocks, memory, the processor and the end */

typedef struct {
    int64_t seconds, nanoseconds;
} duration;

ASKED(int32_t, clock_gettime)(int32_t clock, duration *now) {
    enum { MONOTONIC = 1 };
    LARGE_INTEGER count, in_a_second;
    FILETIME time;
    if (clock == MONOTONIC) {
        QueryPerformanceCounter(&count);
        QueryPerformanceFrequency(&in_a_second);
        now->seconds = count.QuadPart / in_a_second.QuadPart;
        now->nanoseconds = count.QuadPart % in_a_second.QuadPart * 1000000000 / in_a_second.QuadPart;
    } else {
        GetSystemTimeAsFileTime(&time);
        moment it = moment_of(time);
        now->seconds = it.seconds;
        now->nanoseconds = it.nanoseconds;
    }
    return 0;
}

typedef struct {
    int64_t is_given;
    void *memory;
} tried;

static tried tried_of(void *memory) {
    static char none;
    return (tried){memory != NULL, memory ? memory : &none};
}

/* Windows aligns to 16 bytes, and no more is asked for. */
ASKED(tried, rattle_alloc)(int64_t size, int64_t alignment) {
    (void)alignment;
    return tried_of(malloc(size ? (size_t)size : 1));
}

ASKED(tried, rattle_realloc)(void *memory, int64_t kept, int64_t size, int64_t alignment) {
    (void)kept;
    (void)alignment;
    return tried_of(realloc(memory, size ? (size_t)size : 1));
}

ASKED(void, rattle_dealloc)(void *memory) {
    free(memory);
}

#ifdef __x86_64__
/* What the processor has, and what of it the system lets a program use. */
typedef struct {
    uint32_t has[4], active[4];
} leaf;

ASKED(const leaf *, __x86_get_cpuid_feature_leaf)(uint32_t index) {
    static leaf found;
    static const uint32_t leaves[] = {1, 7, 0x80000001};
    memset(&found, 0, sizeof found);
    if (index < 3) __cpuid_count(leaves[index], 0, found.has[0], found.has[1], found.has[2], found.has[3]);
    if (index != 1 || IsProcessorFeaturePresent(PF_AVX2_INSTRUCTIONS_AVAILABLE)) memcpy(found.active, found.has, sizeof found.active);
    return &found;
}
#endif

/* Windows has no signal that a writer without a reader gets. */
ASKED(int64_t, __sysv_signal)(int32_t signal, int64_t handler) {
    (void)signal;
    (void)handler;
    return 0;
}

ASKED(void, _exit)(int32_t status) {
    ExitProcess((UINT)status);
}

/* The status that a shell of Linux shows. */
ASKED(void, abort)(void) {
    ExitProcess(134);
}
