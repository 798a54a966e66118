// What the program asks of a system, for WebAssembly: memory, the words of the command line, files to read, and two streams.
//
// The host gives three functions. A call of the program is one instance: its memory is new, and goes with the instance.
#include "types.h"

#define FROM_HOST(name) __attribute__((import_module("host"), import_name(#name)))

// The file that these bytes name: its number from 3 on, or minus an error number.
FROM_HOST(open) int host_open(const char *name, size_t length);
// Copies the next bytes of a file, and answers how many, or minus an error number.
FROM_HOST(read) long host_read(int file, void *to, size_t most);
// Takes bytes of standard output (1) or standard error (2).
FROM_HOST(write) void host_write(int stream, const void *from, size_t length);

enum { BAD_FILE = 9, INVALID = 22, OUT_OF_RANGE = 34 };

static int error;

int rattle_errno(void) { return error; }
void rattle_set_errno(int to) { error = to; }

static long failed(int with) {
    error = with;
    return -1;
}

// Memory

void *malloc(size_t size);
void *realloc(void *block, size_t size);
void free(void *block);

struct found {
    uint64_t is_there;
    void *block;
};
static char nothing;

static struct found found(void *block) { return (struct found){block != NULL, block ? block : &nothing}; }
struct found rattle_alloc(size_t size, size_t align) { return found(malloc(size ? size : align)); }
struct found rattle_realloc(void *block, size_t, size_t size, size_t align) { return found(realloc(block, size ? size : align)); }
void rattle_dealloc(void *block) { free(block); }

// Words

static char *words;
static size_t count;

// Room for the words, each ended by a 0, which the host writes there before it calls main.
__attribute__((export_name("words"))) char *words_of(size_t how_many, size_t bytes) {
    count = how_many;
    return words = malloc(bytes ? bytes : 1);
}

size_t rattle_arg_count(void) { return count; }

// The bytes of a word: their number, or -1 where there is no such word, or -2 where they don't fit.
ptrdiff_t rattle_arg(size_t i, char *to, size_t most) {
    if (i >= count)
        return -1;
    const char *word = words;
    for (; i; i--)
        while (*word++) {
        }
    size_t length = 0;
    for (; word[length]; length++) {
        if (length == most)
            return -2;
        to[length] = word[length];
    }
    return (ptrdiff_t)length;
}

// Files and streams

int open(const char *name, int, ...) {
    size_t length = 0;
    while (name[length])
        length++;
    int file = host_open(name, length);
    return file < 0 ? (int)failed(-file) : file;
}

long read(int file, void *to, size_t most) {
    long length = file > 2 ? host_read(file, to, most) : -BAD_FILE;
    return length < 0 ? failed((int)-length) : length;
}

long write(int stream, const void *from, size_t length) {
    if (stream != 1 && stream != 2)
        return failed(BAD_FILE);
    host_write(stream, from, length);
    return (long)length;
}
long __write(int stream, const void *from, size_t length) { return write(stream, from, length); }
int close(int) { return 0; }

// The words for an error: none are known here.
int __xpg_strerror_r(int, char *to, size_t most) {
    if (!most)
        return OUT_OF_RANGE;
    *to = 0;
    return INVALID;
}

// Before main: a signal that never comes, and the machine's abilities, which the code for this machine doesn't ask for.
uint64_t __sysv_signal(int, uint64_t) { return 0; }
const void *__x86_get_cpuid_feature_leaf(unsigned) {
    static const uint32_t all_there[] = {~0u, ~0u, ~0u, ~0u, ~0u, ~0u, ~0u, ~0u};
    return all_there;
}

// The environment is empty.
ptrdiff_t rattle_env(const char *, char *, size_t) { return -1; }
ptrdiff_t rattle_env_at(size_t, char *, size_t) { return -1; }
