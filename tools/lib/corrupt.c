// Runs a program repeatedly in one process, each time on a file with one corrupted byte: each byte from FROM to below TO, with each of the
// 255 other values in ascending order; or, if MODE is "cut", on each prefix of the file of FROM to below TO bytes; or, if MODE is "break", on
// the file with a read that fails after each number of bytes from FROM to below TO. CHANGED names the file, which the program reads by
// read(2). The descriptor ANSWERS gets, for each run, the number of its answer (2 bytes, the lowest first), and
// at the end the answers, in the order of their numbers: the status (1 byte), then the length (4 bytes) and the bytes of the standard
// output, and the same of the standard error. It is loaded before the C library (LD_PRELOAD).
#define _GNU_SOURCE
#include <dlfcn.h>
#include <errno.h>
#include <fcntl.h>
#include <setjmp.h>
#include <stdarg.h>
#include <stdint.h>
#include <stdio.h>
#include <stdlib.h>
#include <string.h>
#include <sys/stat.h>
#include <sys/syscall.h>
#include <sys/uio.h>
#include <unistd.h>

enum { ROOM = 1 << 16, ANSWERS = 1 << 16 };

static const char *changed;
static unsigned char *bytes;
static size_t size, at;
static int in_hand = -1, running, breaks;
static unsigned char outputs[2][ROOM];
static uint32_t lengths[2];
static unsigned char *answers[ANSWERS];
static size_t answer_sizes[ANSWERS];
static unsigned known;
static jmp_buf ended;

static void fail(const char *why) {
    fprintf(stderr, "changes: %s\n", why);
    _exit(2);
}

static void put(int to, const void *from, size_t count) {
    for (const char *rest = from; count;) {
        ssize_t done = syscall(SYS_write, to, rest, count);
        if (done <= 0) fail("a write failed");
        rest += done, count -= (size_t)done;
    }
}

static int open_at(int folder, const char *name, int flags, int mode) {
    int file = (int)syscall(SYS_openat, folder, name, flags, mode);
    if (running && !strcmp(name, changed)) in_hand = file, at = 0;
    return file;
}

static int mode_of(int flags, va_list rest) { return flags & (O_CREAT | O_TMPFILE) ? va_arg(rest, int) : 0; }

#define OPENS(name) int name(const char *file, int flags, ...) { va_list rest; va_start(rest, flags); int mode = mode_of(flags, rest); va_end(rest); return open_at(AT_FDCWD, file, flags, mode); }
#define OPENS_AT(name) int name(int folder, const char *file, int flags, ...) { va_list rest; va_start(rest, flags); int mode = mode_of(flags, rest); va_end(rest); return open_at(folder, file, flags, mode); }
OPENS(open)
OPENS(open64)
OPENS_AT(openat)
OPENS_AT(openat64)

ssize_t read(int from, void *to, size_t count) {
    if (!running || from != in_hand) return syscall(SYS_read, from, to, count);
    size_t given = count < size - at ? count : size - at;
    if (breaks && count && !given) {
        errno = EIO;
        return -1;
    }
    memcpy(to, bytes + at, given);
    at += given;
    return (ssize_t)given;
}

ssize_t write(int to, const void *from, size_t count) {
    if (!running || to < 1 || to > 2) return syscall(SYS_write, to, from, count);
    if (count > ROOM - lengths[to - 1]) fail("an answer is too long");
    memcpy(outputs[to - 1] + lengths[to - 1], from, count);
    lengths[to - 1] += (uint32_t)count;
    return (ssize_t)count;
}

ssize_t writev(int to, const struct iovec *parts, int count) {
    if (!running || to < 1 || to > 2) return syscall(SYS_writev, to, parts, count);
    ssize_t done = 0;
    for (int k = 0; k < count; k++) done += write(to, parts[k].iov_base, parts[k].iov_len);
    return done;
}

void exit(int status) {
    if (running) longjmp(ended, (status & 255) + 1);
    _exit(status);
}

// Returns the number of the answer in `outputs`, which is new or was given before.
static uint16_t number_of(unsigned char status) {
    static unsigned char answer[2 * ROOM + 9];
    static unsigned last;
    size_t length = 0;
    answer[length++] = status;
    for (int k = 0; k < 2; k++) {
        memcpy(answer + length, &lengths[k], 4);
        memcpy(answer + length + 4, outputs[k], lengths[k]);
        length += 4 + lengths[k];
    }
    for (unsigned k = 0; k <= known; k++) {
        unsigned it = k ? k - 1 : last;
        if (it < known && answer_sizes[it] == length && !memcmp(answers[it], answer, length)) return (uint16_t)(last = it);
    }
    if (known == ANSWERS) fail("there are too many answers");
    answers[known] = malloc(length);
    if (!answers[known]) fail("no memory");
    memcpy(answers[known], answer, length);
    answer_sizes[known] = length;
    return (uint16_t)(last = known++);
}

static int (*program)(int, char **, char **);

static size_t number(const char *name) {
    const char *text = getenv(name);
    if (!text) fail(name);
    return strtoul(text, NULL, 10);
}

static void read_file(void) {
    struct stat about;
    int from = (int)syscall(SYS_openat, AT_FDCWD, changed, O_RDONLY, 0);
    if (from < 0 || fstat(from, &about)) fail("the file does not open");
    size = (size_t)about.st_size;
    bytes = malloc(size);
    if (!bytes || syscall(SYS_read, from, bytes, size) != (long)size) fail("the file cannot be read");
    syscall(SYS_close, from);
}

static int status_of(int count, char **words, char **environment) {
    int status = setjmp(ended);
    running = 1;
    status = status ? status - 1 : program(count, words, environment);
    running = 0;
    return status & 255;
}

static int words_count;
static char **words, **environment;

// Returns the number of the program's answer to the file in `bytes`.
static uint16_t answer(void) {
    lengths[0] = lengths[1] = 0;
    return number_of((unsigned char)status_of(words_count, words, environment));
}

// Writes the answers to the file with one byte changed to each other value.
static void change(size_t k, int out) {
    uint16_t row[255];
    int filled = 0;
    unsigned char was = bytes[k];
    for (int value = 0; value < 256; value++) {
        if (value == was) continue;
        bytes[k] = (unsigned char)value;
        row[filled++] = answer();
    }
    bytes[k] = was;
    put(out, row, sizeof row);
}

// Writes the answer to a prefix of the file, or to a read that fails after it.
static void cut(size_t left, int out) {
    size_t whole = size;
    size = left;
    uint16_t row = answer();
    size = whole;
    put(out, &row, sizeof row);
}

static int run_all(int count, char **given, char **variables) {
    words_count = count, words = given, environment = variables;
    changed = getenv("CHANGED");
    if (!changed) fail("CHANGED");
    read_file();
    size_t from = number("FROM"), to = number("TO");
    int out = (int)number("ANSWERS");
    const char *mode = getenv("MODE");
    if (!mode) fail("MODE");
    breaks = !strcmp(mode, "break");
    int cuts = breaks || !strcmp(mode, "cut");
    for (size_t k = from; k < to && k <= size; k++) {
        if (cuts) cut(k, out);
        else change(k, out);
    }
    for (unsigned k = 0; k < known; k++) put(out, answers[k], answer_sizes[k]);
    _exit(0);
}

typedef int start(int (*)(int, char **, char **), int, char **, void (*)(void), void (*)(void), void (*)(void), void *);

int __libc_start_main(int (*main)(int, char **, char **), int count, char **given, void (*init)(void), void (*fini)(void), void (*rest)(void), void *stack) {
    program = main;
    start *next = (start *)dlsym(RTLD_NEXT, "__libc_start_main");
    return next(run_all, count, given, init, fini, rest, stack);
}
