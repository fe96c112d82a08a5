// Lets one call of a program fail: the Nth allocation, open, read, write or making of a directory or a link, as FAIL=alloc:N,
// open:N, read:N, write:N or make:N says. With COUNT=FILE no call fails, and FILE gets the number of calls of each kind. It is
// loaded before the C library (LD_PRELOAD). Only calls after the program's own start count.
#define _GNU_SOURCE
#include <errno.h>
#include <fcntl.h>
#include <stdarg.h>
#include <stddef.h>
#include <stdio.h>
#include <stdlib.h>
#include <string.h>
#include <sys/stat.h>
#include <sys/syscall.h>
#include <unistd.h>

extern void *__libc_malloc(size_t);
extern void *__libc_calloc(size_t, size_t);
extern void *__libc_realloc(void *, size_t);
extern void *__libc_memalign(size_t, size_t);

enum kind { ALLOC, OPEN, READ, WRITE, MAKE, KINDS };
static const char *const names[KINDS] = {"alloc", "open", "read", "write", "make"};
static long made[KINDS], failing[KINDS];
static int started;

// Returns whether this call is the one that fails.
static int fails(enum kind kind) { return started && ++made[kind] == failing[kind]; }

__attribute__((constructor)) static void start(void) {
    const char *asked = getenv("FAIL");
    for (int kind = 0; asked && kind < KINDS; kind++) {
        size_t length = strlen(names[kind]);
        if (!strncmp(asked, names[kind], length) && asked[length] == ':') failing[kind] = atol(asked + length + 1);
    }
    started = 1;
}

__attribute__((destructor)) static void write_counts(void) {
    started = 0;
    const char *file = getenv("COUNT");
    if (!file) return;
    char text[256];
    int length = 0;
    for (int kind = 0; kind < KINDS; kind++) length += snprintf(text + length, sizeof text - (size_t)length, "%s %ld\n", names[kind], made[kind]);
    int to = (int)syscall(SYS_openat, AT_FDCWD, file, O_WRONLY | O_CREAT | O_TRUNC, 0600);
    syscall(SYS_write, to, text, (size_t)length);
    syscall(SYS_close, to);
}

void *malloc(size_t size) { return fails(ALLOC) ? (errno = ENOMEM, NULL) : __libc_malloc(size); }
void *calloc(size_t count, size_t size) { return fails(ALLOC) ? (errno = ENOMEM, NULL) : __libc_calloc(count, size); }
void *realloc(void *old, size_t size) { return fails(ALLOC) ? (errno = ENOMEM, NULL) : __libc_realloc(old, size); }
void *aligned_alloc(size_t align, size_t size) { return fails(ALLOC) ? (errno = ENOMEM, NULL) : __libc_memalign(align, size); }
void *memalign(size_t align, size_t size) { return aligned_alloc(align, size); }
int posix_memalign(void **to, size_t align, size_t size) {
    void *got = aligned_alloc(align, size);
    if (!got) return ENOMEM;
    *to = got;
    return 0;
}

static int open_at(int folder, const char *name, int flags, int mode) {
    if (fails(OPEN)) return errno = EIO, -1;
    return (int)syscall(SYS_openat, folder, name, flags, mode);
}

static int mode_of(int flags, va_list rest) { return flags & (O_CREAT | O_TMPFILE) ? va_arg(rest, int) : 0; }

#define OPENS(name) int name(const char *file, int flags, ...) { va_list rest; va_start(rest, flags); int mode = mode_of(flags, rest); va_end(rest); return open_at(AT_FDCWD, file, flags, mode); }
#define OPENS_AT(name) int name(int folder, const char *file, int flags, ...) { va_list rest; va_start(rest, flags); int mode = mode_of(flags, rest); va_end(rest); return open_at(folder, file, flags, mode); }
OPENS(open)
OPENS(open64)
OPENS_AT(openat)
OPENS_AT(openat64)

ssize_t read(int from, void *to, size_t count) { return fails(READ) ? (errno = EIO, -1) : syscall(SYS_read, from, to, count); }
ssize_t write(int to, const void *from, size_t count) { return fails(WRITE) ? (errno = EIO, -1) : syscall(SYS_write, to, from, count); }

int mkdir(const char *path, mode_t mode) { return fails(MAKE) ? (errno = EIO, -1) : (int)syscall(SYS_mkdirat, AT_FDCWD, path, mode); }
int symlink(const char *text, const char *path) { return fails(MAKE) ? (errno = EIO, -1) : (int)syscall(SYS_symlinkat, text, AT_FDCWD, path); }
int link(const char *old, const char *path) { return fails(MAKE) ? (errno = EIO, -1) : (int)syscall(SYS_linkat, AT_FDCWD, old, AT_FDCWD, path, 0); }
