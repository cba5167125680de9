/* A library to preload, which makes calls of a program to the system fail, as the environment says:

     FAIL_CALLS_KIND    which calls: alloc, open, read, write or thread
     FAIL_CALLS_AT      the number of the one that fails, from 1; 0 is none
     FAIL_CALLS_MOST    how many bytes a read or a write moves at once
     FAIL_CALLS_ROOM    how many bytes can be written in all, before the disk is full
     FAIL_CALLS_COUNT   a file of five 64-bit numbers, which this library raises at each call of a kind

   tools/fail-calls compiles it and runs the program with it. */
#define _GNU_SOURCE
#include <dlfcn.h>
#include <errno.h>
#include <fcntl.h>
#include <pthread.h>
#include <stdarg.h>
#include <stdatomic.h>
#include <stdint.h>
#include <stdlib.h>
#include <string.h>
#include <sys/mman.h>
#include <sys/syscall.h>
#include <sys/uio.h>
#include <unistd.h>

enum kind { ALLOC, OPEN, READ, WRITE, THREAD, KINDS };

static const char *const NAMES[KINDS] = {"alloc", "open", "read", "write", "thread"};

/* Until the library has begun, and where it was given no file of counts, every call is passed on. */
static _Atomic uint64_t *counts;
static enum kind failing_kind = KINDS;
static uint64_t failing_call, most = UINT64_MAX;
static _Atomic int64_t room = INT64_MAX;

static uint64_t number_of(const char *name, uint64_t absent) {
    const char *text = getenv(name);
    return text ? strtoull(text, NULL, 10) : absent;
}

__attribute__((constructor)) static void begin(void) {
    const char *kind = getenv("FAIL_CALLS_KIND"), *path = getenv("FAIL_CALLS_COUNT");
    for (int i = 0; kind && i < KINDS; i++)
        if (!strcmp(kind, NAMES[i])) failing_kind = i;
    failing_call = number_of("FAIL_CALLS_AT", 0);
    most = number_of("FAIL_CALLS_MOST", UINT64_MAX);
    room = (int64_t)number_of("FAIL_CALLS_ROOM", INT64_MAX);
    int file = path ? (int)syscall(SYS_openat, AT_FDCWD, path, O_RDWR) : -1;
    if (file < 0) return;
    void *shared = mmap(NULL, KINDS * sizeof(uint64_t), PROT_READ | PROT_WRITE, MAP_SHARED, file, 0);
    syscall(SYS_close, file);
    if (shared != MAP_FAILED) counts = shared;
}

/* Counts a call; whether it is the one that fails. */
static int fails(enum kind kind) {
    return counts && atomic_fetch_add(&counts[kind], 1) + 1 == failing_call && kind == failing_kind;
}

static int failed(int error) {
    errno = error;
    return -1;
}

/* ---- memory */

extern void *__libc_malloc(size_t), *__libc_calloc(size_t, size_t), *__libc_realloc(void *, size_t);
extern void *__libc_memalign(size_t, size_t);

static void *none(void) {
    errno = ENOMEM;
    return NULL;
}

void *malloc(size_t size) { return fails(ALLOC) ? none() : __libc_malloc(size); }
void *calloc(size_t many, size_t size) { return fails(ALLOC) ? none() : __libc_calloc(many, size); }
void *realloc(void *old, size_t size) { return fails(ALLOC) ? none() : __libc_realloc(old, size); }
void *memalign(size_t align, size_t size) { return fails(ALLOC) ? none() : __libc_memalign(align, size); }
void *aligned_alloc(size_t align, size_t size) { return memalign(align, size); }

int posix_memalign(void **found, size_t align, size_t size) {
    void *memory = memalign(align, size);
    if (!memory) return ENOMEM;
    *found = memory;
    return 0;
}

int pthread_create(pthread_t *thread, const pthread_attr_t *attributes, void *(*body)(void *), void *with) {
    static int (*next)(pthread_t *, const pthread_attr_t *, void *(*)(void *), void *);
    if (!next) *(void **)&next = dlsym(RTLD_NEXT, "pthread_create");
    return fails(THREAD) ? EAGAIN : next(thread, attributes, body, with);
}

/* ---- files */

int openat(int folder, const char *path, int flags, ...) {
    va_list rest;
    va_start(rest, flags);
    mode_t mode = va_arg(rest, mode_t);
    va_end(rest);
    return fails(OPEN) ? failed(EMFILE) : (int)syscall(SYS_openat, folder, path, flags, mode);
}

int open(const char *path, int flags, ...) {
    va_list rest;
    va_start(rest, flags);
    mode_t mode = va_arg(rest, mode_t);
    va_end(rest);
    return openat(AT_FDCWD, path, flags, mode);
}

ssize_t read(int file, void *into, size_t size) {
    if (fails(READ)) return failed(EIO);
    return syscall(SYS_read, file, into, size < most ? size : most);
}

ssize_t readv(int file, const struct iovec *parts, int many) {
    return many ? read(file, parts[0].iov_base, parts[0].iov_len) : 0;
}

ssize_t write(int file, const void *from, size_t size) {
    if (fails(WRITE)) return failed(EIO);
    int64_t left = room;
    size_t now = size < most ? size : most;
    if (left < (int64_t)now) now = left < 0 ? 0 : (size_t)left;
    if (size && !now) return failed(ENOSPC);
    ssize_t done = syscall(SYS_write, file, from, now);
    if (done > 0) atomic_fetch_sub(&room, done);
    return done;
}

ssize_t writev(int file, const struct iovec *parts, int many) {
    return many ? write(file, parts[0].iov_base, parts[0].iov_len) : 0;
}
