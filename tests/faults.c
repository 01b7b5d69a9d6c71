/* Stands before libc in the tests of the command. FAULT is "CALL N error NUMBER", "CALL N signal NUMBER", "CALL N cut FILE" or "CALL N fill FILE":
 * when CALL is made for the N-th time it fails with that error (sysconf: answers that number), the program gets that signal, FILE is cut to nothing,
 * or each of its bytes is an x. */
#define _GNU_SOURCE
#include <dlfcn.h>
#include <errno.h>
#include <signal.h>
#include <stdio.h>
#include <stdlib.h>
#include <string.h>
#include <sys/types.h>
#include <unistd.h>

static int fill(const char *path) {
    FILE *file = fopen(path, "r+");
    if (!file || fseek(file, 0, SEEK_END)) return -1;
    long len = ftell(file);
    rewind(file);
    while (len-- > 0) fputc('x', file);
    return fclose(file);
}

/* The error to fail with, or 0. */
static int fault(const char *call, int *times) {
    char name[32], kind[16], what[4096];
    int at;
    const char *text = getenv("FAULT");
    if (!text || sscanf(text, "%31s %d %15s %4095s", name, &at, kind, what) != 4 || strcmp(name, call) || ++*times != at) return 0;
    if (!strcmp(kind, "error")) return atoi(what);
    if (!strcmp(kind, "signal") ? raise(atoi(what)) : !strcmp(kind, "fill") ? fill(what) : truncate(what, 0)) abort();
    return 0;
}

#define STAND_BEFORE(result, call, failed, parameters, arguments)               \
    result call parameters {                                                    \
        static int times;                                                       \
        int error = fault(#call, &times);                                       \
        if (error) return errno = error, failed;                                \
        return ((result(*) parameters)dlsym(RTLD_NEXT, #call))arguments;        \
    }

STAND_BEFORE(long, sysconf, error, (int name), (name))
STAND_BEFORE(int, posix_fallocate, error, (int fd, off_t start, off_t len), (fd, start, len))
STAND_BEFORE(int, ftruncate, -1, (int fd, off_t len), (fd, len))
STAND_BEFORE(int, flock, -1, (int fd, int how), (fd, how))
STAND_BEFORE(int, fsync, -1, (int fd), (fd))
STAND_BEFORE(int, munmap, -1, (void *at, size_t len), (at, len))
STAND_BEFORE(int, rename, -1, (const char *from, const char *to), (from, to))
STAND_BEFORE(void *, mmap, (void *)-1, (void *at, size_t len, int prot, int flags, int fd, off_t start), (at, len, prot, flags, fd, start))
STAND_BEFORE(int, pthread_create, error, (void *thread, const void *how, void *(*run)(void *), void *with), (thread, how, run, with))
