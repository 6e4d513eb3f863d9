/*
 * Loaded into a program before the C library (LD_PRELOAD): kills it right before its call number STOP_AT, counted from 1, of those functions that change
 * what is on the disk or come between two that do; and writes the names of those calls to the file TRACE, a line for each. With NO_LINKS there are no links,
 * as on FAT.
 */
#define _GNU_SOURCE
#include <dlfcn.h>
#include <errno.h>
#include <fcntl.h>
#include <signal.h>
#include <stdarg.h>
#include <stdio.h>
#include <stdlib.h>
#include <sys/file.h>
#include <sys/types.h>
#include <unistd.h>

static void trace(const char *call) {
    const char *path = getenv("TRACE");
    FILE *file = path ? fopen(path, "a") : NULL;
    if (!file)
        return;
    fprintf(file, "%s\n", call);
    fclose(file);
}

static void count(const char *call) {
    static long left = -1;
    const char *stop_at = getenv("STOP_AT");
    if (left < 0)
        left = stop_at ? atol(stop_at) : 0;
    if (left > 0 && --left == 0)
        raise(SIGKILL);
    trace(call);
}

#define NEXT(name) ((__typeof__(&name))dlsym(RTLD_NEXT, #name))

int openat(int folder, const char *path, int flags, ...) {
    va_list more;
    va_start(more, flags);
    mode_t mode = flags & O_CREAT ? va_arg(more, mode_t) : 0;
    va_end(more);
    count("openat");
    return NEXT(openat)(folder, path, flags, mode);
}

int flock(int file, int what) {
    count("flock");
    return NEXT(flock)(file, what);
}

ssize_t write(int file, const void *bytes, size_t length) {
    count("write");
    return NEXT(write)(file, bytes, length);
}

int fsync(int file) {
    count("fsync");
    return NEXT(fsync)(file);
}

int linkat(int from, const char *old, int to, const char *name, int flags) {
    count("linkat");
    if (getenv("NO_LINKS")) {
        errno = EPERM;
        return -1;
    }
    return NEXT(linkat)(from, old, to, name, flags);
}

int renameat(int from, const char *old, int to, const char *name) {
    count("renameat");
    return NEXT(renameat)(from, old, to, name);
}

int renameat2(int from, const char *old, int to, const char *name, unsigned flags) {
    count("renameat2");
    return NEXT(renameat2)(from, old, to, name, flags);
}

int unlinkat(int folder, const char *name, int flags) {
    count("unlinkat");
    return NEXT(unlinkat)(folder, name, flags);
}

int close(int file) {
    count("close");
    return NEXT(close)(file);
}
