/*
 * For LD_PRELOAD: the writes to files whose paths have "/run-" in them wait while a file of the name STALL_WHILE is there, and fail
 * with ENOSPC while one of the name FULL_WHILE is. Nothing is printed.
 */
#define _GNU_SOURCE
#include <dlfcn.h>
#include <errno.h>
#include <stdio.h>
#include <stdlib.h>
#include <string.h>
#include <sys/types.h>
#include <unistd.h>

static int is_there(const char *name) {
    const char *path = getenv(name);
    return path != NULL && access(path, F_OK) == 0;
}

static int is_log(int descriptor) {
    char link[64], path[4096];
    snprintf(link, sizeof link, "/proc/self/fd/%d", descriptor);
    ssize_t length = readlink(link, path, sizeof path - 1);
    if (length < 0) return 0;
    path[length] = 0;
    return strstr(path, "/run-") != NULL;
}

ssize_t write(int descriptor, const void *bytes, size_t count) {
    static ssize_t (*next)(int, const void *, size_t);
    if (next == NULL) next = dlsym(RTLD_NEXT, "write");
    if (is_log(descriptor)) {
        while (is_there("STALL_WHILE")) usleep(10000);
        if (is_there("FULL_WHILE")) {
            errno = ENOSPC;
            return -1;
        }
    }
    return next(descriptor, bytes, count);
}

ssize_t __write(int descriptor, const void *bytes, size_t count) { return write(descriptor, bytes, count); }
