/* Ends a program by SIGKILL at one of the calls by which it changes files or prints: `bench/torture` preloads it. STOP_AT is the
   number of the call, from 1 on, before which it is killed; with STOP_HALF a write has written its first half by then, and with
   STOP_FROM the calls are counted from the first write or cut on of a file that has these letters in its path. */
#define _GNU_SOURCE
#include <dlfcn.h>
#include <signal.h>
#include <stdio.h>
#include <stdlib.h>
#include <string.h>
#include <sys/stat.h>
#include <sys/types.h>
#include <unistd.h>

static long left = -1;
static int half;
static const char *waits;

__attribute__((constructor)) static void begin(void) {
    const char *at = getenv("STOP_AT");
    left = at ? atol(at) : -1;
    half = getenv("STOP_HALF") != NULL;
    waits = getenv("STOP_FROM");
}

/* Whether this call is the one. */
static int is_last(void) { return !waits && left > 0 && --left == 0; }

/* Whether this write or cut of a file is the one. */
static int is_last_of(int file) {
    if (waits) {
        char link[32], path[4096];
        snprintf(link, sizeof link, "/proc/self/fd/%d", file);
        ssize_t many = readlink(link, path, sizeof path - 1);
        path[many < 0 ? 0 : many] = 0;
        if (strstr(path, waits)) waits = NULL;
    }
    return is_last();
}

static void stop(void) {
    kill(getpid(), SIGKILL);
    for (;;) pause();
}

#define REAL(name) __typeof__(&name) real = (__typeof__(&name))dlsym(RTLD_NEXT, #name)

ssize_t pwrite(int file, const void *bytes, size_t many, off_t place) {
    REAL(pwrite);
    if (is_last_of(file)) {
        if (half && many > 1) real(file, bytes, many / 2, place);
        stop();
    }
    return real(file, bytes, many, place);
}

ssize_t pwrite64(int file, const void *bytes, size_t many, off64_t place) {
    REAL(pwrite64);
    if (is_last_of(file)) {
        if (half && many > 1) real(file, bytes, many / 2, place);
        stop();
    }
    return real(file, bytes, many, place);
}

ssize_t write(int file, const void *bytes, size_t many) {
    REAL(write);
    if (is_last()) {
        if (half && many > 1) real(file, bytes, many / 2);
        stop();
    }
    return real(file, bytes, many);
}

int fsync(int file) {
    REAL(fsync);
    if (is_last()) stop();
    return real(file);
}

int fdatasync(int file) {
    REAL(fdatasync);
    if (is_last()) stop();
    return real(file);
}

int ftruncate(int file, off_t size) {
    REAL(ftruncate);
    if (is_last_of(file)) stop();
    return real(file, size);
}

int ftruncate64(int file, off64_t size) {
    REAL(ftruncate64);
    if (is_last_of(file)) stop();
    return real(file, size);
}

int mkdir(const char *path, mode_t mode) {
    REAL(mkdir);
    if (is_last()) stop();
    return real(path, mode);
}
