/* Refuses one request for memory of a program: `bench/memory` preloads it. Counted are the calls of malloc, calloc, realloc,
   reallocarray, aligned_alloc, memalign and posix_memalign whose return address lies in the program's own file, so no call by the
   C library or by the loader, from main on and before it. REFUSE_AT is the number of the one that is answered with no memory,
   counted from 1. REFUSE_TO is a file that gets the number of requests and 1 or 0, whether one was refused, when the program ends. */
#define _GNU_SOURCE
#include <errno.h>
#include <fcntl.h>
#include <link.h>
#include <stdint.h>
#include <stdio.h>
#include <stdlib.h>
#include <unistd.h>

void *__libc_malloc(size_t);
void *__libc_calloc(size_t, size_t);
void *__libc_realloc(void *, size_t);
void *__libc_memalign(size_t, size_t);

static uintptr_t low, high;
static long at = -1, requests, refused;

/* Where the program's own file stands: it is the first that is told. */
static int own(struct dl_phdr_info *info, size_t size, void *data) {
    (void)size, (void)data;
    for (int k = 0; k < info->dlpi_phnum; k++) {
        const ElfW(Phdr) *part = &info->dlpi_phdr[k];
        if (part->p_type == PT_LOAD && part->p_flags & PF_X) {
            uintptr_t from = info->dlpi_addr + part->p_vaddr, to = from + part->p_memsz;
            if (!low || from < low) low = from;
            if (to > high) high = to;
        }
    }
    return 1;
}

__attribute__((constructor)) static void begin(void) {
    const char *text = getenv("REFUSE_AT");
    dl_iterate_phdr(own, NULL);
    at = text ? atol(text) : -1;
}

__attribute__((destructor)) static void end(void) {
    const char *path = getenv("REFUSE_TO");
    char text[64];
    int file = path ? open(path, O_WRONLY | O_CREAT | O_TRUNC, 0600) : -1;
    if (file >= 0) {
        int many = snprintf(text, sizeof text, "%ld %ld\n", requests, refused);
        if (write(file, text, many) != many) _exit(99);
        close(file);
    }
}

/* Whether this request, made from there, is the one. */
static int is_refused(void *from) {
    uintptr_t place = (uintptr_t)from;
    if (place < low || place >= high) return 0;
    if (++requests != at) return 0;
    refused = 1;
    errno = ENOMEM;
    return 1;
}

#define FROM __builtin_return_address(0)

void *malloc(size_t size) { return is_refused(FROM) ? NULL : __libc_malloc(size); }
void *calloc(size_t many, size_t size) { return is_refused(FROM) ? NULL : __libc_calloc(many, size); }
void *realloc(void *old, size_t size) { return is_refused(FROM) ? NULL : __libc_realloc(old, size); }
void *memalign(size_t align, size_t size) { return is_refused(FROM) ? NULL : __libc_memalign(align, size); }
void *aligned_alloc(size_t align, size_t size) { return is_refused(FROM) ? NULL : __libc_memalign(align, size); }

void *reallocarray(void *old, size_t many, size_t size) {
    size_t all;
    if (is_refused(FROM) || __builtin_mul_overflow(many, size, &all)) return NULL;
    return __libc_realloc(old, all);
}

int posix_memalign(void **to, size_t align, size_t size) {
    void *given = is_refused(FROM) ? NULL : __libc_memalign(align, size);
    if (!given) return ENOMEM;
    *to = given;
    return 0;
}
