// Put before the C library (LD_PRELOAD): the allocation with the number REFUSE, counted from 1, finds no memory. At the end
// of the program the number of allocations is written into the file that REFUSE_COUNT names, if it names one.
#define _GNU_SOURCE
#include <dlfcn.h>
#include <errno.h>
#include <fcntl.h>
#include <stdio.h>
#include <stdlib.h>
#include <unistd.h>

static unsigned long made, refused;
static int ready;

__attribute__((constructor)) static void begin(void) {
    const char *number = getenv("REFUSE");
    refused = number ? strtoul(number, NULL, 10) : 0;
    made = 0;
    ready = 1;
}

__attribute__((destructor)) static void end(void) {
    const char *path = getenv("REFUSE_COUNT");
    if (!path) return;
    unsigned long count = made;
    ready = 0;
    int file = open(path, O_WRONLY | O_CREAT | O_TRUNC, 0600);
    if (file < 0) return;
    dprintf(file, "%lu\n", count);
    close(file);
}

static int is_refused(void) {
    return ready && ++made == refused;
}

void *__libc_malloc(size_t);
void *__libc_calloc(size_t, size_t);
void *__libc_realloc(void *, size_t);
void *__libc_memalign(size_t, size_t);

void *malloc(size_t size) { return is_refused() ? (errno = ENOMEM, NULL) : __libc_malloc(size); }

void *calloc(size_t count, size_t size) { return is_refused() ? (errno = ENOMEM, NULL) : __libc_calloc(count, size); }

void *realloc(void *old, size_t size) { return is_refused() ? (errno = ENOMEM, NULL) : __libc_realloc(old, size); }

void *aligned_alloc(size_t align, size_t size) {
    return is_refused() ? (errno = ENOMEM, NULL) : __libc_memalign(align, size);
}

int posix_memalign(void **out, size_t align, size_t size) {
    if (is_refused()) return ENOMEM;
    void *place = __libc_memalign(align, size);
    if (!place) return ENOMEM;
    *out = place;
    return 0;
}
