// Preloaded into a program: refuses its request for memory number REFUSED, counted from 1. Writes the number of requests and
// the size of the largest one in bytes to the file that REQUESTS names.
#include <errno.h>
#include <fcntl.h>
#include <stdio.h>
#include <stdlib.h>
#include <unistd.h>

extern void *__libc_malloc(size_t), *__libc_realloc(void *, size_t), *__libc_calloc(size_t, size_t);

static long refused = -1, requests;
static size_t greatest;

static int refuses(size_t bytes) {
    if (refused < 0) refused = getenv("REFUSED") ? atol(getenv("REFUSED")) : 0;
    if (bytes > greatest) greatest = bytes;
    if (++requests != refused) return 0;
    errno = ENOMEM;
    return 1;
}

void *malloc(size_t bytes) { return refuses(bytes) ? NULL : __libc_malloc(bytes); }
void *realloc(void *old, size_t bytes) { return refuses(bytes) ? NULL : __libc_realloc(old, bytes); }
void *calloc(size_t count, size_t bytes) { return refuses(count * bytes) ? NULL : __libc_calloc(count, bytes); }

__attribute__((destructor)) static void tell(void) {
    const char *path = getenv("REQUESTS");
    int file = path ? open(path, O_WRONLY | O_CREAT | O_TRUNC, 0600) : -1;
    if (file >= 0) dprintf(file, "%ld %zu\n", requests, greatest);
}
