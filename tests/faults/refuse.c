/* Refuses one allocation of a process, number REFUSED_ALLOCATION (counted from 1), and then creates the file REFUSAL_MET. Loaded
   before the C library, by LD_PRELOAD. */
#define _GNU_SOURCE
#include <dlfcn.h>
#include <errno.h>
#include <fcntl.h>
#include <stdatomic.h>
#include <stdlib.h>
#include <unistd.h>

static atomic_long calls;
static long refused;
static void *(*real_malloc)(size_t);
static void *(*real_calloc)(size_t, size_t);
static void *(*real_realloc)(void *, size_t);
static int (*real_memalign)(void **, size_t, size_t);
static void *(*real_aligned)(size_t, size_t);

__attribute__((constructor)) static void begin(void) {
    const char *number = getenv("REFUSED_ALLOCATION");
    real_malloc = dlsym(RTLD_NEXT, "malloc");
    real_calloc = dlsym(RTLD_NEXT, "calloc");
    real_realloc = dlsym(RTLD_NEXT, "realloc");
    real_memalign = dlsym(RTLD_NEXT, "posix_memalign");
    real_aligned = dlsym(RTLD_NEXT, "aligned_alloc");
    atomic_store(&calls, 0);
    refused = number ? atol(number) : 0;
}

static int refuse(void) {
    if (refused == 0 || atomic_fetch_add(&calls, 1) + 1 != refused)
        return 0;
    const char *met = getenv("REFUSAL_MET");
    int file = met ? open(met, O_CREAT | O_WRONLY, 0600) : -1;
    if (file >= 0)
        close(file);
    return 1;
}

static void *none(void) {
    errno = ENOMEM;
    return 0;
}

void *malloc(size_t size) {
    if (!real_malloc)
        real_malloc = dlsym(RTLD_NEXT, "malloc");
    return refuse() ? none() : real_malloc(size);
}

void *realloc(void *old, size_t size) {
    if (!real_realloc)
        real_realloc = dlsym(RTLD_NEXT, "realloc");
    return refuse() ? none() : real_realloc(old, size);
}

/* dlsym itself may call calloc, before the constructor has run: the C library's own serves it. */
extern void *__libc_calloc(size_t, size_t);

void *calloc(size_t count, size_t size) {
    if (!real_calloc)
        return __libc_calloc(count, size);
    return refuse() ? none() : real_calloc(count, size);
}

int posix_memalign(void **place, size_t alignment, size_t size) {
    if (!real_memalign)
        real_memalign = dlsym(RTLD_NEXT, "posix_memalign");
    return refuse() ? ENOMEM : real_memalign(place, alignment, size);
}

void *aligned_alloc(size_t alignment, size_t size) {
    if (!real_aligned)
        real_aligned = dlsym(RTLD_NEXT, "aligned_alloc");
    return refuse() ? none() : real_aligned(alignment, size);
}
