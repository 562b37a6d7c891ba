/* Stands before the C library's open and read, by LD_PRELOAD. Each name that is opened for reading is a line in the file OPENED. Before the file
   SWAPPED is opened, the file SWAPPED_FOR takes its place. A read gives MOST_BYTES at most. */
#define _GNU_SOURCE
#include <dlfcn.h>
#include <fcntl.h>
#include <stdarg.h>
#include <stdio.h>
#include <stdlib.h>
#include <string.h>
#include <unistd.h>

static int (*real_open)(const char *, int, ...);
static ssize_t (*real_read)(int, void *, size_t);

__attribute__((constructor)) static void begin(void) {
    real_open = dlsym(RTLD_NEXT, "open");
    real_read = dlsym(RTLD_NEXT, "read");
}

static void note(const char *name) {
    const char *opened = getenv("OPENED");
    int file = opened ? real_open(opened, O_CREAT | O_APPEND | O_WRONLY, 0600) : -1;
    if (file >= 0) {
        dprintf(file, "%s\n", name);
        close(file);
    }
}

int open(const char *name, int flags, ...) {
    va_list rest;
    va_start(rest, flags);
    mode_t mode = flags & O_CREAT ? va_arg(rest, mode_t) : 0;
    va_end(rest);
    const char *swapped = getenv("SWAPPED");
    if (swapped && strcmp(swapped, name) == 0)
        rename(getenv("SWAPPED_FOR"), name);
    if ((flags & O_ACCMODE) == O_RDONLY)
        note(name);
    return real_open(name, flags, mode);
}

ssize_t read(int file, void *bytes, size_t size) {
    const char *most = getenv("MOST_BYTES");
    return real_read(file, bytes, most && size > (size_t)atol(most) ? (size_t)atol(most) : size);
}
