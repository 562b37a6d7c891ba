/* Stands before the C library's open, read, write, fsync and rename, by LD_PRELOAD. A read gives at most MOST_BYTES, and a write takes as many
   at most. Of the calls of the kind FAILING_CALL (`open`; `read`; `write`, to standard output; or `save`: writes to named files, fsync,
   fdatasync and rename) number FAILING_NUMBER (counted from 1) fails with FAILING_ERROR, or takes no byte if that is 0; then the file
   FAILURE_MET gets the name by which its file was opened, or `-` for standard input. It gets that name too where a file that was written is
   renamed before it is synced. */
#define _GNU_SOURCE
#include <dlfcn.h>
#include <errno.h>
#include <fcntl.h>
#include <stdarg.h>
#include <stdatomic.h>
#include <stdbool.h>
#include <stdio.h>
#include <stdlib.h>
#include <string.h>
#include <unistd.h>

#define FILES 1024

static atomic_long calls;
static _Atomic(char *) names[FILES];
static atomic_bool unsynced[FILES];
static int (*real_open)(const char *, int, ...);
static ssize_t (*real_read)(int, void *, size_t);
static ssize_t (*real_write)(int, const void *, size_t);
static int (*real_fsync)(int);
static int (*real_fdatasync)(int);
static int (*real_rename)(const char *, const char *);

__attribute__((constructor)) static void begin(void) {
    real_open = dlsym(RTLD_NEXT, "open");
    real_read = dlsym(RTLD_NEXT, "read");
    real_write = dlsym(RTLD_NEXT, "write");
    real_fsync = dlsym(RTLD_NEXT, "fsync");
    real_fdatasync = dlsym(RTLD_NEXT, "fdatasync");
    real_rename = dlsym(RTLD_NEXT, "rename");
}

static long setting(const char *name) {
    const char *value = getenv(name);
    return value ? atol(value) : 0;
}

static void note(const char *file) {
    int met = real_open(getenv("FAILURE_MET"), O_CREAT | O_WRONLY, 0600);
    real_write(met, file, strlen(file));
    close(met);
}

/* Whether this call fails. */
static int fails(const char *kind, const char *file) {
    const char *failing = getenv("FAILING_CALL");
    if (!failing || strcmp(failing, kind) != 0 || atomic_fetch_add(&calls, 1) + 1 != setting("FAILING_NUMBER"))
        return 0;
    note(file);
    errno = setting("FAILING_ERROR");
    return 1;
}

/* The name by which a file was opened, or none. */
static const char *name_of(int file) {
    return file > 2 && file < FILES ? atomic_load(&names[file]) : 0;
}

static size_t at_most(size_t size) {
    long most = setting("MOST_BYTES");
    return most > 0 && size > (size_t)most ? (size_t)most : size;
}

int open(const char *name, int flags, ...) {
    va_list rest;
    va_start(rest, flags);
    mode_t mode = flags & O_CREAT ? va_arg(rest, mode_t) : 0;
    va_end(rest);
    if (fails("open", name))
        return -1;
    int file = real_open(name, flags, mode);
    if (file >= 0 && file < FILES) {
        atomic_store(&names[file], strdup(name));
        atomic_store(&unsynced[file], false);
    }
    return file;
}

ssize_t read(int file, void *bytes, size_t size) {
    const char *name = file > 0 && file < FILES ? atomic_load(&names[file]) : "-";
    if (name && fails("read", name))
        return -1;
    return real_read(file, bytes, name ? at_most(size) : size);
}

ssize_t write(int file, const void *bytes, size_t size) {
    const char *name = name_of(file);
    if ((file == 1 && fails("write", "-")) || (name && fails("save", name)))
        return errno ? -1 : 0;
    if (name)
        atomic_store(&unsynced[file], true);
    return real_write(file, bytes, file == 1 || name ? at_most(size) : size);
}

/* Syncs a file by this call. */
static int synced(int file, int (*sync)(int)) {
    const char *name = name_of(file);
    if (name && fails("save", name))
        return -1;
    if (name)
        atomic_store(&unsynced[file], false);
    return sync(file);
}

int fsync(int file) {
    return synced(file, real_fsync);
}

int fdatasync(int file) {
    return synced(file, real_fdatasync);
}

int rename(const char *from, const char *to) {
    for (int file = 0; file < FILES; file++)
        if (atomic_load(&unsynced[file]) && strcmp(atomic_load(&names[file]), from) == 0)
            note(from);
    return fails("save", from) ? -1 : real_rename(from, to);
}
