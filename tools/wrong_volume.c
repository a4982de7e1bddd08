/* Loaded before a program (LD_PRELOAD), makes a wrong volume of its files `left` and `right`: one that answers as a right one does, and keeps less.
 * WRONG_VOLUME says in which way, in the words of tools/real_files.py. By any other words nothing is wrong. */
#define _GNU_SOURCE
#include <dlfcn.h>
#include <limits.h>
#include <stdio.h>
#include <stdlib.h>
#include <string.h>
#include <unistd.h>

/* descriptors are looked for up to this one */
#define MOST_FILES 64

static int is_wrong(const char *how) {
    const char *said = getenv("WRONG_VOLUME");
    return said != NULL && strcmp(said, how) == 0;
}

/* The last part of the name of an open file, and the whole name in `path`. */
static const char *name_of(int file, char path[PATH_MAX]) {
    char link[32];
    snprintf(link, sizeof link, "/proc/self/fd/%d", file);
    ssize_t size = readlink(link, path, PATH_MAX - 1);
    path[size < 0 ? 0 : size] = 0;
    const char *slash = strrchr(path, '/');
    return slash == NULL ? path : slash + 1;
}

static int is_data(int file) {
    char path[PATH_MAX];
    const char *name = name_of(file, path);
    return strcmp(name, "left") == 0 || strcmp(name, "right") == 0;
}

/* The other one of the two files; the same one where no other is open. */
static int other_of(int file) {
    char path[PATH_MAX];
    int is_left = strcmp(name_of(file, path), "left") == 0;
    for (int other = 3; other < MOST_FILES; other++) {
        if (strcmp(name_of(other, path), is_left ? "right" : "left") == 0) {
            return other;
        }
    }
    return file;
}

int fdatasync(int file) {
    int (*next)(int) = (int (*)(int))dlsym(RTLD_NEXT, "fdatasync");
    if (is_data(file)) {
        if (is_wrong("it doesn't sync")) {
            return 0;
        }
        if (is_wrong("it syncs the other file")) {
            return next(other_of(file));
        }
        if (is_wrong("it takes a failed sync for done")) {
            next(file);
            return 0;
        }
    }
    return next(file);
}

int fsync(int file) {
    return is_wrong("it doesn't sync the folder") ? 0 : ((int (*)(int))dlsym(RTLD_NEXT, "fsync"))(file);
}

ssize_t pwrite64(int file, const void *bytes, size_t size, off64_t at) {
    static unsigned long writes;
    ssize_t (*next)(int, const void *, size_t, off64_t) = (ssize_t(*)(int, const void *, size_t, off64_t))dlsym(RTLD_NEXT, "pwrite64");
    if (is_data(file)) {
        writes++;
        if ((is_wrong("it loses the fourth write") && writes == 4) || (is_wrong("it loses each tenth write") && writes % 10 == 0)) {
            return (ssize_t)size;
        }
        if (is_wrong("it takes a failed write for done")) {
            next(file, bytes, size, at);
            return (ssize_t)size;
        }
    }
    return next(file, bytes, size, at);
}

ssize_t pwrite(int file, const void *bytes, size_t size, off_t at) { return pwrite64(file, bytes, size, at); }

ssize_t pread64(int file, void *into, size_t size, off64_t at) {
    ssize_t (*next)(int, void *, size_t, off64_t) = (ssize_t(*)(int, void *, size_t, off64_t))dlsym(RTLD_NEXT, "pread64");
    ssize_t done = next(file, into, size, at);
    return is_data(file) && is_wrong("it takes a failed read for done") ? (ssize_t)size : done;
}

ssize_t pread(int file, void *into, size_t size, off_t at) { return pread64(file, into, size, at); }
