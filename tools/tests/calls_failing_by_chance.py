"""Runs a program over files of which some calls fail, or take their time: a small library, made here with the C compiler,
stands before the system's open, read, write, rename and unlink. Documents, standard output and the record that is kept while
a run goes on are let be."""
import os
import pathlib
import shutil
import subprocess

SOURCE = r"""
#define _GNU_SOURCE
#include <dlfcn.h>
#include <errno.h>
#include <fcntl.h>
#include <stdarg.h>
#include <stdint.h>
#include <stdlib.h>
#include <string.h>
#include <unistd.h>

enum { MOST_FILES = 65536, MOST_PATHS = 1 << 16 };
static long calls;
static char is_watched[MOST_FILES];
static uint64_t spared[MOST_PATHS];

static long number(const char *name) {
    const char *stated = getenv(name);
    return stated == NULL ? 0 : atol(stated);
}

static uint64_t mixed(uint64_t word) {
    word = (word ^ (word >> 30)) * 0xbf58476d1ce4e5b9u;
    word = (word ^ (word >> 27)) * 0x94d049bb133111ebu;
    return word ^ (word >> 31);
}

static uint64_t digest_of(const char *path) {
    uint64_t digest = 14695981039346656037u;
    for (; *path; path++) digest = (digest ^ (unsigned char)*path) * 1099511628211u;
    return digest | 1;
}

/* Whether a path has failed before; it has from now on. */
static int has_failed(const char *path) {
    uint64_t digest = digest_of(path);
    for (uint64_t place = digest % MOST_PATHS;; place = (place + 1) % MOST_PATHS) {
        uint64_t found = 0;
        if (__atomic_compare_exchange_n(&spared[place], &found, digest, 0, __ATOMIC_SEQ_CST, __ATOMIC_SEQ_CST)) return 0;
        if (found == digest) return 1;
    }
}

static void tell(const char *kind, const char *path) {
    int (*opened)(const char *, int, ...) = (int (*)(const char *, int, ...))dlsym(RTLD_NEXT, "open");
    ssize_t (*put)(int, const void *, size_t) = (ssize_t (*)(int, const void *, size_t))dlsym(RTLD_NEXT, "write");
    char line[4096];
    int at = opened(getenv("FAILING_LOG"), O_WRONLY | O_APPEND | O_CREAT | O_CLOEXEC, 0600);
    size_t length = 0;
    for (const char *from = kind; *from && length < 100; from++) line[length++] = *from;
    line[length++] = ' ';
    for (const char *from = path; *from && length < sizeof line - 1; from++) line[length++] = *from == '\n' ? ' ' : *from;
    line[length++] = '\n';
    if (at >= 0) {
        if (put(at, line, length) < 0) abort();
        close(at);
    }
}

/* A read or a write takes some time, up to so many microseconds. */
static void linger(void) {
    static long lingered;
    long most = number("LINGERING");
    if (most > 0) usleep((useconds_t)(mixed((uint64_t)__atomic_add_fetch(&lingered, 1, __ATOMIC_SEQ_CST)) % (uint64_t)most));
}

/* Counts a call of a kind that may fail, and tells whether it is to. */
static int fails(const char *kind, const char *path) {
    const char *kinds = getenv("FAILING_KINDS");
    long every = number("FAILING_EVERY"), seed = number("FAILING_SEED");
    if (kinds == NULL || every == 0 || strstr(kinds, kind) == NULL) return 0;
    long call = __atomic_add_fetch(&calls, 1, __ATOMIC_SEQ_CST);
    int is_one = seed ? mixed((uint64_t)seed * 1000003u + (uint64_t)call) % (uint64_t)every == 0 : call % every == 0;
    if (!is_one || (getenv("FAILING_ONCE") != NULL && has_failed(path))) return 0;
    tell(kind, path);
    errno = EIO;
    return 1;
}

static int is_at_site(const char *path) { return strncmp(path, "sites/", 6) == 0; }

/* What is done to a file by opening it: nothing that concerns a run for a document, for the working folder, which is opened
   for its lock alone, and for the record that is kept, without which a run goes on. */
static const char *opening_of(const char *path, int flags) {
    size_t length = strlen(path);
    if (path[0] == '/' || strcmp(path, ".") == 0 || strcmp(path, ".pegasus.record") == 0 || (length > 5 && strcmp(path + length - 5, ".json") == 0)) return NULL;
    return flags & O_CREAT ? "draft" : is_at_site(path) ? "site" : "replica";
}

int open(const char *path, int flags, ...) {
    static int (*real)(const char *, int, ...);
    va_list more;
    va_start(more, flags);
    int mode = flags & O_CREAT ? va_arg(more, int) : 0;
    va_end(more);
    if (real == NULL) real = (int (*)(const char *, int, ...))dlsym(RTLD_NEXT, "open");
    const char *kind = opening_of(path, flags);
    if (kind != NULL && fails(kind, path)) return -1;
    int file = real(path, flags, mode);
    if (file >= 0 && file < MOST_FILES) is_watched[file] = kind != NULL;
    return file;
}

ssize_t read(int file, void *into, size_t size) {
    static ssize_t (*real)(int, void *, size_t);
    if (real == NULL) real = (ssize_t (*)(int, void *, size_t))dlsym(RTLD_NEXT, "read");
    if (file < 0 || file >= MOST_FILES || !is_watched[file]) return real(file, into, size);
    linger();
    return fails("read", "-") ? -1 : real(file, into, size);
}

ssize_t write(int file, const void *from, size_t size) {
    static ssize_t (*real)(int, const void *, size_t);
    if (real == NULL) real = (ssize_t (*)(int, const void *, size_t))dlsym(RTLD_NEXT, "write");
    if (file < 0 || file >= MOST_FILES || !is_watched[file]) return real(file, from, size);
    linger();
    return fails("write", "-") ? -1 : real(file, from, size);
}

int rename(const char *from, const char *to) {
    static int (*real)(const char *, const char *);
    if (real == NULL) real = (int (*)(const char *, const char *))dlsym(RTLD_NEXT, "rename");
    return fails("publication", to) ? -1 : real(from, to);
}

int unlink(const char *path) {
    static int (*real)(const char *);
    if (real == NULL) real = (int (*)(const char *))dlsym(RTLD_NEXT, "unlink");
    return is_at_site(path) && fails("removal", path) ? -1 : real(path);
}
"""
# The openings of a replica, of a site's file and of a draft; a read and a write of these; a publication; a removal.
ALL = ("replica", "site", "draft", "read", "write", "publication", "removal")


def can_be_made():
    return shutil.which("cc") is not None


def made_in(folder):
    """The library, made in this folder."""
    source, library = (str(pathlib.Path(folder, name)) for name in ("failing.c", "failing.so"))
    pathlib.Path(source).write_text(SOURCE)
    subprocess.run(["cc", "-shared", "-fPIC", "-O1", "-o", library, source, "-ldl"], check=True)
    return library


def surroundings(library, log, kinds, every, seed=0, is_once=False):
    """What has to stand in a program's environment: of the calls of these kinds each so-manyth fails, or with a seed as many by
    chance; of one path no more than once where that is asked for. Each that failed is a line of the log."""
    once = {"FAILING_ONCE": "1"} if is_once else {}
    stated = {"FAILING_LOG": str(log), "FAILING_KINDS": " ".join(kinds), "FAILING_EVERY": str(every), "FAILING_SEED": str(seed)}
    return {**os.environ, "LD_PRELOAD": library, **stated, **once}


def taking_time(library, microseconds):
    """What has to stand there so that each read and write of a file takes up to so many microseconds; none fails."""
    return {"LD_PRELOAD": library, "LINGERING": str(microseconds)}
