"""A small library, made here with the C compiler, under which the Nth call of the system by which a program asks for a file,
or writes one, ends with an error of the device (FAILING_CALL), or the Nth write of its text (FAILING_WRITE); how many calls
there were it tells in a file (CALLS_FILE). The calls on the record that is kept while a run goes on are counted where
WITH_KEPT says so. Or the program is killed at the Nth call, before it is made (KILLED_BEFORE) or after it (KILLED_AFTER)."""
import os
import pathlib
import subprocess

SOURCE = r"""
#define _GNU_SOURCE
#include <dirent.h>
#include <dlfcn.h>
#include <errno.h>
#include <fcntl.h>
#include <signal.h>
#include <stdarg.h>
#include <stdio.h>
#include <stdlib.h>
#include <string.h>
#include <sys/stat.h>
#include <sys/syscall.h>
#include <unistd.h>

static long calls, writes;

static long asked(const char *name) {
    const char *value = getenv(name);
    return value == NULL ? 0 : atol(value);
}

/* The number of the call that this thread makes. */
static __thread long made;

/* The files that are open on the record that is kept. */
static char is_kept[4096];

static int is_record(const char *path) { return strcmp(path, ".pegasus.record") == 0; }

static int is_let_be(int is_of_record) { return is_of_record && getenv("WITH_KEPT") == NULL; }

/* Whether this call is the one that fails. */
static int fails(void) {
    made = __atomic_add_fetch(&calls, 1, __ATOMIC_SEQ_CST);
    if (asked("KILLED_BEFORE") == made) kill(getpid(), SIGKILL);
    if (asked("FAILING_CALL") != made) return 0;
    errno = EIO;
    return 1;
}

static long done(long answer) {
    if (asked("KILLED_AFTER") == made) kill(getpid(), SIGKILL);
    return answer;
}

#define REAL(name) __typeof__(&name) real = (__typeof__(&name))dlsym(RTLD_NEXT, #name)

int open(const char *path, int flags, ...) {
    REAL(open);
    va_list more;
    va_start(more, flags);
    int mode = va_arg(more, int);
    va_end(more);
    if (!is_let_be(is_record(path)) && fails()) return -1;
    int file = is_let_be(is_record(path)) ? real(path, flags, mode) : (int)done(real(path, flags, mode));
    if (file >= 0 && file < (int)sizeof is_kept) is_kept[file] = is_record(path);
    return file;
}

ssize_t read(int file, void *into, size_t count) {
    REAL(read);
    return fails() ? -1 : done(real(file, into, count));
}

/* The text is taken a byte at a time, and its Nth write fails, where that is asked. */
static ssize_t text_write(const void *from, size_t count) {
    REAL(write);
    if (++writes == asked("FAILING_WRITE")) {
        errno = ENOSPC;
        return -1;
    }
    return real(1, from, count == 0 ? 0 : 1);
}

ssize_t write(int file, const void *from, size_t count) {
    REAL(write);
    if (file == 1 && asked("FAILING_WRITE") != 0) return text_write(from, count);
    if (file >= 0 && file < (int)sizeof is_kept && is_let_be(is_kept[file])) return real(file, from, count);
    return fails() ? -1 : done(real(file, from, count));
}

int statx(int folder, const char *path, int flags, unsigned mask, struct statx *into) {
    REAL(statx);
    if (is_let_be(is_record(path))) return real(folder, path, flags, mask, into);
    return fails() ? -1 : (int)done(real(folder, path, flags, mask, into));
}

ssize_t getdents64(int folder, void *into, size_t count) {
    REAL(getdents64);
    return fails() ? -1 : done(real(folder, into, count));
}

int mkdir(const char *path, mode_t mode) {
    REAL(mkdir);
    return fails() ? -1 : (int)done(real(path, mode));
}

int rename(const char *from, const char *to) {
    REAL(rename);
    return fails() ? -1 : (int)done(real(from, to));
}

int unlink(const char *path) {
    REAL(unlink);
    if (is_let_be(is_record(path))) return real(path);
    return fails() ? -1 : (int)done(real(path));
}

static void tell(void) {
    const char *place = getenv("CALLS_FILE");
    FILE *out;
    long counted = calls;
    if (place == NULL || (out = fopen(place, "w")) == NULL) return;
    fprintf(out, "%ld", counted);
    fclose(out);
}

__attribute__((destructor)) static void at_end(void) { tell(); }

/* A program that may start threads ends by this call, which no destructor outlives. */
void _exit(int status) {
    tell();
    syscall(SYS_exit_group, status);
    __builtin_unreachable();
}
"""


def made_library(folder):
    source, library = (os.path.join(folder, name) for name in ("fail.c", "fail.so"))
    pathlib.Path(source).write_text(SOURCE)
    subprocess.run(["cc", "-shared", "-fPIC", "-O1", "-o", library, source, "-ldl"], check=True)
    return library
