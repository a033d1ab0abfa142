/* Loaded before the C library: tells each write to a file, each flush and each renaming by a line in the file that FLUSHED_TOLD names, and does it. */
#define _GNU_SOURCE
#include <fcntl.h>
#include <limits.h>
#include <stdio.h>
#include <stdlib.h>
#include <string.h>
#include <sys/syscall.h>
#include <unistd.h>

static void tell(const char *what, const char *path) {
    char line[8192];
    int file = (int)syscall(SYS_openat, AT_FDCWD, getenv("FLUSHED_TOLD"), O_WRONLY | O_CREAT | O_APPEND, 0600);
    snprintf(line, sizeof line, "%s %s\n", what, path);
    syscall(SYS_write, file, line, strlen(line));
    syscall(SYS_close, file);
}

static void tell_of(const char *what, int file) {
    char link[64], path[4096] = "";
    snprintf(link, sizeof link, "/proc/self/fd/%d", file);
    if (readlink(link, path, sizeof path - 1) > 0) tell(what, path);
}

ssize_t write(int file, const void *bytes, size_t count) {
    if (file > 2) tell_of("written", file);
    return syscall(SYS_write, file, bytes, count);
}

int fsync(int file) {
    tell_of("flushed", file);
    return (int)syscall(SYS_fsync, file);
}

int rename(const char *from, const char *to) {
    int status = (int)syscall(SYS_rename, from, to);
    char path[PATH_MAX];
    if (realpath(to, path)) tell("renamed to", path);
    return status;
}
