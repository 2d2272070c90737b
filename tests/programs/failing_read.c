/* A `read` that fails half-way, laid under a program by LD_PRELOAD: of each file that FAILING names by the end of its path so many bytes are read as
   HALF says, and then EIO is given. A read of no byte gives 0, as it does on a file of a disk that fails. */
#define _GNU_SOURCE
#include <errno.h>
#include <stdio.h>
#include <stdlib.h>
#include <string.h>
#include <sys/syscall.h>
#include <unistd.h>

static int is_failing(int fd) {
    char link[64], path[4096];
    const char *name = getenv("FAILING");
    snprintf(link, sizeof link, "/proc/self/fd/%d", fd);
    ssize_t size = readlink(link, path, sizeof path - 1);
    if (name == NULL || size < (ssize_t)strlen(name))
        return 0;
    path[size] = 0;
    return strcmp(path + size - strlen(name), name) == 0;
}

ssize_t read(int fd, void *buf, size_t count) {
    static size_t given;
    const char *half = getenv("HALF");
    size_t most = half == NULL ? 0 : strtoul(half, NULL, 10);
    if (count == 0 || !is_failing(fd))
        return syscall(SYS_read, fd, buf, count);
    if (given >= most) {
        errno = EIO;
        return -1;
    }
    ssize_t got = syscall(SYS_read, fd, buf, count < most - given ? count : most - given);
    if (got > 0)
        given += (size_t)got;
    return got;
}
