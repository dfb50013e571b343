/* Stands between a program and the system's read and write, by LD_PRELOAD, and makes them what a bad day makes of them. Of the
   environment:
     READ_MOST, WRITE_MOST   a read or a write of standard input or output moves at most so many bytes
     READ_FAILS              so many bytes of standard input come, and then reads fail
     CALLS                   a file for the count of calls on standard input and output: "reads writes" */
#define _GNU_SOURCE
#include <errno.h>
#include <stdio.h>
#include <stdlib.h>
#include <sys/syscall.h>
#include <unistd.h>

static unsigned long reads, writes, came;

static size_t most(const char *name, size_t asked) {
    const char *text = getenv(name);
    size_t limit = text ? strtoul(text, NULL, 10) : asked;
    return limit < asked ? limit : asked;
}

ssize_t read(int fd, void *to, size_t n) {
    const char *fails = getenv("READ_FAILS");
    if (fd != 0)
        return syscall(SYS_read, fd, to, n);
    reads++;
    n = most("READ_MOST", n);
    if (fails) {
        size_t left = strtoul(fails, NULL, 10) - came;
        if (left == 0) {
            errno = EIO;
            return -1;
        }
        n = left < n ? left : n;
    }
    ssize_t got = syscall(SYS_read, fd, to, n);
    came += got > 0 ? (size_t)got : 0;
    return got;
}

ssize_t write(int fd, const void *from, size_t n) {
    if (fd != 1)
        return syscall(SYS_write, fd, from, n);
    writes++;
    return syscall(SYS_write, fd, from, most("WRITE_MOST", n));
}

__attribute__((destructor)) static void tell(void) {
    const char *name = getenv("CALLS");
    FILE *file = name ? fopen(name, "w") : NULL;
    if (!file)
        return;
    fprintf(file, "%lu %lu\n", reads, writes);
    fclose(file);
}
