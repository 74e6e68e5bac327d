/* Makes reads of standard input and writes to standard output of a process fail or fall short. The
 * process loads it by LD_PRELOAD.
 *
 * - READ_PIECE=N and WRITE_PIECE=N: a call moves at most N bytes.
 * - READ_FIRST=N: the first read moves at most N bytes.
 * - READ_FAILS=N and WRITE_FAILS=N: the Nth call, counted from 1, fails with the error number
 *   IO_ERROR.
 * - IO_COUNT=FILE: the numbers of reads and of writes are appended to the file at the end. */
#define _GNU_SOURCE
#include <errno.h>
#include <fcntl.h>
#include <stdio.h>
#include <stdlib.h>
#include <sys/syscall.h>
#include <unistd.h>

static unsigned long reads, writes;

/* Returns the number in an environment variable, or 0 if it is not set. */
static unsigned long number(const char *name) {
    const char *value = getenv(name);
    return value == NULL ? 0 : strtoul(value, NULL, 10);
}

/* Counts a call, and makes it fail or move fewer bytes if the environment says so. */
static ssize_t move(long call, int fd, void *buffer, size_t size, unsigned long *count,
                    const char *fails, const char *piece) {
    unsigned long most = number(count == &reads && reads == 0 && getenv("READ_FIRST") != NULL
                                    ? "READ_FIRST" : piece);
    if (++*count == number(fails)) {
        errno = (int)number("IO_ERROR");
        return -1;
    }
    return syscall(call, fd, buffer, most != 0 && size > most ? most : size);
}

ssize_t read(int fd, void *buffer, size_t size) {
    return fd == 0 ? move(SYS_read, fd, buffer, size, &reads, "READ_FAILS", "READ_PIECE")
                   : syscall(SYS_read, fd, buffer, size);
}

ssize_t write(int fd, const void *buffer, size_t size) {
    return fd != 1 ? syscall(SYS_write, fd, buffer, size)
                   : move(SYS_write, fd, (void *)buffer, size, &writes, "WRITE_FAILS", "WRITE_PIECE");
}

ssize_t __write(int fd, const void *buffer, size_t size) {
    return write(fd, buffer, size);
}

__attribute__((destructor)) static void end(void) {
    const char *file = getenv("IO_COUNT");
    FILE *out = file == NULL ? NULL : fopen(file, "a");
    if (out != NULL) {
        fprintf(out, "%lu %lu\n", reads, writes);
        fclose(out);
    }
}
