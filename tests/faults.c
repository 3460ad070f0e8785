/* Loaded before the C library by tests/programs: makes some calls of read, write or fsync fail or fall short. FAULT is
 * `CALL CODE SKIP TIMES`: after SKIP calls of CALL, TIMES of them fail with the error CODE; or move nothing, where CODE is 0;
 * or one byte, where it is -1. Of reads and writes only descriptors 0 and 1 are looked at. Each such call puts a byte into the file FAULT_LOG. */
#define _GNU_SOURCE
#include <errno.h>
#include <fcntl.h>
#include <stdio.h>
#include <stdlib.h>
#include <string.h>
#include <sys/syscall.h>
#include <unistd.h>

static char call[8];
static int code, skip, times = -1;

static int faulty(int fd, const char *name) {
    if (times < 0 && sscanf(getenv("FAULT"), "%7s %d %d %d", call, &code, &skip, &times) != 4) abort();
    if ((fd > 1 && strcmp(name, "fsync") != 0) || strcmp(name, call) != 0 || times == 0) return 0;
    if (skip > 0) { skip--; return 0; }
    times--;
    int log = open(getenv("FAULT_LOG"), O_WRONLY | O_APPEND | O_CREAT, 0600);
    if (log < 0 || syscall(SYS_write, log, "x", 1) != 1) abort();
    syscall(SYS_close, log);
    return 1;
}

static ssize_t moved(long number, int fd, const void *buf, size_t n, int is_faulty) {
    if (is_faulty && code > 0) { errno = code; return -1; }
    if (is_faulty && code == 0) return 0;
    return syscall(number, fd, buf, is_faulty ? 1 : n);
}

ssize_t read(int fd, void *buf, size_t n) { return moved(SYS_read, fd, buf, n, faulty(fd, "read")); }

ssize_t write(int fd, const void *buf, size_t n) { return moved(SYS_write, fd, buf, n, faulty(fd, "write")); }

int fsync(int fd) {
    if (faulty(fd, "fsync")) { errno = code; return -1; }
    return (int)syscall(SYS_fsync, fd);
}
