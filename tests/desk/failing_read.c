/* A `read` that brings the first READ_BYTES bytes of standard input and then fails: loaded before the C library, to try the printing program. */
#define _GNU_SOURCE
#include <errno.h>
#include <stdlib.h>
#include <sys/syscall.h>
#include <unistd.h>

ssize_t read(int descriptor, void *buffer, size_t size) {
    static long left = -1;
    if (left < 0) {
        const char *bytes = getenv("READ_BYTES");
        left = bytes ? atol(bytes) : 0;
    }
    if (descriptor == 0 && left == 0) {
        errno = EIO;
        return -1;
    }
    if (descriptor == 0 && size > (size_t)left) {
        size = (size_t)left;
    }
    ssize_t got = syscall(SYS_read, descriptor, buffer, size);
    if (descriptor == 0 && got > 0) {
        left -= got;
    }
    return got;
}
