/* Stands before the C library's read of standard input and write of standard output, and before its recv and send of sockets.
   Where MOST is set a call moves at most so many bytes. The call of the number in FAIL_READ, FAIL_WRITE, FAIL_RECV or FAIL_SEND,
   counted from 1, fails with the error whose number is in FAIL_WITH. At the end the numbers of calls, of reads, writes, recvs and
   sends, are written into the file that COUNT_IN names. */
#include "counting.h"
#include <errno.h>
#include <sys/socket.h>

static unsigned long reads, writes, recvs, sends;
static unsigned long fail_read, fail_write, fail_recv, fail_send, fail_with, most;

static size_t cut(size_t size) {
    return most != 0 && size > most ? most : size;
}

ssize_t read(int file, void *to, size_t size) {
    if (file != STDIN_FILENO) {
        return syscall(SYS_read, file, to, size);
    }
    if (++reads == fail_read) {
        errno = fail_with;
        return -1;
    }
    return syscall(SYS_read, file, to, cut(size));
}

ssize_t write(int file, const void *from, size_t size) {
    if (file != STDOUT_FILENO) {
        return syscall(SYS_write, file, from, size);
    }
    if (++writes == fail_write) {
        errno = fail_with;
        return -1;
    }
    return syscall(SYS_write, file, from, cut(size));
}

/* Several threads have sockets. */
static int is_next(unsigned long *calls, unsigned long number) {
    if (__atomic_add_fetch(calls, 1, __ATOMIC_SEQ_CST) != number) {
        return 0;
    }
    errno = fail_with;
    return 1;
}

ssize_t recv(int socket, void *to, size_t size, int flags) {
    return is_next(&recvs, fail_recv) ? -1 : syscall(SYS_recvfrom, socket, to, cut(size), flags, NULL, NULL);
}

ssize_t send(int socket, const void *from, size_t size, int flags) {
    return is_next(&sends, fail_send) ? -1 : syscall(SYS_sendto, socket, from, cut(size), flags, NULL, 0);
}

ssize_t __read(int file, void *to, size_t size) {
    return read(file, to, size);
}

ssize_t __write(int file, const void *from, size_t size) {
    return write(file, from, size);
}

__attribute__((constructor)) static void begin(void) {
    fail_read = number("FAIL_READ", 0);
    fail_write = number("FAIL_WRITE", 0);
    fail_recv = number("FAIL_RECV", 0);
    fail_send = number("FAIL_SEND", 0);
    fail_with = number("FAIL_WITH", 0);
    most = number("MOST", 0);
}

static void end(void) {
    char text[96];
    int length = snprintf(text, sizeof text, "%lu %lu %lu %lu\n", reads, writes, recvs, sends);
    write_counts(text, length);
}
