/* Makes standard input the one link that comes: a program that listens accepts it, reads from it, and what it sends is swallowed. When
   it asks for one more the run ends. A program that reads standard input itself finds its end. */
#define _GNU_SOURCE
#include <errno.h>
#include <string.h>
#include <sys/socket.h>
#include <sys/syscall.h>
#include <unistd.h>

static int link_file = -1;

int socket(int domain, int kind, int protocol) {
    return syscall(SYS_socket, domain, kind, protocol);
}

int bind(int file, const struct sockaddr *at, socklen_t size) {
    (void)file, (void)at, (void)size;
    return 0;
}

int listen(int file, int count) {
    (void)file, (void)count;
    return 0;
}

int accept4(int file, struct sockaddr *from, socklen_t *size, int flags) {
    (void)file, (void)flags;
    if (link_file >= 0) {
        _exit(0);
    }
    if (from && size) {
        memset(from, 0, *size);
        from->sa_family = AF_INET;
        *size = 16;
    }
    link_file = dup(STDIN_FILENO);
    return link_file;
}

static int is_link(int file) {
    return link_file >= 0 && file == link_file;
}

ssize_t read(int file, void *to, size_t size) {
    return file == STDIN_FILENO ? 0 : syscall(SYS_read, file, to, size);
}

ssize_t recv(int file, void *to, size_t size, int flags) {
    return is_link(file) ? syscall(SYS_read, file, to, size) : syscall(SYS_recvfrom, file, to, size, flags, NULL, NULL);
}

ssize_t send(int file, const void *from, size_t size, int flags) {
    return is_link(file) ? (ssize_t)size : syscall(SYS_sendto, file, from, size, flags, NULL, 0);
}

int setsockopt(int file, int level, int name, const void *value, socklen_t size) {
    (void)file, (void)level, (void)name, (void)value, (void)size;
    return 0;
}

int shutdown(int file, int how) {
    (void)file, (void)how;
    return 0;
}
