/* Makes standard input the one connection that comes to a host. What it is answered is swallowed, no file is changed, each turn of
   the loop takes a second, and when nothing has happened for some turns the run ends. */
#define _GNU_SOURCE
#include <errno.h>
#include <fcntl.h>
#include <string.h>
#include <sys/epoll.h>
#include <sys/eventfd.h>
#include <sys/socket.h>
#include <sys/syscall.h>
#include <time.h>
#include <unistd.h>

enum { IDLE_TURNS = 8, MOST = 1 << 17 };

static int listener = -1, other_side = -1, idle;
static long turns;

int bind(int file, const struct sockaddr *at, socklen_t size) {
    (void)file, (void)at, (void)size;
    return 0;
}

int listen(int file, int count) {
    (void)count;
    listener = file;
    return 0;
}

/* The loop is told of a listener by a bell that has rung. */
int epoll_ctl(int loop, int what, int file, struct epoll_event *event) {
    if (file == listener && what == EPOLL_CTL_ADD) {
        file = eventfd(1, EFD_NONBLOCK | EFD_CLOEXEC);
    }
    return syscall(SYS_epoll_ctl, loop, what, file, event);
}

static void give_input(void) {
    static char room[MOST];
    size_t size = 0;
    ssize_t more;
    while (size < sizeof room && (more = syscall(SYS_read, STDIN_FILENO, room + size, sizeof room - size)) > 0) {
        size += more;
    }
    if (syscall(SYS_write, other_side, room, size) >= 0) {
        syscall(SYS_shutdown, other_side, SHUT_WR);
    }
}

int accept4(int file, struct sockaddr *from, socklen_t *size, int flags) {
    int pair[2], room = MOST;
    (void)file, (void)flags;
    if (other_side >= 0 || socketpair(AF_UNIX, SOCK_STREAM | SOCK_NONBLOCK | SOCK_CLOEXEC, 0, pair) != 0) {
        errno = EAGAIN;
        return -1;
    }
    other_side = pair[0];
    syscall(SYS_setsockopt, other_side, SOL_SOCKET, SO_SNDBUF, &room, sizeof room);
    memset(from, 0, *size);
    from->sa_family = AF_INET;
    *size = 16;
    give_input();
    return pair[1];
}

int getpeername(int file, struct sockaddr *from, socklen_t *size) {
    (void)file;
    memset(from, 0, *size);
    from->sa_family = AF_INET;
    *size = 16;
    return 0;
}

int setsockopt(int file, int level, int name, const void *value, socklen_t size) {
    (void)file, (void)level, (void)name, (void)value, (void)size;
    return 0;
}

int epoll_wait(int loop, struct epoll_event *events, int most, int pause) {
    static char swallowed[4096];
    (void)pause;
    turns++;
    while (other_side >= 0 && syscall(SYS_read, other_side, swallowed, sizeof swallowed) > 0) {
    }
    int happened = syscall(SYS_epoll_wait, loop, events, most, 0);
    idle = happened == 0 ? idle + 1 : 0;
    if (idle > IDLE_TURNS) {
        _exit(0);
    }
    return happened;
}

int clock_gettime(clockid_t clock, struct timespec *now) {
    int outcome = syscall(SYS_clock_gettime, clock, now);
    now->tv_sec += turns;
    return outcome;
}

ssize_t pwrite(int file, const void *from, size_t size, off_t at) {
    (void)file, (void)from, (void)at;
    return size;
}

int fsync(int file) {
    (void)file;
    return 0;
}

int fdatasync(int file) {
    (void)file;
    return 0;
}

int mkdir(const char *path, mode_t mode) {
    (void)path, (void)mode;
    errno = EROFS;
    return -1;
}

int rename(const char *from, const char *to) {
    (void)from, (void)to;
    errno = EROFS;
    return -1;
}
