/* Stands before the C library's calls of files below the folder in DISK_UNDER. It writes what was done into the file in DISK_LOG, a line
   for each call that did something, and beside it what was told on standard output and on sockets. And it fails calls, as the file
   in DISK_CONTROL says: numbers of 64 bits, in the order of `enum control`. The file may change while the program runs. */
#define _GNU_SOURCE
#include <errno.h>
#include <fcntl.h>
#include <limits.h>
#include <stdarg.h>
#include <stdint.h>
#include <stdio.h>
#include <stdlib.h>
#include <string.h>
#include <sys/mman.h>
#include <sys/socket.h>
#include <sys/stat.h>
#include <sys/syscall.h>
#include <sys/uio.h>
#include <unistd.h>

enum kind { OPEN, READ, WRITE, SYNC, NAME, KINDS };
/* Calls of these kinds (bits) fail whose number, of their kind from 1, is AT or comes behind it, HOW_MANY in all or all where that is 0,
   with the error WITH. A write moves MOST bytes at most, where that isn't 0. From COUNTS on stand the numbers of calls of each kind. */
enum control { FAILING, AT, HOW_MANY, WITH, MOST, COUNTS, CONTROLS = COUNTS + KINDS };

static volatile int64_t *control;
static int64_t unset[CONTROLS];
static int log_file = -1;
static const char *under;
static const char *only;

/* ---- what is written into the log */

static void put(const char *text, size_t size) {
    if (log_file >= 0 && syscall(SYS_write, log_file, text, size) != (long)size) {
        abort();
    }
}

/* A line: a word, a path, a number, and bytes in hex digits. */
static void note(const char *word, const char *path, int64_t number, const void *bytes, size_t size) {
    if (log_file < 0) {
        return;
    }
    size_t room = strlen(word) + strlen(path) + 2 * size + 32;
    char *line = malloc(room);
    int length = snprintf(line, room, "%s %s %lld ", word, path, (long long)number);
    for (size_t at = 0; at < size; at++) {
        length += snprintf(line + length, 3, "%02x", ((const unsigned char *)bytes)[at]);
    }
    line[length] = '\n';
    put(line, length + 1);
    free(line);
}

static void note_parts(const char *word, const char *path, int64_t number, const struct iovec *parts, int count, size_t size) {
    char *bytes = malloc(size + 1);
    size_t had = 0;
    for (int part = 0; part < count && had < size; part++) {
        size_t more = parts[part].iov_len < size - had ? parts[part].iov_len : size - had;
        memcpy(bytes + had, parts[part].iov_base, more);
        had += more;
    }
    note(word, path, number, bytes, had);
    free(bytes);
}

/* ---- which calls are meant, and which fail */

static int is_meant(const char *path) {
    return under && strncmp(path, under, strlen(under)) == 0 && (!only || strstr(path, only));
}

/* The path of a descriptor, if it is meant. */
static const char *path_of(int file, char *room) {
    char link[32];
    snprintf(link, sizeof link, "/proc/self/fd/%d", file);
    ssize_t size = readlink(link, room, PATH_MAX - 1);
    if (size < 0) {
        return NULL;
    }
    room[size] = 0;
    return is_meant(room) ? room : NULL;
}

static const char *whole(const char *path, char *room) {
    if (path[0] == '/') {
        return path;
    }
    char *here = getcwd(room, PATH_MAX);
    size_t size = here ? strlen(here) : 0;
    snprintf(room + size, PATH_MAX - size, "/%s", path);
    return room;
}

/* Counts a call, and says whether it fails. */
static int fails(enum kind kind) {
    int64_t number = ++control[COUNTS + kind];
    if (!(control[FAILING] >> kind & 1) || number < control[AT] || (control[HOW_MANY] && number - control[AT] >= control[HOW_MANY])) {
        return 0;
    }
    errno = control[WITH];
    note("failed", "-", kind, NULL, 0);
    return 1;
}

static size_t cut(size_t size) {
    return control[MOST] && size > (size_t)control[MOST] ? (size_t)control[MOST] : size;
}

static int is_folder(int file) {
    struct stat seen;
    return fstat(file, &seen) == 0 && S_ISDIR(seen.st_mode);
}

/* ---- the calls */

static int open_file(int folder, const char *path, int flags, mode_t mode) {
    char room[PATH_MAX];
    const char *named = whole(path, room);
    if (!is_meant(named)) {
        return syscall(SYS_openat, folder, path, flags, mode);
    }
    if (fails(OPEN)) {
        return -1;
    }
    int is_there = syscall(SYS_faccessat, folder, path, F_OK) == 0;
    int file = syscall(SYS_openat, folder, path, flags, mode);
    if (file >= 0 && !is_there) {
        note("create", named, 0, NULL, 0);
    } else if (file >= 0 && flags & O_TRUNC) {
        note("cut", named, 0, NULL, 0);
    }
    return file;
}

static mode_t mode_in(int flags, va_list more) {
    return flags & (O_CREAT | O_TMPFILE) ? va_arg(more, mode_t) : 0;
}

#define OPENING(name, before, folder)                      \
    int name(before const char *path, int flags, ...) {    \
        va_list more;                                      \
        va_start(more, flags);                             \
        mode_t mode = mode_in(flags, more);                \
        va_end(more);                                      \
        return open_file(folder, path, flags, mode);       \
    }
#define COMMA ,
OPENING(open, , AT_FDCWD)
OPENING(open64, , AT_FDCWD)
OPENING(openat, int folder COMMA, folder)
OPENING(openat64, int folder COMMA, folder)

static ssize_t write_at(int file, const void *from, size_t size, off_t at) {
    char room[PATH_MAX];
    const char *path = path_of(file, room);
    if (!path) {
        return syscall(SYS_pwrite64, file, from, size, at);
    }
    if (fails(WRITE)) {
        return -1;
    }
    ssize_t moved = syscall(SYS_pwrite64, file, from, cut(size), at);
    if (moved > 0) {
        note("write", path, at, from, moved);
    }
    return moved;
}

static int is_told(int file) {
    int kind;
    socklen_t size = sizeof kind;
    return file == STDOUT_FILENO || (file > STDERR_FILENO && getsockopt(file, SOL_SOCKET, SO_TYPE, &kind, &size) == 0);
}

static ssize_t write_on(int file, const void *from, size_t size) {
    char room[PATH_MAX];
    const char *path = path_of(file, room);
    if (path) {
        off_t at = lseek(file, 0, SEEK_CUR);
        if (fails(WRITE)) {
            return -1;
        }
        ssize_t moved = syscall(SYS_write, file, from, cut(size));
        if (moved > 0) {
            note("write", path, at, from, moved);
        }
        return moved;
    }
    ssize_t moved = syscall(SYS_write, file, from, size);
    if (moved > 0 && is_told(file)) {
        note("told", "-", file, from, moved);
    }
    return moved;
}

ssize_t pwrite(int file, const void *from, size_t size, off_t at) {
    return write_at(file, from, size, at);
}

ssize_t pwrite64(int file, const void *from, size_t size, off_t at) {
    return write_at(file, from, size, at);
}

ssize_t write(int file, const void *from, size_t size) {
    return write_on(file, from, size);
}

ssize_t writev(int file, const struct iovec *parts, int count) {
    char room[PATH_MAX];
    if (path_of(file, room) && count > 0) {
        return write_on(file, parts[0].iov_base, parts[0].iov_len);
    }
    ssize_t moved = syscall(SYS_writev, file, parts, count);
    if (moved > 0 && is_told(file)) {
        note_parts("told", "-", file, parts, count, moved);
    }
    return moved;
}

ssize_t send(int file, const void *from, size_t size, int flags) {
    ssize_t moved = syscall(SYS_sendto, file, from, size, flags, NULL, 0);
    if (moved > 0) {
        note("told", "-", file, from, moved);
    }
    return moved;
}

ssize_t sendmsg(int file, const struct msghdr *message, int flags) {
    ssize_t moved = syscall(SYS_sendmsg, file, message, flags);
    if (moved > 0) {
        note_parts("told", "-", file, message->msg_iov, message->msg_iovlen, moved);
    }
    return moved;
}

static ssize_t read_at(int file, void *to, size_t size, off_t at) {
    char room[PATH_MAX];
    return path_of(file, room) && fails(READ) ? -1 : syscall(SYS_pread64, file, to, size, at);
}

ssize_t pread(int file, void *to, size_t size, off_t at) {
    return read_at(file, to, size, at);
}

ssize_t pread64(int file, void *to, size_t size, off_t at) {
    return read_at(file, to, size, at);
}

ssize_t read(int file, void *to, size_t size) {
    char room[PATH_MAX];
    return path_of(file, room) && fails(READ) ? -1 : syscall(SYS_read, file, to, size);
}

static int sync_by(long call, int file) {
    char room[PATH_MAX];
    const char *path = path_of(file, room);
    if (path && fails(SYNC)) {
        return -1;
    }
    int outcome = syscall(call, file);
    if (path && outcome == 0) {
        note(is_folder(file) ? "folder" : "sync", path, 0, NULL, 0);
    }
    return outcome;
}

int fsync(int file) {
    return sync_by(SYS_fsync, file);
}

int fdatasync(int file) {
    return sync_by(SYS_fdatasync, file);
}

int ftruncate(int file, off_t size) {
    char room[PATH_MAX];
    const char *path = path_of(file, room);
    if (path && fails(WRITE)) {
        return -1;
    }
    int outcome = syscall(SYS_ftruncate, file, size);
    if (path && outcome == 0) {
        note("cut", path, size, NULL, 0);
    }
    return outcome;
}

int mkdir(const char *path, mode_t mode) {
    char room[PATH_MAX];
    const char *named = whole(path, room);
    if (is_meant(named) && fails(NAME)) {
        return -1;
    }
    int outcome = syscall(SYS_mkdir, path, mode);
    if (is_meant(named) && outcome == 0) {
        note("mkdir", named, 0, NULL, 0);
    }
    return outcome;
}

int rename(const char *from, const char *to) {
    char room[PATH_MAX], other[PATH_MAX];
    const char *named = whole(from, room), *coming = whole(to, other);
    if (is_meant(named) && fails(NAME)) {
        return -1;
    }
    int outcome = syscall(SYS_rename, from, to);
    if (is_meant(named) && outcome == 0) {
        note("rename", named, 0, coming, strlen(coming));
    }
    return outcome;
}

int unlink(const char *path) {
    char room[PATH_MAX];
    const char *named = whole(path, room);
    if (is_meant(named) && fails(NAME)) {
        return -1;
    }
    int outcome = syscall(SYS_unlink, path);
    if (is_meant(named) && outcome == 0) {
        note("unlink", named, 0, NULL, 0);
    }
    return outcome;
}

__attribute__((constructor)) static void begin(void) {
    const char *path = getenv("DISK_CONTROL"), *log = getenv("DISK_LOG");
    under = getenv("DISK_UNDER");
    only = getenv("DISK_ONLY");
    int file = path ? syscall(SYS_openat, AT_FDCWD, path, O_RDWR) : -1;
    void *seen = file < 0 ? MAP_FAILED : mmap(NULL, sizeof unset, PROT_READ | PROT_WRITE, MAP_SHARED, file, 0);
    control = seen == MAP_FAILED ? unset : seen;
    log_file = log ? (int)syscall(SYS_openat, AT_FDCWD, log, O_WRONLY | O_CREAT | O_APPEND | O_CLOEXEC, 0666) : -1;
}
