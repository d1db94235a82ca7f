/* Stands before the C library's clock. It adds to each time what the file that CLOCK names says: two numbers of nanoseconds, the
   first for the clocks that never go back, the second for the time of day. The file may change while the program runs. */
#include <fcntl.h>
#include <stdint.h>
#include <stdlib.h>
#include <sys/mman.h>
#include <sys/syscall.h>
#include <time.h>
#include <unistd.h>

#define SECOND 1000000000

static const volatile int64_t *ahead;
static const int64_t none[2];

__attribute__((constructor)) static void begin(void) {
    const char *path = getenv("CLOCK");
    int file = path ? open(path, O_RDONLY) : -1;
    void *seen = file < 0 ? MAP_FAILED : mmap(NULL, 2 * sizeof *ahead, PROT_READ, MAP_SHARED, file, 0);
    ahead = seen == MAP_FAILED ? none : seen;
}

int clock_gettime(clockid_t clock, struct timespec *time) {
    if (syscall(SYS_clock_gettime, clock, time) != 0) {
        return -1;
    }
    int64_t now = (int64_t)time->tv_sec * SECOND + time->tv_nsec + ahead[clock == CLOCK_REALTIME];
    time->tv_sec = now / SECOND;
    time->tv_nsec = now % SECOND;
    return 0;
}

time_t time(time_t *to) {
    struct timespec now;
    clock_gettime(CLOCK_REALTIME, &now);
    if (to) {
        *to = now.tv_sec;
    }
    return now.tv_sec;
}
