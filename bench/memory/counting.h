/* What stands before calls of the C library has its numbers from the environment, and at the end writes what it counted into the
   file that COUNT_IN names. A file that includes this says what it writes, by `end`. */
#include <fcntl.h>
#include <stdio.h>
#include <stdlib.h>
#include <sys/syscall.h>
#include <unistd.h>

__attribute__((destructor)) static void end(void);

/* The number in a variable, or this one where it isn't set. */
static unsigned long number(const char *name, unsigned long unset) {
    const char *text = getenv(name);
    return text ? strtoul(text, NULL, 10) : unset;
}

static void write_counts(const char *text, int length) {
    const char *path = getenv("COUNT_IN");
    int file = path ? open(path, O_WRONLY | O_CREAT | O_TRUNC, 0666) : -1;
    if (file >= 0) {
        if (write(file, text, length) != length) {
            abort();
        }
        close(file);
    }
}

/* A program that ends so runs no destructor. */
void _exit(int status) {
    end();
    for (;;) {
        syscall(SYS_exit_group, status);
    }
}
