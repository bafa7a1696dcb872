// Refuses one allocation of the program that it is loaded into: that of the number REFUSED, from 1. With COUNTED it writes into that file how many there were
// so far. Programs that this one starts are refused nothing, since they don't see these words.
#define _GNU_SOURCE
#include <errno.h>
#include <fcntl.h>
#include <stdio.h>
#include <stdlib.h>
#include <unistd.h>

extern void *__libc_malloc(size_t size);
extern void *__libc_realloc(void *place, size_t size);

static long count;
static long refused;
static int file = -1;

__attribute__((constructor)) static void begin(void) {
    const char *number = getenv("REFUSED");
    const char *name = getenv("COUNTED");
    if (number != NULL)
        refused = atol(number);
    if (name != NULL)
        file = fcntl(open(name, O_WRONLY | O_CREAT | O_TRUNC, 0666), F_DUPFD_CLOEXEC, 100);
    unsetenv("LD_PRELOAD");
    unsetenv("REFUSED");
    unsetenv("COUNTED");
    count = 0;
}

// a program may end without a word, so the number is written each time
static void tell(long number) {
    char text[32];
    int length = snprintf(text, sizeof text, "%ld\n", number);
    if (pwrite(file, text, length, 0) != length)
        abort();
}

static int is_refused(void) {
    long number = __atomic_add_fetch(&count, 1, __ATOMIC_RELAXED);
    if (file >= 0)
        tell(number);
    if (number != refused)
        return 0;
    errno = ENOMEM;
    return 1;
}

void *malloc(size_t size) { return is_refused() ? NULL : __libc_malloc(size); }

void *realloc(void *place, size_t size) { return is_refused() ? NULL : __libc_realloc(place, size); }
