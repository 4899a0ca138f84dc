/* Refuses one allocation of a program that loads this by LD_PRELOAD: the one whose number, counted from 1, is in REFUSE. With
   REFUSE_COUNT set it tells on standard error how many there were. */
#define _GNU_SOURCE
#include <stdio.h>
#include <stdlib.h>
#include <sys/syscall.h>
#include <unistd.h>

extern void *__libc_malloc(size_t size);
extern void *__libc_realloc(void *old, size_t size);

static long count;
static long refused = -1;

static int is_refused(void) {
    if (refused < 0) {
        const char *word = getenv("REFUSE");
        refused = word ? atol(word) : 0;
    }
    count += 1;
    return count == refused;
}

void *malloc(size_t size) {
    return is_refused() ? NULL : __libc_malloc(size);
}

void *realloc(void *old, size_t size) {
    return is_refused() ? NULL : __libc_realloc(old, size);
}

static void tell(void) {
    if (getenv("REFUSE_COUNT")) {
        dprintf(2, "%ld\n", count);
    }
}

/* A built program ends by this, so no destructor runs. */
void _exit(int status) {
    tell();
    for (;;) {
        syscall(SYS_exit_group, status);
    }
}
