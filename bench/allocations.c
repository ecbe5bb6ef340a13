/* Refuses one allocation of a program: the one whose number, from 1, stands in REFUSED, whichever thread asks
   for it. It is loaded before the C library. What it counts at the end goes to the file that COUNTED names. */
#define _GNU_SOURCE
#include <dlfcn.h>
#include <stdio.h>
#include <stdlib.h>
#include <sys/syscall.h>
#include <unistd.h>

/* Counted by all threads at once. */
static _Atomic unsigned long count;
static unsigned long refused;
static const char *counted;

static void *(*next_malloc)(size_t);
static void *(*next_realloc)(void *, size_t);

__attribute__((constructor)) static void begin(void) {
    const char *number = getenv("REFUSED");
    counted = getenv("COUNTED");
    next_malloc = dlsym(RTLD_NEXT, "malloc");
    next_realloc = dlsym(RTLD_NEXT, "realloc");
    count = 0;
    refused = number ? strtoul(number, NULL, 10) : 0;
}

__attribute__((destructor)) static void end(void) {
    unsigned long total = count;
    refused = 0;
    FILE *file = counted ? fopen(counted, "w") : NULL;
    if (file) {
        fprintf(file, "%lu\n", total);
        fclose(file);
    }
}

/* The program may end by this, and then nothing is told to a library that it has loaded. */
void _exit(int status) {
    end();
    for (;;)
        syscall(SYS_exit_group, status);
}

void *malloc(size_t size) {
    if (!next_malloc)
        next_malloc = dlsym(RTLD_NEXT, "malloc");
    return ++count == refused ? NULL : next_malloc(size);
}

void *realloc(void *old, size_t size) {
    if (!next_realloc)
        next_realloc = dlsym(RTLD_NEXT, "realloc");
    return ++count == refused ? NULL : next_realloc(old, size);
}
