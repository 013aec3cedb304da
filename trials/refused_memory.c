/* Loaded before the C library's allocator (LD_PRELOAD), it refuses the request for memory whose number FAIL_AT says, and
   with SHOW tells how many there were. trials/refused_memory.py builds it and runs programs with it. */
#define _GNU_SOURCE
#include <dlfcn.h>
#include <stdio.h>
#include <stdlib.h>
#include <sys/syscall.h>
#include <unistd.h>

static long asked = 0, refused = -1;
static int ready = 0;
static void *(*real_malloc)(size_t);
static void *(*real_realloc)(void *, size_t);

__attribute__((constructor)) static void begin(void) {
    const char *number = getenv("FAIL_AT");
    real_malloc = dlsym(RTLD_NEXT, "malloc");
    real_realloc = dlsym(RTLD_NEXT, "realloc");
    if (number) refused = atol(number);
    ready = 1;
}

static int is_refused(void) { return ready && ++asked == refused; }

void *malloc(size_t size) {
    if (!real_malloc) real_malloc = dlsym(RTLD_NEXT, "malloc");
    return is_refused() ? NULL : real_malloc(size);
}

void *realloc(void *old, size_t size) {
    if (!real_realloc) real_realloc = dlsym(RTLD_NEXT, "realloc");
    return is_refused() ? NULL : real_realloc(old, size);
}

__attribute__((destructor)) static void end(void) {
    if (ready && getenv("SHOW")) dprintf(2, "%ld\n", asked);
    ready = 0;
}

/* A program that ends so runs no destructor. */
void _exit(int status) {
    end();
    for (;;) syscall(SYS_exit_group, status);
}
