// Lets one call of a program on the files of a folder fail: trials/failing_calls.py says how it is used. The folder is that of
// TRIAL_FOLDER; its calls are counted from 1, and the one of the number TRIAL_FAIL fails with the error TRIAL_ERROR. With
// TRIAL_SKIP every so many-th sync of a file answers success and is not made. TRIAL_COUNT names a file to which the number of
// calls is written when the program ends, and the number of the first call that lists the folder.
#define _GNU_SOURCE
#include <dlfcn.h>
#include <errno.h>
#include <fcntl.h>
#include <stdarg.h>
#include <stdio.h>
#include <stdlib.h>
#include <string.h>
#include <sys/stat.h>
#include <sys/syscall.h>
#include <unistd.h>

// The calls of the built program on files are open, openat, statx, getdents64, pread, pwrite, ftruncate, fdatasync, fsync and unlink.
static long calls, syncs, first_listing;
static char is_ours[4096];

static long number(const char *name) {
    const char *text = getenv(name);
    return text ? atol(text) : 0;
}

static int is_in(const char *path) {
    const char *folder = getenv("TRIAL_FOLDER");
    return folder && strncmp(path, folder, strlen(folder)) == 0;
}

static int is_file(int fd) { return fd >= 0 && fd < (int)sizeof is_ours && is_ours[fd]; }

// Whether this call is the one to fail.
static int fails(void) {
    if (++calls != number("TRIAL_FAIL")) return 0;
    errno = (int)number("TRIAL_ERROR");
    return 1;
}

__attribute__((destructor)) static void told(void) {
    const char *name = getenv("TRIAL_COUNT");
    FILE *file = name ? fopen(name, "w") : NULL;
    if (file) {
        fprintf(file, "%ld %ld\n", calls, first_listing);
        fclose(file);
    }
}

/* A program that ends so runs no destructor. */
void _exit(int status) {
    told();
    for (;;) syscall(SYS_exit_group, status);
}

#define REAL(name, ...) ((int (*)(__VA_ARGS__))dlsym(RTLD_NEXT, name))

static int opened(const char *real, const char *path, int flags, mode_t mode) {
    int ours = is_in(path);
    if (ours && fails()) return -1;
    int fd = REAL(real, const char *, int, mode_t)(path, flags, mode);
    if (fd >= 0 && fd < (int)sizeof is_ours) is_ours[fd] = (char)ours;
    return fd;
}

int open(const char *path, int flags, ...) {
    va_list more;
    va_start(more, flags);
    mode_t mode = flags & O_CREAT ? va_arg(more, mode_t) : 0;
    va_end(more);
    return opened("open", path, flags, mode);
}

#define OF_FD(type, name, params, ...)                                                                                    \
    type name params {                                                                                                    \
        if (is_file(fd) && fails()) return -1;                                                                            \
        return ((type(*) params)dlsym(RTLD_NEXT, #name))(__VA_ARGS__);                                                    \
    }

OF_FD(ssize_t, pread, (int fd, void *into, size_t n, off_t at), fd, into, n, at)
OF_FD(ssize_t, pwrite, (int fd, const void *from, size_t n, off_t at), fd, from, n, at)
OF_FD(int, ftruncate, (int fd, off_t length), fd, length)
OF_FD(int, fsync, (int fd), fd)

ssize_t getdents64(int fd, void *into, size_t n) {
    if (is_file(fd) && fails()) return -1;
    if (is_file(fd) && !first_listing) first_listing = calls;
    return REAL("getdents64", int, void *, size_t)(fd, into, n);
}

int fdatasync(int fd) {
    if (is_file(fd) && fails()) return -1;
    long skip = number("TRIAL_SKIP");
    if (is_file(fd) && skip && ++syncs % skip == 0) return 0;
    return REAL("fdatasync", int)(fd);
}

int unlink(const char *path) {
    if (is_in(path) && fails()) return -1;
    return REAL("unlink", const char *)(path);
}

int openat(int at, const char *path, int flags, ...) {
    va_list more;
    va_start(more, flags);
    mode_t mode = flags & O_CREAT ? va_arg(more, mode_t) : 0;
    va_end(more);
    return at == AT_FDCWD ? opened("open", path, flags, mode) : REAL("openat", int, const char *, int, mode_t)(at, path, flags, mode);
}

int statx(int at, const char *path, int flags, unsigned mask, struct statx *found) {
    if ((*path ? is_in(path) : is_file(at)) && fails()) return -1;
    return REAL("statx", int, const char *, int, unsigned, struct statx *)(at, path, flags, mask, found);
}
