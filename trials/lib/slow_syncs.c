// Makes each fdatasync of a file that was written since its last one take so many microseconds longer as SLOW_SYNCS says, by whichever
// handle: slow_syncs.py beside this file. A file without such writes is synced as quickly as before, as on a disk.
#define _GNU_SOURCE
#include <dlfcn.h>
#include <pthread.h>
#include <stdlib.h>
#include <sys/stat.h>
#include <unistd.h>

#define MOST 4096

static pthread_mutex_t lock = PTHREAD_MUTEX_INITIALIZER;
static ino_t written[MOST];
static int count;

static ino_t number(int fd) {
    struct stat it;
    return fstat(fd, &it) ? 0 : it.st_ino;
}

// Notes that the file is written, or takes that back. Whether it was noted.
static int note(int fd, int is_written) {
    ino_t file = number(fd);
    pthread_mutex_lock(&lock);
    int at = 0;
    while (at < count && written[at] != file) at++;
    int was = at < count;
    if (is_written && !was && count < MOST) written[count++] = file;
    if (!is_written && was) written[at] = written[--count];
    pthread_mutex_unlock(&lock);
    return was;
}

#define REAL(name, ...) ((ssize_t (*)(__VA_ARGS__))dlsym(RTLD_NEXT, name))

ssize_t pwrite(int fd, const void *bytes, size_t length, off_t at) {
    note(fd, 1);
    return REAL("pwrite", int, const void *, size_t, off_t)(fd, bytes, length, at);
}

ssize_t pwrite64(int fd, const void *bytes, size_t length, off64_t at) {
    note(fd, 1);
    return REAL("pwrite64", int, const void *, size_t, off64_t)(fd, bytes, length, at);
}

int fdatasync(int fd) {
    const char *text = getenv("SLOW_SYNCS");
    if (text && note(fd, 0)) usleep((useconds_t)atol(text));
    return (int)REAL("fdatasync", int)(fd);
}
