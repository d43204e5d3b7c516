/* Kills the program as it makes its call number KILL of a file, before that does anything, for LD_PRELOAD: the opening of a file, a read, a write, a
   sync, a cut, a renaming, or a lock. Calls are counted from 1 on. */
#define _GNU_SOURCE
#include <dlfcn.h>
#include <signal.h>
#include <stdarg.h>
#include <stdatomic.h>
#include <stdio.h>
#include <stdlib.h>
#include <sys/file.h>
#include <sys/types.h>
#include <unistd.h>

static atomic_int calls;
static int last;

#define REAL(name) ((__typeof__(&name))dlsym(RTLD_NEXT, #name))

__attribute__((constructor)) static void start(void) {
    const char *number = getenv("KILL");
    last = number ? atoi(number) : 0;
}

static void count(void) {
    if (last > 0 && atomic_fetch_add(&calls, 1) + 1 == last)
        raise(SIGKILL);
}

int open(const char *name, int flags, ...) {
    va_list more;
    int mode;
    va_start(more, flags);
    mode = va_arg(more, int);
    va_end(more);
    count();
    return REAL(open)(name, flags, mode);
}

/* Where offsets have 64 bits in any case, it is the same call. */
int open64(const char *name, int flags, ...) __attribute__((alias("open")));

ssize_t read(int file, void *bytes, size_t size) {
    count();
    return REAL(read)(file, bytes, size);
}

ssize_t write(int file, const void *bytes, size_t size) {
    count();
    return REAL(write)(file, bytes, size);
}

int fsync(int file) {
    count();
    return REAL(fsync)(file);
}

int fdatasync(int file) {
    count();
    return REAL(fdatasync)(file);
}

int ftruncate(int file, off_t size) {
    count();
    return REAL(ftruncate)(file, size);
}

int ftruncate64(int file, off64_t size) {
    count();
    return REAL(ftruncate64)(file, size);
}

int rename(const char *old, const char *new) {
    count();
    return REAL(rename)(old, new);
}

int flock(int file, int how) {
    count();
    return REAL(flock)(file, how);
}
