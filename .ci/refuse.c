/* Refuses one allocation of a program, for LD_PRELOAD: the one whose number REFUSED tells, of those that the program itself asks malloc and
   realloc for, counted from 1 on; none where it tells none. Where CALLS is `read`, reads are counted and fail in their place, and where it is
   `write`, writes to the standard output. Where SHORT is there, each read and write moves one byte. Where THREADS is `first`, only what the first
   thread asks for is counted; where it is `others`, only what others do after what was first printed. As the program ends, the file ASKED gets the
   number of all that were counted. */
#define _GNU_SOURCE
#include <dlfcn.h>
#include <errno.h>
#include <stdatomic.h>
#include <stdio.h>
#include <stdlib.h>
#include <string.h>
#include <sys/auxv.h>
#include <unistd.h>

static void *(*real_malloc)(size_t);
static void *(*real_realloc)(void *, size_t);
static ssize_t (*real_read)(int, void *, size_t);
static ssize_t (*real_write)(int, const void *, size_t);
static void (*real_exit)(int) __attribute__((noreturn));
static void *program;
static unsigned long refused;
static const char *threads = "", *calls = "memory";
static int is_short;
static atomic_int has_printed;
static atomic_ulong asked;

/* Where what holds this address begins in memory. */
static void *begin_of(const void *address) {
    Dl_info found;
    return dladdr(address, &found) ? found.dli_fbase : NULL;
}

static void find_calls(void) {
    *(void **)&real_malloc = dlsym(RTLD_NEXT, "malloc");
    *(void **)&real_realloc = dlsym(RTLD_NEXT, "realloc");
    *(void **)&real_read = dlsym(RTLD_NEXT, "read");
    *(void **)&real_write = dlsym(RTLD_NEXT, "write");
    *(void **)&real_exit = dlsym(RTLD_NEXT, "_exit");
}

__attribute__((constructor)) static void start(void) {
    const char *number = getenv("REFUSED");
    find_calls();
    refused = number ? strtoul(number, NULL, 10) : 0;
    if (getenv("THREADS"))
        threads = getenv("THREADS");
    if (getenv("CALLS"))
        calls = getenv("CALLS");
    is_short = getenv("SHORT") != NULL;
    program = begin_of((void *)getauxval(AT_PHDR));
}

static int is_counted(void) {
    int is_first = gettid() == getpid();
    if (strcmp(threads, "first") == 0)
        return is_first;
    return strcmp(threads, "others") != 0 || (!is_first && atomic_load(&has_printed));
}

/* Whether this call of the program, of one of the three kinds, is the one that is refused. */
static int is_refused(const void *caller, const char *kind) {
    if (!program || strcmp(kind, calls) != 0 || begin_of(caller) != program || !is_counted() || atomic_fetch_add(&asked, 1) + 1 != refused)
        return 0;
    errno = strcmp(kind, "memory") == 0 ? ENOMEM : EIO;
    return 1;
}

void *malloc(size_t size) {
    if (!real_malloc)
        find_calls();
    return is_refused(__builtin_return_address(0), "memory") ? NULL : real_malloc(size);
}

void *realloc(void *old, size_t size) {
    if (!real_realloc)
        find_calls();
    return is_refused(__builtin_return_address(0), "memory") ? NULL : real_realloc(old, size);
}

ssize_t read(int file, void *bytes, size_t size) {
    if (!real_read)
        find_calls();
    if (is_refused(__builtin_return_address(0), "read"))
        return -1;
    return real_read(file, bytes, is_short && size ? 1 : size);
}

ssize_t write(int file, const void *bytes, size_t size) {
    if (!real_write)
        find_calls();
    if (file == STDOUT_FILENO)
        atomic_store(&has_printed, 1);
    if (file == STDOUT_FILENO && is_refused(__builtin_return_address(0), "write"))
        return -1;
    return real_write(file, bytes, is_short && size ? 1 : size);
}

__attribute__((destructor)) static void tell(void) {
    const char *name = getenv("ASKED");
    unsigned long all = atomic_load(&asked);
    FILE *file = name ? fopen(name, "w") : NULL;
    if (file) {
        fprintf(file, "%lu\n", all);
        fclose(file);
    }
}

void _exit(int status) {
    tell();
    real_exit(status);
}
