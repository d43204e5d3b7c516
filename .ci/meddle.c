/* Writes down what a program does with its files and sockets, a line for each call in the file CALLS, and meddles with it, for LD_PRELOAD. MEDDLE
   says how, in words by threes: a call, the number of it, counted from 1 on, and what becomes of it. Calls of journals are `read`, `append`, `sync`
   and `cut`, and `folder` is the sync of another file: each may `fail`, or `wait` until the pipe GATE was opened and closed. So may a `tell`, a write
   to the standard output, of which `tell 0 short` has each take one byte. A `reply` accepts a Write, and may come `ahead`, as if of the Write
   after that, or `bad`, as no frame. A `connect` may `fail`, as if nobody listened there, and so may a `start`, of a thread. Where SLOW is given, each
   sync of a journal takes so many microseconds more. */
#define _GNU_SOURCE
#include <dlfcn.h>
#include <errno.h>
#include <fcntl.h>
#include <pthread.h>
#include <stdarg.h>
#include <stdatomic.h>
#include <stdio.h>
#include <stdlib.h>
#include <string.h>
#include <sys/socket.h>
#include <unistd.h>

#define FILES 4096
/* Where a reply that accepts a Write has its parts, and how long it is. */
#define KIND 2
#define ORIGIN 3
#define SEQ_END 7
#define CLOCK_END 11
#define DEPS 12
#define ACCEPTED_BYTES 76

static int calls = -1;
static const char *meddle = "", *gate = "";
static long slow;
static char is_journal[FILES];
static atomic_int reads, appends, syncs, cuts, folders, replies, tells, connects, starts;

#define REAL(name) ((__typeof__(&name))dlsym(RTLD_NEXT, #name))

__attribute__((constructor)) static void start(void) {
    const char *name = getenv("CALLS");
    if (name)
        calls = REAL(open)(name, O_WRONLY | O_CREAT | O_APPEND | O_CLOEXEC, 0666);
    if (getenv("MEDDLE"))
        meddle = getenv("MEDDLE");
    if (getenv("GATE"))
        gate = getenv("GATE");
    if (getenv("SLOW"))
        slow = atol(getenv("SLOW"));
}

__attribute__((format(printf, 1, 2))) static void note(const char *format, ...) {
    int before = errno;
    va_list members;
    va_start(members, format);
    if (calls >= 0)
        vdprintf(calls, format, members);
    va_end(members);
    errno = before;
}

/* What becomes of the next call of this name; nothing where MEDDLE doesn't say. */
static const char *fate_of(const char *name, atomic_int *number) {
    char words[32];
    const char *found;
    snprintf(words, sizeof words, "%s %d ", name, atomic_fetch_add(number, 1) + 1);
    found = strstr(meddle, words);
    return found ? found + strlen(words) : "";
}

static int is(const char *fate, const char *word) { return strncmp(fate, word, strlen(word)) == 0; }

/* Waits until somebody opened the pipe and closed it. */
static void pass_gate(void) {
    int file = REAL(open)(gate, O_RDONLY | O_CLOEXEC);
    char byte;
    while (REAL(read)(file, &byte, 1) > 0)
        ;
    close(file);
}

/* Whether the next call of this name fails. One that waits does so before. */
static int fails(const char *name, atomic_int *number) {
    const char *fate = fate_of(name, number);
    if (is(fate, "wait"))
        pass_gate();
    errno = EIO;
    return is(fate, "fail");
}

static int in_journal(int file) { return file >= 0 && file < FILES && is_journal[file]; }

static int opened(int file, const char *name) {
    size_t length = strlen(name);
    if (file >= 0 && file < FILES)
        is_journal[file] = length > 8 && strcmp(name + length - 8, ".journal") == 0;
    note("open %d %s\n", file, name);
    return file;
}

int open(const char *name, int flags, ...) {
    va_list more;
    int mode;
    va_start(more, flags);
    mode = va_arg(more, int);
    va_end(more);
    return opened(REAL(open)(name, flags, mode), name);
}

/* Where offsets have 64 bits in any case, it is the same call. */
int open64(const char *name, int flags, ...) __attribute__((alias("open")));

ssize_t read(int file, void *bytes, size_t size) {
    return in_journal(file) && fails("read", &reads) ? -1 : REAL(read)(file, bytes, size);
}

static ssize_t tell(const void *bytes, size_t size) {
    note("tell %zu\n", size);
    if (fails("tell", &tells))
        return -1;
    return REAL(write)(1, bytes, size && strstr(meddle, "tell 0 short ") ? 1 : size);
}

ssize_t write(int file, const void *bytes, size_t size) {
    ssize_t count;
    if (file == 1)
        return tell(bytes, size);
    if (!in_journal(file))
        return REAL(write)(file, bytes, size);
    if (fails("append", &appends))
        return -1;
    count = REAL(write)(file, bytes, size);
    note("append %d %zd\n", file, count);
    return count;
}

int fsync(int file) {
    int failed = in_journal(file) ? fails("sync", &syncs) : fails("folder", &folders);
    if (failed || REAL(fsync)(file) != 0)
        return -1;
    if (slow > 0 && in_journal(file))
        usleep((useconds_t)slow);
    note("sync %d\n", file);
    return 0;
}

int fdatasync(int file) { return fsync(file); }

static int cut(int file, off_t size) {
    if (in_journal(file) && fails("cut", &cuts))
        return -1;
    note("cut %d %lld\n", file, (long long)size);
    return REAL(ftruncate)(file, size);
}

int ftruncate(int file, off_t size) { return cut(file, size); }
int ftruncate64(int file, off64_t size) { return cut(file, size); }

int connect(int file, const struct sockaddr *address, socklen_t size) {
    note("connect\n");
    if (fails("connect", &connects)) {
        errno = ECONNREFUSED;
        return -1;
    }
    return REAL(connect)(file, address, size);
}

int pthread_create(pthread_t *thread, const pthread_attr_t *about, void *(*body)(void *), void *given) {
    return fails("start", &starts) ? EAGAIN : REAL(pthread_create)(thread, about, body, given);
}

ssize_t send(int file, const void *bytes, size_t size, int flags) {
    note("send %zu\n", size);
    return REAL(send)(file, bytes, size, flags);
}

ssize_t recv(int file, void *bytes, size_t size, int flags) {
    ssize_t count = REAL(recv)(file, bytes, size, flags);
    unsigned char *frame = bytes;
    const char *fate;
    if (count != ACCEPTED_BYTES || frame[KIND] != 0x12)
        return count;
    fate = fate_of("reply", &replies);
    if (is(fate, "bad"))
        frame[KIND] = 0x7f;
    if (is(fate, "ahead")) {
        frame[SEQ_END]++;
        frame[CLOCK_END]++;
        frame[DEPS + 4 * frame[ORIGIN] + 3]++;
    }
    return count;
}
