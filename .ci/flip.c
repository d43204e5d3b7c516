/* Calls a program once for each of some bits of a file, each time with that one turned, for LD_PRELOAD: it forks before the program begins, so that no call
   costs more than a fork. FLIPPED is the file, in the folder that the program is called in; BITS names a file with the bits, four bytes each, the least first;
   GIVEN is the standard input of each call. What came of each goes to the file TOLD: six numbers of four bytes, the bit, the status (128 and the signal where
   one ended it), how many bytes at the front of the file are as they were turned, how many it has now, and how many were printed and told; and then those.
   Before each call the file is as it was but for that bit, and files of the folder that weren't there at first are removed. */
#define _GNU_SOURCE
#include <dirent.h>
#include <fcntl.h>
#include <poll.h>
#include <stdint.h>
#include <stdio.h>
#include <stdlib.h>
#include <string.h>
#include <sys/wait.h>
#include <unistd.h>

enum { SECONDS = 30, MOST = 1 << 16, NAMES = 64 };

static char names[NAMES][256];
static int count_of_names;

static void fail(const char *why) {
    perror(why);
    _exit(125);
}

/* The bytes of a file, and how many. */
static unsigned char *bytes_of(const char *path, size_t *size) {
    int file = open(path, O_RDONLY | O_CLOEXEC);
    off_t end = file < 0 ? -1 : lseek(file, 0, SEEK_END);
    unsigned char *bytes = malloc(end < 1 ? 1 : (size_t)end);
    if (end < 0 || !bytes || pread(file, bytes, (size_t)end, 0) != end)
        fail(path);
    close(file);
    *size = (size_t)end;
    return bytes;
}

static int is_known(const char *name) {
    for (int at = 0; at < count_of_names; at++)
        if (strcmp(names[at], name) == 0)
            return 1;
    return 0;
}

/* Goes through the folder: notes the names that are there, or removes those that weren't. */
static void go_through(int removes) {
    DIR *folder = opendir(".");
    struct dirent *entry;
    if (!folder)
        fail("the folder");
    while ((entry = readdir(folder))) {
        if (!removes && count_of_names < NAMES)
            strcpy(names[count_of_names++], entry->d_name);
        else if (removes && !is_known(entry->d_name))
            unlink(entry->d_name);
    }
    closedir(folder);
}

static void put(const char *path, const unsigned char *bytes, size_t size) {
    int file = open(path, O_WRONLY | O_TRUNC | O_CLOEXEC);
    if (file < 0 || write(file, bytes, size) != (ssize_t)size)
        fail(path);
    close(file);
}

/* Reads both pipes until both are at their end. */
static void read_both(int from[2], char text[2][MOST], uint32_t size[2]) {
    struct pollfd ends[2] = {{from[0], POLLIN, 0}, {from[1], POLLIN, 0}};
    while (ends[0].fd >= 0 || ends[1].fd >= 0) {
        if (poll(ends, 2, -1) < 0)
            fail("poll");
        for (int at = 0; at < 2; at++) {
            if (ends[at].fd < 0 || !ends[at].revents)
                continue;
            ssize_t more = read(ends[at].fd, text[at] + size[at], MOST - size[at]);
            if (more <= 0)
                ends[at].fd = -1;
            else
                size[at] += (uint32_t)more;
        }
    }
}

static void give(const char *given) {
    int way[2];
    if (pipe(way) < 0 || write(way[1], given, strlen(given)) < 0)
        fail("the input");
    close(way[1]);
    dup2(way[0], 0);
    close(way[0]);
}

/* In the child it comes back, and the program begins; in the parent once that has ended. */
static int call(const char *given, char text[2][MOST], uint32_t size[2], int *status) {
    int printed[2], told[2];
    if (pipe2(printed, O_CLOEXEC) < 0 || pipe2(told, O_CLOEXEC) < 0)
        fail("a pipe");
    pid_t child = fork();
    if (child < 0)
        fail("fork");
    if (child == 0) {
        alarm(SECONDS);
        give(given);
        dup2(printed[1], 1);
        dup2(told[1], 2);
        for (int at = 0; at < 2; at++) {
            close(printed[at]);
            close(told[at]);
        }
        return 1;
    }
    close(printed[1]);
    close(told[1]);
    read_both((int[2]){printed[0], told[0]}, text, size);
    close(printed[0]);
    close(told[0]);
    if (waitpid(child, status, 0) < 0)
        fail("wait");
    return 0;
}

static uint32_t same_front(const unsigned char *one, size_t size, const unsigned char *other, size_t more) {
    size_t at = 0;
    while (at < size && at < more && one[at] == other[at])
        at++;
    return (uint32_t)at;
}

__attribute__((constructor)) static void start(void) {
    const char *path = getenv("FLIPPED"), *given = getenv("GIVEN");
    static char text[2][MOST];
    size_t size, listed, left;
    if (!path || !given || !getenv("BITS") || !getenv("TOLD"))
        return;
    unsigned char *kept = bytes_of(path, &size), *bits = bytes_of(getenv("BITS"), &listed);
    int told = open(getenv("TOLD"), O_WRONLY | O_CREAT | O_TRUNC | O_CLOEXEC, 0600);
    if (told < 0)
        fail("the file TOLD");
    go_through(0);
    for (size_t at = 0; at + 4 <= listed; at += 4) {
        uint32_t bit, sizes[2] = {0, 0};
        int status;
        memcpy(&bit, bits + at, 4);
        kept[bit / 8] ^= (unsigned char)(1 << bit % 8);
        put(path, kept, size);
        if (call(given, text, sizes, &status)) {
            close(told);
            return;
        }
        unsigned char *now = bytes_of(path, &left);
        uint32_t ended = WIFEXITED(status) ? (uint32_t)WEXITSTATUS(status) : 128u + (uint32_t)WTERMSIG(status);
        uint32_t numbers[6] = {bit, ended, same_front(kept, size, now, left), (uint32_t)left, sizes[0], sizes[1]};
        if (write(told, numbers, sizeof numbers) != sizeof numbers || write(told, text[0], sizes[0]) < 0 || write(told, text[1], sizes[1]) < 0)
            fail("the file TOLD");
        free(now);
        kept[bit / 8] ^= (unsigned char)(1 << bit % 8);
        go_through(1);
    }
    put(path, kept, size);
    _exit(0);
}
