/* Lets chosen allocations of a program fail. failing_memory.py builds it and loads it before the program (LD_PRELOAD).

   It stands in for malloc, calloc and realloc, by which the program's own code and the C library come by memory. Thread stacks, which the
   system maps, and the memory of sockets are not reached. Calls are counted from 1 over all threads, from the program's start.

   Before the program begins, the process forks once for each run of the plan, and the child runs the program. So a run costs no more than
   its own work. The plan comes on standard input, a run for each line: the numbers of the calls that fail, with blanks between them. For
   each run a record goes to standard output: one line `status calls bytes-of-out bytes-of-err`, and then these bytes. A run that does not end
   in time has status -1, one that a signal ends has -2. */
#define _GNU_SOURCE
#include <errno.h>
#include <fcntl.h>
#include <signal.h>
#include <stdatomic.h>
#include <stdio.h>
#include <stdlib.h>
#include <string.h>
#include <sys/mman.h>
#include <sys/wait.h>
#include <unistd.h>

extern void *__libc_malloc(size_t);
extern void *__libc_calloc(size_t, size_t);
extern void *__libc_realloc(void *, size_t);

enum { MOST = 8, SECONDS = 20 };

static atomic_long calls;
static long failing[MOST];
static int chosen;
static int counts;
static long *told;

static int fails(void) {
    if (!counts) return 0;
    long mine = atomic_fetch_add(&calls, 1) + 1;
    *told = mine;
    for (int place = 0; place < chosen; place++)
        if (failing[place] == mine) {
            errno = ENOMEM;
            return 1;
        }
    return 0;
}

void *malloc(size_t size) { return fails() ? NULL : __libc_malloc(size); }
void *calloc(size_t count, size_t size) { return fails() ? NULL : __libc_calloc(count, size); }
void *realloc(void *old, size_t size) { return fails() ? NULL : __libc_realloc(old, size); }

static void put(int file, const void *bytes, size_t size) {
    const char *from = bytes;
    while (size > 0) {
        ssize_t wrote = write(file, from, size);
        if (wrote <= 0) _exit(90);
        from += wrote;
        size -= (size_t)wrote;
    }
}

static void copy(int from, int to, long size) {
    static char piece[65536];
    lseek(from, 0, SEEK_SET);
    while (size > 0) {
        ssize_t got = read(from, piece, sizeof piece);
        if (got <= 0) _exit(91);
        put(to, piece, (size_t)got);
        size -= got;
    }
}

static int read_line(char *line, size_t room) {
    size_t size = 0;
    char byte;
    while (read(0, &byte, 1) == 1) {
        if (byte == '\n') {
            line[size] = 0;
            return 1;
        }
        if (size + 1 < room) line[size++] = byte;
    }
    return 0;
}

static void choose(char *line) {
    chosen = 0;
    for (char *word = strtok(line, " "); word && chosen < MOST; word = strtok(NULL, " "))
        failing[chosen++] = atol(word);
}

static int ended(pid_t child) {
    int status = 0;
    waitpid(child, &status, 0);
    if (WIFEXITED(status)) return WEXITSTATUS(status);
    return WTERMSIG(status) == SIGALRM ? -1 : -2;
}

__attribute__((constructor)) static void run_plan(void) {
    unsetenv("LD_PRELOAD");
    told = mmap(NULL, sizeof *told, PROT_READ | PROT_WRITE, MAP_SHARED | MAP_ANONYMOUS, -1, 0);
    int out = memfd_create("out", 0), err = memfd_create("err", 0);
    char line[256], head[128];
    while (read_line(line, sizeof line)) {
        choose(line);
        *told = 0;
        if (ftruncate(out, 0) || ftruncate(err, 0)) _exit(92);
        lseek(out, 0, SEEK_SET);
        lseek(err, 0, SEEK_SET);
        pid_t child = fork();
        if (child < 0) _exit(93);
        if (child == 0) {
            int nothing = open("/dev/null", O_RDONLY);
            dup2(nothing, 0);
            dup2(out, 1);
            dup2(err, 2);
            alarm(SECONDS);
            counts = 1;
            return;
        }
        int status = ended(child);
        long of_out = lseek(out, 0, SEEK_END), of_err = lseek(err, 0, SEEK_END);
        put(1, head, (size_t)snprintf(head, sizeof head, "%d %ld %ld %ld\n", status, *told, of_out, of_err));
        copy(out, 1, of_out);
        copy(err, 1, of_err);
    }
    _exit(0);
}
