// Loaded before the program (LD_PRELOAD): counts its calls of the C library by kind, and lets one of them fail, be short, or end the
// process. It stands in for a disk that fails, is full or slow. tools/check_faults and tools/refuse_allocations use it.
//
//   FAIL=KIND:NUMBER:ERRNO   the call of this number (from 1 on) of its kind answers this error; a close closes all the same
//   SHORT=KIND:NUMBER        it reads or writes one byte
//   KILL=KIND:NUMBER:WHEN    the process is killed there: 0 before the call, 1 in its middle (half of a write), 2 behind it
//   SLOW=MICROSECONDS        each write to a file, sync and rename takes so long
//   SWAP=NAME:OTHER          an open of NAME opens OTHER, as if it had taken the name just before
//   COUNT=FILE               at the end how many calls of each kind there were is written there, a line each
//   LOG=FILE                 each call is written there as it is made, with what it is about
#define _GNU_SOURCE
#include <dlfcn.h>
#include <errno.h>
#include <fcntl.h>
#include <signal.h>
#include <stdarg.h>
#include <stdio.h>
#include <stdlib.h>
#include <string.h>
#include <sys/stat.h>
#include <sys/syscall.h>
#include <time.h>
#include <unistd.h>

enum kind { OPEN, READ, WRITE, CLOSE, RENAME, STAT, SYNC, REMOVE, RIGHTS, LIST, RANDOM, REAL, MEMORY, KINDS };

static const char *const NAMES[KINDS] = {"open",   "read",   "write", "close",  "rename", "stat",  "sync",
                                         "remove", "rights", "list",  "random", "real",   "memory"};

static unsigned long counts[KINDS];
static int fail_kind = -1, short_kind = -1, kill_kind = -1, fail_errno, kill_when, log_file = -1;
static unsigned long fail_number, short_number, kill_number, slow;
static char swap_name[256], swap_other[256];

static int kind_of(const char *text, const char **rest) {
    for (int k = 0; k < KINDS; k++) {
        size_t n = strlen(NAMES[k]);
        if (!strncmp(text, NAMES[k], n) && text[n] == ':') {
            *rest = text + n + 1;
            return k;
        }
    }
    return -1;
}

static unsigned long number_in(const char **text) {
    char *end;
    unsigned long number = strtoul(*text, &end, 10);
    *text = *end ? end + 1 : end;
    return number;
}

__attribute__((constructor)) static void begin(void) {
    const char *rest, *it;
    if ((it = getenv("FAIL")) && (fail_kind = kind_of(it, &rest)) >= 0) {
        fail_number = number_in(&rest);
        fail_errno = (int)number_in(&rest);
    }
    if ((it = getenv("SHORT")) && (short_kind = kind_of(it, &rest)) >= 0) short_number = number_in(&rest);
    if ((it = getenv("KILL")) && (kill_kind = kind_of(it, &rest)) >= 0) {
        kill_number = number_in(&rest);
        kill_when = (int)number_in(&rest);
    }
    if ((it = getenv("SLOW"))) slow = strtoul(it, 0, 10);
    if ((it = getenv("SWAP"))) sscanf(it, "%255[^:]:%255s", swap_name, swap_other);
    if ((it = getenv("LOG"))) log_file = (int)syscall(SYS_openat, AT_FDCWD, it, O_WRONLY | O_CREAT | O_APPEND, 0600);
    memset(counts, 0, sizeof counts);
}

static void say(int file, const char *text, size_t length) {
    if (syscall(SYS_write, file, text, length) != (long)length) _exit(99);
}

__attribute__((destructor)) static void end(void) {
    const char *name = getenv("COUNT");
    if (!name) return;
    int file = (int)syscall(SYS_openat, AT_FDCWD, name, O_WRONLY | O_CREAT | O_TRUNC, 0600);
    char text[64];
    for (int k = 0; file >= 0 && k < KINDS; k++) {
        int length = snprintf(text, sizeof text, "%s %lu\n", NAMES[k], counts[k]);
        say(file, text, (size_t)length);
    }
}

static void die(void) {
    syscall(SYS_kill, getpid(), SIGKILL);
    for (;;) pause();
}

// Counts a call. Whether it is the one that fails; a call before which the process is to be killed does not come back.
static int fails(enum kind kind, const char *what) {
    unsigned long number = ++counts[kind];
    if (log_file >= 0 && kind != MEMORY) {
        char text[400];
        int length = snprintf(text, sizeof text, "%s %s\n", NAMES[kind], what);
        say(log_file, text, (size_t)length);
    }
    if ((int)kind == kill_kind && number == kill_number && kill_when == 0) die();
    if ((int)kind == fail_kind && number == fail_number) {
        errno = fail_errno;
        return 1;
    }
    return 0;
}

static void done(enum kind kind) {
    if ((int)kind == kill_kind && counts[kind] == kill_number && kill_when == 2) die();
}

static int is_short(enum kind kind) { return (int)kind == short_kind && counts[kind] == short_number; }

static void wait_on_disk(void) {
    struct timespec time = {(time_t)(slow / 1000000), (long)(slow % 1000000) * 1000};
    if (slow) nanosleep(&time, 0);
}

#define NEXT(name) ((__typeof__(&name))dlsym(RTLD_NEXT, #name))

// what a descriptor stands for, as text
static const char *about(int file) {
    static char text[16];
    snprintf(text, sizeof text, "%d", file);
    return text;
}

int open(const char *path, int flags, ...) {
    va_list more;
    va_start(more, flags);
    mode_t mode = va_arg(more, mode_t);
    va_end(more);
    if (fails(OPEN, path)) return -1;
    if (*swap_name && !strcmp(path, swap_name)) path = swap_other;
    int file = NEXT(open)(path, flags, mode);
    done(OPEN);
    return file;
}

int openat(int folder, const char *path, int flags, ...) {
    va_list more;
    va_start(more, flags);
    mode_t mode = va_arg(more, mode_t);
    va_end(more);
    if (fails(OPEN, path)) return -1;
    int file = NEXT(openat)(folder, path, flags, mode);
    done(OPEN);
    return file;
}

ssize_t read(int file, void *bytes, size_t count) {
    if (fails(READ, about(file))) return -1;
    ssize_t given = NEXT(read)(file, bytes, is_short(READ) && count > 1 ? 1 : count);
    done(READ);
    return given;
}

ssize_t write(int file, const void *bytes, size_t count) {
    if (fails(WRITE, about(file))) return -1;
    if (file > 2) wait_on_disk();
    if (kill_kind == WRITE && counts[WRITE] == kill_number && kill_when == 1) {
        NEXT(write)(file, bytes, count / 2);
        die();
    }
    ssize_t given = NEXT(write)(file, bytes, is_short(WRITE) && count > 1 ? 1 : count);
    done(WRITE);
    return given;
}

int close(int file) {
    int failed = fails(CLOSE, about(file)), error = errno;
    int given = NEXT(close)(file);
    done(CLOSE);
    if (failed) errno = error;
    return failed ? -1 : given;
}

int rename(const char *old, const char *new) {
    if (fails(RENAME, new)) return -1;
    wait_on_disk();
    int given = NEXT(rename)(old, new);
    done(RENAME);
    return given;
}

int statx(int folder, const char *path, int flags, unsigned mask, struct statx *told) {
    if (fails(STAT, path)) return -1;
    return NEXT(statx)(folder, path, flags, mask, told);
}

int fsync(int file) {
    if (fails(SYNC, about(file))) return -1;
    wait_on_disk();
    int given = NEXT(fsync)(file);
    done(SYNC);
    return given;
}

int unlink(const char *path) { return fails(REMOVE, path) ? -1 : NEXT(unlink)(path); }

int fchmod(int file, mode_t mode) { return fails(RIGHTS, about(file)) ? -1 : NEXT(fchmod)(file, mode); }

ssize_t getdents64(int file, void *names, size_t count) { return fails(LIST, about(file)) ? -1 : NEXT(getdents64)(file, names, count); }

int getentropy(void *bytes, size_t count) { return fails(RANDOM, "") ? -1 : NEXT(getentropy)(bytes, count); }

char *realpath(const char *path, char *real) { return fails(REAL, path) ? 0 : NEXT(realpath)(path, real); }

static void *(*next_malloc)(size_t);
static void *(*next_realloc)(void *, size_t);

void *malloc(size_t size) {
    if (!next_malloc) next_malloc = NEXT(malloc);
    return fails(MEMORY, "") ? 0 : next_malloc(size);
}

void *realloc(void *block, size_t size) {
    if (!next_realloc) next_realloc = NEXT(realloc);
    return fails(MEMORY, "") ? 0 : next_realloc(block, size);
}
