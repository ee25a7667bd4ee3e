// Stands before a program by LD_PRELOAD, counts its calls of the C library by kind, and makes those go wrong that
// FAULTS names: items KIND:N:HOW with blanks between, where N counts the calls of that KIND from 1. HOW is what call N
// does: `fail` refuses it, `later` refuses it and all after it, `one` lets a read or a write take one byte at most,
// `none` lets a write take no byte, and `kill` ends the program before it. The counts stand in the file that
// FAULTS_COUNTS names, a number of four bytes for each kind, in the order of `kinds`, also where the program was ended.
#define _GNU_SOURCE
#include <dlfcn.h>
#include <errno.h>
#include <fcntl.h>
#include <pthread.h>
#include <signal.h>
#include <stdarg.h>
#include <stdatomic.h>
#include <stdio.h>
#include <stdlib.h>
#include <string.h>
#include <sys/mman.h>
#include <sys/stat.h>
#include <unistd.h>

enum kind { ALLOC, INPUT, OUTPUT, READ, WRITE, OPEN, RENAME, FSYNC, UNLINK, STAT, CLOSE, THREAD, KINDS };
static const char *const kinds[KINDS] = {
    "alloc", "input", "output", "read", "write", "open", "rename", "fsync", "unlink", "stat", "close", "thread",
};
static const char hows[] = "flonk"; // the first letters of what a call may do; `-` stands for what it always does
static struct { unsigned at; char how; } faults[KINDS];
static _Atomic unsigned *counts; // none until the program begins, so what is called before is not counted

static void stop(const char *why) {
    fprintf(stderr, "faults.c: %s\n", why);
    _exit(125);
}

// Calls the function of that name that the program would have called without this library.
#define REAL(name) ((__typeof__(name) *)real(&real_##name, #name))
static void *real(_Atomic(void *) *kept, const char *name) {
    if (!*kept) *kept = dlsym(RTLD_NEXT, name);
    return *kept;
}
static _Atomic(void *) real_malloc, real_calloc, real_realloc, real_read, real_write, real_open, real_rename, real_fsync,
    real_unlink, real_statx, real_close, real_pthread_create;

// Notes one item of FAULTS.
static void note(const char *item) {
    char kind[16], how[16];
    unsigned at;
    if (sscanf(item, "%15[a-z]:%u:%15[a-z]", kind, &at, how) != 3 || !strchr(hows, how[0])) stop("FAULTS is not as it should be");
    for (int k = 0; k < KINDS; k++)
        if (!strcmp(kind, kinds[k])) {
            faults[k].at = at;
            faults[k].how = how[0];
            return;
        }
    stop("FAULTS has a kind that is none");
}

__attribute__((constructor)) static void begin(void) {
    const char *file = getenv("FAULTS_COUNTS"), *item = getenv("FAULTS");
    if (!file) return;
    for (; item && *item; item += strspn(item, " ")) {
        note(item);
        item += strcspn(item, " ");
    }
    int fd = REAL(open)(file, O_RDWR);
    void *shared = mmap(NULL, KINDS * sizeof *counts, PROT_READ | PROT_WRITE, MAP_SHARED, fd, 0);
    if (shared == MAP_FAILED) stop("FAULTS_COUNTS cannot be used");
    REAL(close)(fd);
    counts = shared;
}

// Counts a call, and tells what it does.
static char turn(enum kind kind) {
    if (!counts) return '-';
    unsigned number = ++counts[kind];
    char how = faults[kind].how;
    if (number != faults[kind].at && !(how == 'l' && number > faults[kind].at)) return '-';
    if (how == 'k') raise(SIGKILL);
    return how;
}

// Whether a call is refused; the cause is told as the C library tells it.
static int refused(enum kind kind, int cause) {
    char how = turn(kind);
    if (how == '-') return 0;
    errno = cause;
    return 1;
}

// How many of `size` bytes a call may move, or -1 where it is refused.
static ssize_t moved(enum kind kind, size_t size, int cause) {
    switch (turn(kind)) {
    case '-': return (ssize_t)size;
    case 'o': return size > 0;
    case 'n': return 0;
    default: errno = cause; return -1;
    }
}

void *malloc(size_t size) { return refused(ALLOC, ENOMEM) ? NULL : REAL(malloc)(size); }
void *calloc(size_t count, size_t size) { return refused(ALLOC, ENOMEM) ? NULL : REAL(calloc)(count, size); }
void *realloc(void *old, size_t size) { return refused(ALLOC, ENOMEM) ? NULL : REAL(realloc)(old, size); }

ssize_t read(int fd, void *bytes, size_t size) {
    ssize_t part = moved(fd == STDIN_FILENO ? INPUT : READ, size, EIO);
    return part < 0 ? -1 : REAL(read)(fd, bytes, (size_t)part);
}

// What goes to standard error is not counted, since a run whose standard error fails is in all else as before.
ssize_t write(int fd, const void *bytes, size_t size) {
    ssize_t part = fd == STDERR_FILENO ? (ssize_t)size : moved(fd == STDOUT_FILENO ? OUTPUT : WRITE, size, ENOSPC);
    return part < 0 ? -1 : REAL(write)(fd, bytes, (size_t)part);
}

int open(const char *path, int flags, ...) {
    va_list rest;
    va_start(rest, flags);
    mode_t mode = flags & O_CREAT ? va_arg(rest, mode_t) : 0;
    va_end(rest);
    return refused(OPEN, EMFILE) ? -1 : REAL(open)(path, flags, mode);
}

int rename(const char *from, const char *to) { return refused(RENAME, EIO) ? -1 : REAL(rename)(from, to); }
int fsync(int fd) { return refused(FSYNC, EIO) ? -1 : REAL(fsync)(fd); }
int unlink(const char *path) { return refused(UNLINK, EIO) ? -1 : REAL(unlink)(path); }

int statx(int folder, const char *path, int flags, unsigned mask, struct statx *found) {
    return refused(STAT, EIO) ? -1 : REAL(statx)(folder, path, flags, mask, found);
}

// A close that fails has closed the file all the same.
int close(int fd) {
    int fails = refused(CLOSE, EIO), done = REAL(close)(fd);
    if (!fails) return done;
    errno = EIO;
    return -1;
}

int pthread_create(pthread_t *made, const pthread_attr_t *kind, void *(*work)(void *), void *with) {
    return turn(THREAD) == '-' ? REAL(pthread_create)(made, kind, work, with) : EAGAIN;
}
