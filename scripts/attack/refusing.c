/* A library that is loaded before a program, and refuses its requests in turn: at each request for memory, each read, each write
   and each question for a file it forks, and lets the copy have a refusal there and go on. How the copy ends is written to the
   file REFUSE_REPORT, and the program itself goes on untroubled. SHORT=N lets each read and write do N bytes at most, and
   REFUSE_STEP=N takes each N-th request for memory alone. Without REFUSE_REPORT nothing is refused. */
#define _GNU_SOURCE
#include <dlfcn.h>
#include <errno.h>
#include <fcntl.h>
#include <limits.h>
#include <stdarg.h>
#include <stdint.h>
#include <stdio.h>
#include <stdlib.h>
#include <string.h>
#include <sys/mman.h>
#include <sys/stat.h>
#include <sys/wait.h>
#include <unistd.h>

enum kind { MEMORY, READ, WRITE, OPEN, KINDS };
enum { ENDS = 1000, GROWS = 1001, EXTRA = 100, MOST_FILES = 32, SECONDS = 300, MOST_ROOMS = 4096 };

struct record {
    int32_t kind, number, error, lasting, room, file, status;
    uint32_t taken, position, lengths[2];
    char path[256];
};

static const int errors[KINDS][8] = {{ENOMEM}, {EIO, EACCES, EINTR, EAGAIN, ENOMEM, ENDS}, {ENOSPC, EPIPE, EIO, EINTR, EAGAIN},
                                     {EACCES, ENOENT, EIO, EMFILE, ENOTDIR, ELOOP, ENAMETOOLONG, ENOMEM}};
static long asked[KINDS], step = 1, most = SSIZE_MAX;
static uint32_t taken;     /* what the program has written on its standard output */
static int report = -1, outputs[2];
static int is_copy;        /* here a request was refused, and no further one is asked for */
static int is_lasting;     /* here all later requests for memory are refused too */
static long room = -1;     /* here so many bytes can still be written, where it is not below zero */
static int ended = -1;     /* here the file that has come to its end early */

extern void *__libc_malloc(size_t), *__libc_calloc(size_t, size_t), *__libc_realloc(void *, size_t), *__libc_memalign(size_t, size_t);

static void *next(const char *name) { return dlsym(RTLD_NEXT, name); }
static ssize_t plain_read(int file, void *to, size_t count) { return ((ssize_t (*)(int, void *, size_t))next("read"))(file, to, count); }
static ssize_t plain_write(int file, const void *from, size_t count) {
    return ((ssize_t (*)(int, const void *, size_t))next("write"))(file, from, count);
}

__attribute__((constructor)) static void begin(void) {
    const char *path = getenv("REFUSE_REPORT"), *word = getenv("SHORT"), *steps = getenv("REFUSE_STEP");
    if (word) most = atol(word);
    if (steps) step = atol(steps);
    for (int k = 0; k < 2; k++) outputs[k] = memfd_create("output", 0);
    if (path) report = ((int (*)(const char *, int, int))next("open"))(path, O_WRONLY | O_CREAT | O_APPEND, 0600);
}

/* ---- copies */

static void become_a_copy(const struct record *told) {
    is_copy = 1;
    is_lasting = told->lasting;
    for (int k = 0; k < 2; k++) dup2(outputs[k], k + 1);
    close(report);
    alarm(SECONDS);
}

static void tell_end(struct record *told, pid_t copy) {
    int status;
    char part[4096];
    waitpid(copy, &status, 0);
    told->status = WIFEXITED(status) ? WEXITSTATUS(status) : -WTERMSIG(status);
    for (int k = 0; k < 2; k++) told->lengths[k] = lseek(outputs[k], 0, SEEK_END);
    plain_write(report, told, sizeof *told);
    for (int k = 0; k < 2; k++)
        for (uint32_t at = 0; at < told->lengths[k]; at += sizeof part)
            plain_write(report, part, pread(outputs[k], part, sizeof part, at));
}

/* Lets a copy have a refusal; it is 1 in the copy. Files are read on from where they stood before the copy. */
static int forked(struct record *told) {
    off_t places[MOST_FILES];
    for (int k = 0; k < 2; k++)
        if (ftruncate(outputs[k], 0) || lseek(outputs[k], 0, SEEK_SET)) abort();
    for (int file = 3; file < MOST_FILES; file++) places[file] = lseek(file, 0, SEEK_CUR);
    pid_t copy = fork();
    if (copy == 0) {
        become_a_copy(told);
        return 1;
    }
    tell_end(told, copy);
    for (int file = 3; file < MOST_FILES; file++)
        if (places[file] >= 0 && file != outputs[0] && file != outputs[1] && file != report) lseek(file, places[file], SEEK_SET);
    return 0;
}

static int is_asked(enum kind kind) { return ++asked[kind] && report >= 0 && !is_copy; }

/* Tells at each request for which error it is refused here; 0 for none. */
static int refused(enum kind kind, int file, const char *path) {
    if (!is_asked(kind)) return 0;
    struct record told = {.kind = kind, .number = asked[kind], .file = file, .taken = taken};
    strncpy(told.path, path, sizeof told.path - 1);
    if (kind == READ) told.position = lseek(file, 0, SEEK_CUR);
    for (int k = 0; k < 8 && errors[kind][k]; k++) {
        told.error = errors[kind][k];
        if (forked(&told)) return told.error;
    }
    return 0;
}

/* ---- memory */

static int has_no_memory(void) {
    if (is_copy) return is_lasting;
    int saved = errno;
    if (!is_asked(MEMORY) || asked[MEMORY] % step) return 0;
    struct record told = {.kind = MEMORY, .number = asked[MEMORY], .error = ENOMEM, .taken = taken};
    for (int lasting = 0; lasting < 2; lasting++) {
        told.lasting = lasting;
        if (forked(&told)) return 1;
    }
    errno = saved;
    return 0;
}

static void *no_memory(void) {
    errno = ENOMEM;
    return NULL;
}

void *malloc(size_t size) { return has_no_memory() ? no_memory() : __libc_malloc(size); }
void *calloc(size_t count, size_t size) { return has_no_memory() ? no_memory() : __libc_calloc(count, size); }
void *realloc(void *old, size_t size) { return has_no_memory() ? no_memory() : __libc_realloc(old, size); }
void *aligned_alloc(size_t align, size_t size) { return has_no_memory() ? no_memory() : __libc_memalign(align, size); }

int posix_memalign(void **to, size_t align, size_t size) {
    void *got = has_no_memory() ? NULL : __libc_memalign(align, size);
    if (!got) return ENOMEM;
    *to = got;
    return 0;
}

/* ---- reads and writes */

static size_t at_most(size_t count) { return count < (size_t)most ? count : (size_t)most; }

static ssize_t refusal(int error) {
    errno = error;
    return -1;
}

/* At the end of a file: lets it have grown meanwhile. */
static ssize_t grown(int file, void *to, size_t count, const char *path) {
    if (is_copy || report < 0) return 0;
    struct record told = {.kind = READ, .number = asked[READ], .error = GROWS, .file = file, .position = lseek(file, 0, SEEK_CUR)};
    strncpy(told.path, path, sizeof told.path - 1);
    if (!forked(&told)) return 0;
    count = count < EXTRA ? count : EXTRA;
    memset(to, 'x', count);
    return count;
}

ssize_t read(int file, void *to, size_t count) {
    char name[64], path[256];
    snprintf(name, sizeof name, "/proc/self/fd/%d", file);
    ssize_t length = readlink(name, path, sizeof path - 1);
    path[length < 0 ? 0 : length] = 0;
    int error = file == ended ? ENDS : refused(READ, file, path);
    if (error == ENDS) {
        ended = file;
        return 0;
    }
    if (error) return refusal(error);
    ssize_t got = plain_read(file, to, at_most(count));
    return got ? got : grown(file, to, count, path);
}

/* How much of a write is taken in a copy whose disk is full behind so many bytes; all of it elsewhere. */
static size_t has_room(int file, size_t count) {
    if (is_copy || report < 0 || file != 1) return count;
    struct record told = {.kind = WRITE, .number = asked[WRITE], .error = ENOSPC, .file = file, .taken = taken};
    size_t apart = count / MOST_ROOMS + 1;
    for (size_t rest = 1; rest < count; rest += apart) {
        told.room = rest;
        if (forked(&told)) {
            room = 0;
            return rest;
        }
    }
    return count;
}

ssize_t write(int file, const void *from, size_t count) {
    if (room == 0 && file == 1) return refusal(ENOSPC);
    int error = refused(WRITE, file, "");
    if (error) return refusal(error);
    count = has_room(file, at_most(count));
    ssize_t put = plain_write(file, from, count);
    if (file == 1 && put > 0) taken += put;
    return put;
}

/* ---- questions for files */

#define OPENED(name) \
    int name(const char *path, int flags, ...) { \
        va_list more; \
        va_start(more, flags); \
        int mode = va_arg(more, int); \
        va_end(more); \
        int error = refused(OPEN, 0, path); \
        int file = error ? refusal(error) : ((int (*)(const char *, int, int))next(#name))(path, flags, mode); \
        if (file == ended) ended = -1; \
        return file; \
    }
OPENED(open)
OPENED(open64)

int statx(int folder, const char *restrict path, int flags, unsigned mask, struct statx *restrict to) {
    int error = refused(OPEN, 1, path);
    return error ? refusal(error)
                 : ((int (*)(int, const char *, int, unsigned, struct statx *))next("statx"))(folder, path, flags, mask, to);
}
