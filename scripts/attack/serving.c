/* A library that is loaded before a program, and takes questions on standard input in place of the words of a command line. A copy
   of the program calls its main function for each question, in the folder and with the words of it, no input, and bounds on its time
   and memory; where a run ends the copy, another one goes on. What a run wrote and what it took is told on standard output. With SERVE_FRESH=1 each run
   has a copy of its own. */
#define _GNU_SOURCE
#include <dlfcn.h>
#include <fcntl.h>
#include <link.h>
#include <stdint.h>
#include <stdlib.h>
#include <string.h>
#include <sys/mman.h>
#include <sys/resource.h>
#include <sys/time.h>
#include <sys/wait.h>
#include <time.h>
#include <unistd.h>

enum { MOST_WORDS = 200000 };

struct question {
    uint32_t length, seconds; /* of the folder and the words, each with a zero byte behind it; of the processor's time */
    uint64_t memory, stack;   /* bytes beyond what the program has before; 0 leaves what there is */
};

struct answer {
    int32_t status;
    uint32_t microseconds, kilobytes, outputs[2];
};

typedef int (*entry)(int, char **, char **);
typedef void (*constructor)(int, char **, char **);
typedef int (*starter)(entry, int, char **, void (*)(void), void (*)(void), void (*)(void), void *);

static entry held;                /* the program's main function */
static int questions, answers;    /* where the questions come from, and where the answers go */
static int outputs[2];            /* files in memory for what a run writes on standard output and standard error */
static int is_fresh;
static volatile int *is_running;  /* shared with the copy */
static uint64_t before;           /* bytes of address space that the program has without a run */
static char *words[MOST_WORDS + 1];

static constructor *constructors; /* of the program: they keep the words */
static size_t constructor_count;

/* Finds the constructors of the program, which is the first of what is loaded. */
static int find_constructors(struct dl_phdr_info *loaded, size_t size, void *none) {
    for (int k = 0; k < loaded->dlpi_phnum; k++)
        if (loaded->dlpi_phdr[k].p_type == PT_DYNAMIC)
            for (const ElfW(Dyn) *at = (void *)(loaded->dlpi_addr + loaded->dlpi_phdr[k].p_vaddr); at->d_tag; at++) {
                if (at->d_tag == DT_INIT_ARRAY) constructors = (constructor *)(loaded->dlpi_addr + at->d_un.d_ptr);
                if (at->d_tag == DT_INIT_ARRAYSZ) constructor_count = at->d_un.d_val / sizeof *constructors;
            }
    return 1;
}

static int is_whole(int file, char *to, size_t count) {
    for (ssize_t got; count > 0; to += got, count -= got)
        if ((got = read(file, to, count)) <= 0) return 0;
    return 1;
}

static void put(const char *from, size_t count) {
    for (ssize_t done; count > 0; from += done, count -= done)
        if ((done = write(answers, from, count)) <= 0) _exit(1);
}

static int words_in(char *at, uint32_t length) {
    int count = 0;
    for (char *end = at + length; at < end && count < MOST_WORDS; at += strlen(at) + 1) words[count++] = at;
    words[count] = NULL;
    return count;
}

static void bound(int what, uint64_t most) {
    struct rlimit limit;
    getrlimit(what, &limit);
    limit.rlim_cur = most ? most : limit.rlim_max;
    setrlimit(what, &limit);
}

static void arm(uint32_t seconds) { setitimer(ITIMER_PROF, &(struct itimerval){.it_value.tv_sec = seconds}, NULL); }

static uint64_t microseconds(void) {
    struct timespec now;
    clock_gettime(CLOCK_PROCESS_CPUTIME_ID, &now);
    return now.tv_sec * 1000000ull + now.tv_nsec / 1000;
}

static void tell(struct answer *told) {
    char part[65536];
    for (int k = 0; k < 2; k++) told->outputs[k] = lseek(outputs[k], 0, SEEK_END);
    put((char *)told, sizeof *told);
    for (int k = 0; k < 2; k++)
        for (off_t at = 0; at < told->outputs[k];) {
            ssize_t got = pread(outputs[k], part, sizeof part, at);
            if (got <= 0) _exit(1);
            put(part, got);
            at += got;
        }
}

static void run(const struct question *asked, char *text) {
    struct answer told = {0};
    struct rusage used;
    for (int k = 0; k < 2; k++)
        if (ftruncate(outputs[k], 0) || lseek(outputs[k], 0, SEEK_SET)) _exit(1);
    int count = words_in(text, asked->length) - 1;
    if (count < 1 || chdir(words[0])) _exit(1);
    bound(RLIMIT_STACK, asked->stack);
    bound(RLIMIT_AS, asked->memory ? asked->memory + before : 0);
    uint64_t begin = microseconds();
    *is_running = 1;
    arm(asked->seconds);
    for (size_t k = 0; k < constructor_count; k++) constructors[k](count, words + 1, environ);
    told.status = held(count, words + 1, environ) & 255;
    arm(0);
    if (is_fresh) _exit(told.status);
    *is_running = 0;
    bound(RLIMIT_AS, 0);
    getrusage(RUSAGE_SELF, &used);
    told.microseconds = microseconds() - begin;
    told.kilobytes = used.ru_maxrss;
    tell(&told);
}

/* In a copy: answers until there are no more questions. */
static void answer_all(void) {
    struct question asked;
    int empty = open("/dev/null", O_RDONLY);
    dup2(empty, 0);
    close(empty);
    for (int k = 0; k < 2; k++) dup2(outputs[k], k + 1);
    while (is_whole(questions, (char *)&asked, sizeof asked)) {
        char *text = malloc(asked.length);
        if (!text || !is_whole(questions, text, asked.length)) _exit(1);
        run(&asked, text);
        free(text);
    }
    _exit(0);
}

/* Where a run ended the copy: tells that, and has another copy go on. */
static int serve(int count, char **own, char **settings) {
    for (;;) {
        struct rusage used;
        int status;
        pid_t copy = fork();
        if (copy == 0) answer_all();
        wait4(copy, &status, 0, &used);
        if (!*is_running) return 0;
        *is_running = 0;
        struct answer told = {.status = WIFEXITED(status) ? WEXITSTATUS(status) : -WTERMSIG(status), .kilobytes = used.ru_maxrss};
        told.microseconds = (used.ru_utime.tv_sec + used.ru_stime.tv_sec) * 1000000 + used.ru_utime.tv_usec + used.ru_stime.tv_usec;
        tell(&told);
    }
}

static uint64_t address_space(void) {
    char text[64] = "0";
    int file = open("/proc/self/statm", O_RDONLY);
    if (read(file, text, sizeof text - 1) <= 0) _exit(1);
    close(file);
    return strtoull(text, NULL, 10) * sysconf(_SC_PAGESIZE);
}

int __libc_start_main(entry main, int count, char **own, void (*init)(void), void (*fini)(void), void (*linker)(void), void *stack) {
    starter start = (starter)dlsym(RTLD_NEXT, "__libc_start_main");
    held = main;
    is_fresh = getenv("SERVE_FRESH") != NULL;
    unsetenv("LD_PRELOAD");
    questions = fcntl(0, F_DUPFD_CLOEXEC, 100);
    answers = fcntl(1, F_DUPFD_CLOEXEC, 100);
    for (int k = 0; k < 2; k++) outputs[k] = fcntl(memfd_create("output", 0), F_DUPFD_CLOEXEC, 100);
    dl_iterate_phdr(find_constructors, NULL);
    is_running = mmap(NULL, sizeof *is_running, PROT_READ | PROT_WRITE, MAP_SHARED | MAP_ANONYMOUS, -1, 0);
    setrlimit(RLIMIT_CORE, &(struct rlimit){0, 0});
    before = address_space();
    return start(serve, count, own, init, fini, linker, stack);
}
