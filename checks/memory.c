// Stands in front of the system's malloc, calloc and realloc: see tests/test_memory.py.
#define _GNU_SOURCE
#include <fcntl.h>
#include <stddef.h>
#include <stdio.h>
#include <stdlib.h>
#include <string.h>
#include <sys/mman.h>
#include <sys/stat.h>
#include <sys/wait.h>
#include <unistd.h>

enum { MOST = 1 << 16, FILES = 64, SECONDS = 60 };

void *__libc_malloc(size_t);
void *__libc_calloc(size_t, size_t);
void *__libc_realloc(void *, size_t);

// what was seen of the requests: how many, and how the runs ended to which one was refused
struct tally { long requests, nine, same, otherwise, first, status; };

static struct tally own, *told = &own;
static long first, step;
// what is written to standard output and to standard error: by the whole run, and by a copy
struct text { char at[MOST]; ssize_t length; };

static struct text whole[2], got[2];
static int status, out_of_memory, busy = 1;

static long number(const char *name) { return atol(getenv(name)); }

__attribute__((constructor)) static void begin(void) {
    int file = open(getenv("TDL_TALLY"), O_RDWR), texts[] = { open(getenv("TDL_WHOLE"), O_RDONLY), open(getenv("TDL_ERRORS"), O_RDONLY) };
    void *page = mmap(0, sizeof own, PROT_READ | PROT_WRITE, MAP_SHARED, file, 0);
    first = number("TDL_FIRST"), step = number("TDL_STEP");
    status = number("TDL_STATUS"), out_of_memory = number("TDL_OUT_OF_MEMORY");
    for (int n = 0; n < 2; n++)
        whole[n].length = read(texts[n], whole[n].at, MOST), close(texts[n]);
    if (page == MAP_FAILED || whole[0].length < 0 || whole[1].length < 0)
        _exit(125);
    close(file);
    told = page;
    busy = 0;
}

// gives a copy of the process its own place in each file that it reads
static void open_anew(int file) {
    char name[32];
    struct stat is;
    if (fstat(file, &is) || !S_ISREG(is.st_mode))
        return;
    snprintf(name, sizeof name, "/proc/self/fd/%d", file);
    int again = open(name, O_RDONLY);
    if (again < 0 || lseek(again, lseek(file, 0, SEEK_CUR), SEEK_SET) < 0)
        _exit(125);
    dup2(again, file), close(again);
}

static int begins(const struct text *some, const char *all, ssize_t length) { return some->length <= length && !memcmp(some->at, all, some->length); }

// whether this is nothing, or one line of the program's
static int is_line(const struct text *some) {
    return !some->length || (some->length > 6 && !memcmp(some->at, "tdl: ", 5) && memchr(some->at, '\n', some->length) == some->at + some->length - 1);
}

// what a copy ended with: its status, and what it wrote behind what was written before
static void judge(int ended, const int *outputs) {
    for (int n = 0; n < 2; n++)
        got[n].length = pread(outputs[n], got[n].at, MOST, 0);
    int code = WIFEXITED(ended) ? WEXITSTATUS(ended) : -1, is_front = begins(&got[0], whole[0].at, whole[0].length);
    int is_whole = is_front && got[0].length == whole[0].length && got[1].length == whole[1].length && begins(&got[1], whole[1].at, whole[1].length);
    if (code == out_of_memory && is_front && is_line(&got[1]))
        told->nine++;
    else if (code == status && is_whole)
        told->same++;
    else if (!told->otherwise++)
        told->first = told->requests, told->status = code;
}

// makes an output for a copy, with what was written to the process's own
static int output_of(int file) {
    int output = memfd_create("output", 0);
    ssize_t before = pread(file, got[0].at, lseek(file, 0, SEEK_CUR), 0);
    if (output < 0 || before < 0 || write(output, got[0].at, before) != before)
        _exit(125);
    return output;
}

// whether this is a copy, to which the request is refused
static int is_refused(void) {
    if (busy || ++told->requests < first || (told->requests - first) % step)
        return 0;
    busy = 1;
    int outputs[] = { output_of(1), output_of(2) }, ended = -1;
    pid_t copy = fork();
    if (!copy) {
        open_anew(0);
        for (int file = 3; file < FILES; file++)
            if (file != outputs[0] && file != outputs[1])
                open_anew(file);
        dup2(outputs[0], 1), dup2(outputs[1], 2), close(outputs[0]), close(outputs[1]);
        alarm(SECONDS);
        return 1;
    }
    if (copy < 0 || waitpid(copy, &ended, 0) != copy)
        _exit(125);
    judge(ended, outputs);
    close(outputs[0]), close(outputs[1]);
    busy = 0;
    return 0;
}

void *malloc(size_t n) { return is_refused() ? NULL : __libc_malloc(n); }
void *calloc(size_t n, size_t m) { return is_refused() ? NULL : __libc_calloc(n, m); }
void *realloc(void *p, size_t n) { return is_refused() ? NULL : __libc_realloc(p, n); }
