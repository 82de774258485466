// Loaded before a program (LD_PRELOAD), it refuses one growth: the one whose number, from 1, is FAIL_ALLOC. All others are as the C
// library does them.
//
// Where FAIL_ALLOC is `each`, it runs the program over and over before `main` comes: with no growth refused, then with the first one,
// then with the second, until a run has none of that number. Each run is a child that reads standard input, a file, from its front. Of
// each a frame is written to standard output: whether a growth was refused, the status or the signal below 0, how many octets of output
// and of errors there are, each a number of four octets, and these octets.
#define _GNU_SOURCE
#include <errno.h>
#include <stddef.h>
#include <stdint.h>
#include <stdio.h>
#include <stdlib.h>
#include <string.h>
#include <sys/mman.h>
#include <sys/wait.h>
#include <unistd.h>

void *__libc_malloc(size_t size);
void *__libc_calloc(size_t count, size_t size);
void *__libc_realloc(void *held, size_t size);
void *__libc_memalign(size_t alignment, size_t size);

enum { MOST_SECONDS = 120, COPIED = 65536 };

struct frame {
    uint32_t is_refused;
    int32_t status;
    uint32_t output, errors;
};

static unsigned long chosen, asked;
static uint32_t one_run, *is_refused = &one_run;

static int refused(void) {
    if (chosen == 0 || ++asked != chosen)
        return 0;
    *is_refused = 1;
    errno = ENOMEM;
    return 1;
}

static void want(int holds, const char *what) {
    if (holds)
        return;
    perror(what);
    _exit(70);
}

static void put(const char *octets, size_t count) {
    while (count > 0) {
        ssize_t written = write(STDOUT_FILENO, octets, count);
        want(written > 0, "a frame");
        octets += written;
        count -= (size_t)written;
    }
}

// Writes what a run left in a file, and empties that.
static void put_file(int file, size_t count) {
    static char octets[COPIED];
    want(lseek(file, 0, SEEK_SET) == 0, "the front of what was written");
    while (count > 0) {
        ssize_t held = read(file, octets, sizeof octets);
        want(held > 0, "what was written");
        put(octets, (size_t)held);
        count -= (size_t)held;
    }
    want(ftruncate(file, 0) == 0 && lseek(file, 0, SEEK_SET) == 0, "an empty file");
}

static void write_frame(int status, int output, int errors) {
    struct frame frame = {
        .is_refused = *is_refused,
        .status = WIFSIGNALED(status) ? -WTERMSIG(status) : WEXITSTATUS(status),
        .output = (uint32_t)lseek(output, 0, SEEK_END),
        .errors = (uint32_t)lseek(errors, 0, SEEK_END),
    };
    put((const char *)&frame, sizeof frame);
    put_file(output, frame.output);
    put_file(errors, frame.errors);
}

static void begin_run(unsigned long number, int output, int errors) {
    want(dup2(output, STDOUT_FILENO) >= 0 && dup2(errors, STDERR_FILENO) >= 0, "the streams of a run");
    close(output);
    close(errors);
    alarm(MOST_SECONDS);
    chosen = number;
}

// Comes back in each child, whose `main` then runs.
static void run_each(void) {
    int output = memfd_create("output", 0), errors = memfd_create("errors", 0);
    is_refused = mmap(NULL, sizeof *is_refused, PROT_READ | PROT_WRITE, MAP_SHARED | MAP_ANONYMOUS, -1, 0);
    want(output >= 0 && errors >= 0 && is_refused != MAP_FAILED, "what the runs share");
    for (unsigned long number = 0; number < 2 || *is_refused; number++) {
        int status;
        *is_refused = 0;
        want(lseek(STDIN_FILENO, 0, SEEK_SET) == 0, "the front of standard input");
        pid_t child = fork();
        want(child >= 0, "a run");
        if (child == 0) {
            begin_run(number, output, errors);
            return;
        }
        want(waitpid(child, &status, 0) == child, "the end of a run");
        write_frame(status, output, errors);
    }
    _exit(0);
}

__attribute__((constructor)) static void choose(void) {
    const char *text = getenv("FAIL_ALLOC");
    if (text && strcmp(text, "each") == 0)
        run_each();
    else if (text)
        chosen = strtoul(text, NULL, 10);
}

void *malloc(size_t size) { return refused() ? NULL : __libc_malloc(size); }
void *calloc(size_t count, size_t size) { return refused() ? NULL : __libc_calloc(count, size); }
void *realloc(void *held, size_t size) { return refused() ? NULL : __libc_realloc(held, size); }
void *aligned_alloc(size_t alignment, size_t size) { return refused() ? NULL : __libc_memalign(alignment, size); }

int posix_memalign(void **made, size_t alignment, size_t size) {
    if (refused())
        return ENOMEM;
    void *at = __libc_memalign(alignment, size);
    if (at)
        *made = at;
    return at ? 0 : ENOMEM;
}
