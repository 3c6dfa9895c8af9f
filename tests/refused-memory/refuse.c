// Linked into a program of tests: before a test runs, it is run in processes of their own with its
// first, second, .. request for memory refused, until a run meets no refusal.
//
// A run has to pass, or to end for want of memory of its own (an Err that says so, or words of a
// stage), or to stop where it compares an answer and finds want of memory in its place; or the
// sanitizer ends it for want of its own. Any other end is told on standard error, and fails the
// test. So does a test that passes with every request refused: what it would show needs memory. A
// test whose name holds `takes_no_memory` fails where any of its requests counts. Beyond the
// 2,000th request, or of slow tests the 100th or the 10th, only some are refused, each further on
// than the last by a twentieth, or of the slowest by half; where PASSES_OVER is 0 none is passed
// over. Of a test that asks for MARK bytes, which it never gets here, only the requests behind the
// first such request and before the second, behind the third and before the fourth, .. are refused:
// those of the calls that it is about. What came of a test is written behind the file TOLD, a line
// each.
#define _GNU_SOURCE
#include <errno.h>
#include <fcntl.h>
#include <limits.h>
#include <signal.h>
#include <stdio.h>
#include <stdlib.h>
#include <string.h>
#include <sys/mman.h>
#include <sys/wait.h>
#include <time.h>
#include <unistd.h>

#ifndef TOLD
#error "TOLD names the file for what came of each test"
#endif

#ifndef PASSES_OVER
#define PASSES_OVER 1
#endif

enum { SECONDS = 120, MOST_SAID = 1 << 16, MARK = 1048583 };

// The sanitizer that rt try links calls these in place of its own, if they are there.
void *___interceptor_malloc(size_t bytes);
void *___interceptor_realloc(void *old, size_t bytes);

// Which request is refused: one by its number, or each.
static const unsigned long NONE = 0, EACH = ULONG_MAX;
static unsigned long asked, refused;
// Whether a request counts by the marks so far.
static int counts;
// What a run tells the process that started it: whether a request was refused, and whether there
// are marks.
static struct {
    int is_met, is_marked;
} * told;

static int is_refused(size_t bytes)
{
    if (bytes == MARK && told) {
        told->is_marked = 1;
        counts = !counts;
        return 1;
    }
    if (refused == NONE || (refused != EACH && (!counts || ++asked != refused))) {
        return 0;
    }
    told->is_met = 1;
    errno = ENOMEM;
    return 1;
}

void *__interceptor_malloc(size_t bytes)
{
    return is_refused(bytes) ? NULL : ___interceptor_malloc(bytes);
}

void *__interceptor_realloc(void *old, size_t bytes)
{
    return is_refused(bytes) ? NULL : ___interceptor_realloc(old, bytes);
}

// Whether a run ended for want of memory.
static int has_stopped(int status, const char *said)
{
    // The sanitizer asks the C library where the stack of a thread lies that starts, and gives up
    // where that has no memory.
    if (strstr(said, "CHECK failed: sanitizer") &&
        strstr(said, "pthread_getattr_np(pthread_self(), &attr))) == ((0))")) {
        return 1;
    }
    if (WIFEXITED(status) && WEXITSTATUS(status) == 101) {
        return strstr(said, "AllocError") || strstr(said, "AllocFailed") ||
               strstr(said, "NoMemory");
    }
    if (!WIFSIGNALED(status) || WTERMSIG(status) != SIGABRT) {
        return 0;
    }
    if (strstr(said, "no memory for the test itself")) {
        return 1;
    }
    const char *left = strstr(said, "\n  left: Err(");
    if (!left) {
        return 0;
    }
    size_t length = strcspn(left + 1, "\n");
    return memmem(left, length, "NoMemory", 8) || memmem(left, length, "OutOfMemory", 11);
}

// Refuses a request of the process that returns 1. The other gets 0, with how that one ended and
// what it said.
static int run(unsigned long number, int *status, char *said)
{
    int ends[2];
    told->is_met = 0;
    if (pipe(ends) != 0) {
        abort();
    }
    pid_t process = fork();
    if (process == 0) {
        dup2(ends[1], 1);
        dup2(ends[1], 2);
        close(ends[0]);
        close(ends[1]);
        alarm(SECONDS);
        refused = number;
        counts = !told->is_marked;
        return 1;
    }
    close(ends[1]);
    size_t length = 0;
    char more[4096];
    for (ssize_t count; (count = read(ends[0], more, sizeof more)) > 0;) {
        size_t kept = (size_t)count < MOST_SAID - length ? (size_t)count : MOST_SAID - length;
        memcpy(said + length, more, kept);
        length += kept;
    }
    said[length] = 0;
    close(ends[0]);
    waitpid(process, status, 0);
    return 0;
}

static double seconds(void)
{
    struct timespec now;
    clock_gettime(CLOCK_MONOTONIC, &now);
    return (double)now.tv_sec + 1e-9 * (double)now.tv_nsec;
}

__attribute__((constructor)) static void refuse(int count, char **words)
{
    if (count != 2 || words[1][0] == '-') {
        return;
    }
    static char said[MOST_SAID + 1];
    int status;
    told = mmap(NULL, sizeof *told, PROT_READ | PROT_WRITE, MAP_SHARED | MAP_ANONYMOUS, -1, 0);
    if (told == MAP_FAILED) {
        abort();
    }
    double begun = seconds();
    if (run(NONE, &status, said)) {
        return;
    }
    double took = seconds() - begun;
    unsigned long each = !PASSES_OVER ? ULONG_MAX : took < 0.05 ? 2000 : took < 1 ? 100 : 10;
    unsigned long part = took < 1 ? 20 : 2;
    int takes_none = strstr(words[1], "takes_no_memory") != NULL;
    unsigned long number = 1, passed = 0, stopped = 0, failed = 0;
    for (;; number += number < each ? 1 : number / part) {
        if (run(number, &status, said)) {
            return;
        }
        if (!told->is_met) {
            break;
        }
        if (takes_none) {
            failed += 1;
            fprintf(stderr, "%s asks for memory\n", words[1]);
            break;
        }
        if (WIFEXITED(status) && WEXITSTATUS(status) == 0) {
            passed += 1;
        } else if (has_stopped(status, said)) {
            stopped += 1;
        } else {
            failed += 1;
            fprintf(stderr, "request %lu refused: status %x\n%.600s\n", number, status, said);
        }
    }
    if (run(EACH, &status, said)) {
        return;
    }
    if (told->is_met && WIFEXITED(status) && WEXITSTATUS(status) == 0) {
        failed += 1;
        fprintf(stderr, "%s passes with each request refused\n", words[1]);
    }
    FILE *file = fopen(TOLD, "a");
    if (!file) {
        abort();
    }
    int printed = fprintf(file, "%s %lu %lu %lu %lu\n", words[1], number, passed, stopped, failed);
    if (printed < 0 || fclose(file)) {
        abort();
    }
    if (failed > 0) {
        _exit(1);
    }
}
