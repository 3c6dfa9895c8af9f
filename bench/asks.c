/* Times questions by the C library: asks CONFIG PROCESSES. It tells the best nanoseconds of ROUNDS
 * rounds: of each question, and of the call that has the same answer; then of an act. */
#define _POSIX_C_SOURCE 199309L
#include "faultyard.h"
#include <stdio.h>
#include <stdlib.h>
#include <string.h>
#include <time.h>

enum { ROUNDS = 5, CALLS = 2000, ALL = 1024 };

#define ORDER                                                                               \
    "{\"kill\":{\"floor\":\"Reboot\",\"key\":\"processid\",\"kind\":\"Reboot\",\"tear\":0," \
    "\"value\":\"p0\"}}"

static const char *const ASKED[] = {
    "{\"ask\":{\"judge\":{\"act\":" ORDER ",\"by\":1}}}",
    "{\"ask\":{\"killable\":{\"actor\":1}}}",
    "{\"ask\":{\"state\":{\"process\":0}}}",
    "{\"ask\":{\"state\":{}}}",
};
static const char *const NAMES[] = {"judge", "killable", "state of one", "state of all"};
static const char ACT[] = "{\"by\":1,\"act\":" ORDER "}";

static char config[1048576], buffer[4194304];

static double now(void)
{
    struct timespec t;
    clock_gettime(CLOCK_PROCESS_CPUTIME_ID, &t);
    return (double)t.tv_sec + (double)t.tv_nsec * 1e-9;
}

static void must(fy_status status)
{
    if (status != FY_DONE) {
        fprintf(stderr, "asks: status %d\n", (int)status);
        exit(1);
    }
}

/* The call of today for a question. */
static fy_status today(fy_guard *guard, int at, uint32_t processes)
{
    uint32_t struck, rule, state;
    uint64_t named;
    size_t told;
    static uint8_t kinds[ALL];
    switch (at) {
    case 0:
        return fy_guard_judge(guard, 1, FY_PROCESS, "p0", FY_REBOOT, FY_REBOOT, &struck, &rule,
                              &named);
    case 1:
        return fy_guard_killable(guard, 1, kinds, sizeof kinds, &told);
    case 2:
        return fy_guard_state(guard, 0, &state);
    default:
        for (uint32_t process = 0; process < processes; process++)
            must(fy_guard_state(guard, process, &state));
        return FY_DONE;
    }
}

/* The best nanoseconds of a question, of today's call for it (`way` 1), or of an act (2). */
static double best(fy_guard *guard, int at, int way, uint32_t processes)
{
    double least = 1e9;
    size_t told;
    for (int round = 0; round < ROUNDS; round++) {
        double begun = now();
        for (int call = 0; call < CALLS; call++)
            switch (way) {
            case 0:
                must(fy_guard_ask(guard, ASKED[at], strlen(ASKED[at]), buffer, sizeof buffer,
                                  &told));
                break;
            case 1:
                must(today(guard, at, processes));
                break;
            default:
                must(fy_guard_act(guard, ACT, strlen(ACT), buffer, sizeof buffer, &told));
            }
        double taken = (now() - begun) * 1e9 / CALLS;
        if (taken < least)
            least = taken;
    }
    return least;
}

int main(int argc, char **argv)
{
    fy_guard guard;
    FILE *file = argc == 3 ? fopen(argv[1], "rb") : NULL;
    if (file == NULL)
        return 2;
    size_t length = fread(config, 1, sizeof config, file);
    fclose(file);
    uint32_t processes = (uint32_t)atoi(argv[2]);
    must(fy_guard_open(config, length, &guard));
    for (int at = 0; at < 4; at++)
        printf("%5u %-12s %9.0f %9.0f\n", processes, NAMES[at], best(&guard, at, 0, processes),
               best(&guard, at, 1, processes));
    printf("%5u %-12s %9.0f\n", processes, "act", best(&guard, 0, 2, processes));
    fy_guard_close(&guard);
    return 0;
}
