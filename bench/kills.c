/* Times kills and judgements by the C library: kills CONFIG KILLS TARGETS KEY. The targets are p0,
 * p1 and so on where KEY is processid, and zones z0, z1 and so on where it is zoneid. The first
 * kill strikes p0, and two machines lost are too many. So each kill of the rest is barred where its
 * floor is its kind, and lessened to a reboot where its floor is a reboot; a reboot strikes. The
 * best of ROUNDS rounds is told, in nanoseconds a call. */
#define _POSIX_C_SOURCE 199309L
#include "faultyard.h"
#include <stdbool.h>
#include <stdio.h>
#include <stdlib.h>
#include <string.h>
#include <time.h>

enum { ROUNDS = 10, CASES = 3, WAYS = 5 };

/* A case of the table: what is ordered of each process but p0. */
static const struct {
    const char *name;
    fy_kind kind, floor;
    const char *kind_word, *floor_word;
} cases[CASES] = {
    {"strikes", FY_REBOOT_PROCESS, FY_REBOOT_PROCESS, "RebootProcess", "RebootProcess"},
    {"lessened", FY_KILL_INSTANTLY, FY_REBOOT_PROCESS, "KillInstantly", "RebootProcess"},
    {"barred", FY_KILL_INSTANTLY, FY_KILL_INSTANTLY, "KillInstantly", "KillInstantly"},
};

/* How a kill is asked for: by the process's name, by its number, or by a line. */
typedef enum way { JUDGED, KILLED, JUDGED_BY_NUMBER, KILLED_BY_NUMBER, BY_LINE } way;

static char config[1048576], names[1024][24], lines[1024][256];
static fy_key key;

static double now(void)
{
    struct timespec t;
    clock_gettime(CLOCK_MONOTONIC, &t);
    return (double)t.tv_sec + (double)t.tv_nsec * 1e-9;
}

static fy_status ask(fy_guard *guard, int at, long target, way by)
{
    uint32_t struck, rule;
    uint64_t named;
    char buffer[512];
    size_t told;
    switch (by) {
    case JUDGED:
        return fy_guard_judge(guard, 1, key, names[target], cases[at].kind, cases[at].floor,
                              &struck, &rule, &named);
    case KILLED:
        return fy_guard_kill(guard, 1, key, names[target], cases[at].kind, cases[at].floor, 0,
                             &struck, &rule, &named);
    case JUDGED_BY_NUMBER:
        return fy_guard_judge_process(guard, 1, (uint32_t)target, cases[at].kind, cases[at].floor,
                                      &struck, &rule, &named);
    case KILLED_BY_NUMBER:
        return fy_guard_kill_process(guard, 1, (uint32_t)target, cases[at].kind, cases[at].floor, 0,
                                     &struck, &rule, &named);
    default:
        return fy_guard_act(guard, lines[target], strlen(lines[target]), buffer, sizeof buffer,
                            &told);
    }
}

/* The seconds that so many calls took, or less than 0 where one wasn't answered. */
static double round_of(fy_guard *guard, int at, long kills, long targets, way by)
{
    uint32_t struck, rule;
    uint64_t named;
    if (fy_guard_reset(guard) != FY_DONE ||
        fy_guard_kill(guard, 1, FY_PROCESS, "p0", FY_KILL_INSTANTLY, FY_KILL_INSTANTLY, 0, &struck,
                      &rule, &named) != FY_DONE)
        return -1;
    double began = now();
    for (long i = 0; i < kills; i++)
        if (ask(guard, at, 1 + i % (targets - 1), by) != FY_DONE)
            return -1;
    return now() - began;
}

int main(int count, char **words)
{
    FILE *file = count == 5 ? fopen(words[1], "r") : NULL;
    if (file == NULL)
        return 2;
    size_t length = fread(config, 1, sizeof config, file);
    fclose(file);
    long kills = atol(words[2]), targets = atol(words[3]);
    bool is_zone = strcmp(words[4], "zoneid") == 0;
    key = is_zone ? FY_ZONE : FY_PROCESS;
    fy_guard guard;
    if (fy_guard_open(config, length, &guard) != FY_DONE)
        return 1;
    for (int at = 0; at < CASES; at++) {
        double best[WAYS] = {1e9, 1e9, 1e9, 1e9, 1e9};
        for (long it = 0; it < targets; it++) {
            snprintf(names[it], sizeof names[it], "%c%ld", is_zone ? 'z' : 'p', it);
            snprintf(lines[it], sizeof lines[it],
                     "{\"by\":1,\"act\":{\"kill\":{\"floor\":\"%s\",\"key\":\"%s\",\"kind\":\"%s\","
                     "\"tear\":0,\"value\":\"%.23s\"}}}",
                     cases[at].floor_word, words[4], cases[at].kind_word, names[it]);
        }
        for (int round = 0; round < WAYS * ROUNDS; round++) {
            way by = (way)(round % WAYS);
            if (is_zone && (by == JUDGED_BY_NUMBER || by == KILLED_BY_NUMBER))
                continue; /* a zone has no number */
            double took = round_of(&guard, at, kills, targets, by);
            if (took < 0)
                return 1;
            if (took < best[by])
                best[by] = took;
        }
        double each = 1e9 / (double)kills;
        printf("%ld %s, %s: %.0f ns a judgement, %.0f ns a kill, ", targets,
               is_zone ? "zones" : "processes", cases[at].name, best[JUDGED] * each,
               best[KILLED] * each);
        if (!is_zone)
            printf("by number %.0f and %.0f ns, ", best[JUDGED_BY_NUMBER] * each,
                   best[KILLED_BY_NUMBER] * each);
        printf("%.0f ns by a line\n", best[BY_LINE] * each);
    }
    fy_guard_close(&guard);
    return 0;
}
