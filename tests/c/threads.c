/* Two guards in two threads, each as if it were alone; and one guard that eight threads take in
 * turns, whose audit is written to the file of the word. */
#include "faultyard.h"
#include "told.h"
#include <pthread.h>

enum { ACTS = 2000, SHARERS = 8, TURNS = 250, LINE = 256 };

typedef struct run {
    uint32_t first;
    size_t length;
    char *audit;
} run;

/* Kills and starts processes from one on, and keeps the audit. */
static void *play(void *given)
{
    run *here = given;
    fy_guard guard;
    size_t told;
    here->audit = malloc(ACTS * 256);
    here->length = 0;
    const char *config = SIX_WITH("10000");
    if (here->audit == NULL || fy_guard_open(config, strlen(config), &guard) != FY_DONE)
        return NULL;
    for (uint32_t i = 0; i < ACTS / 2; i++) {
        char name[8];
        uint32_t process = (here->first + i) % 6, mine, why, refusal;
        uint64_t which;
        snprintf(name, sizeof name, "p%u", (unsigned)process);
        fy_guard_kill(&guard, 1, FY_PROCESS, name, FY_REBOOT_AND_DELETE, FY_REBOOT_PROCESS, i,
                      &mine, &why, &which);
        fy_guard_up(&guard, 0, process, &refusal);
    }
    for (size_t at = 0;
         fy_guard_audit(&guard, at, here->audit + here->length, 256, &told) == FY_DONE; at++)
        here->length += told;
    fy_guard_close(&guard);
    return given;
}

/* A guard that one thread opened and another closes, and the mutex that those take who make a call
 * with it. */
static fy_guard shared;
static pthread_mutex_t turn = PTHREAD_MUTEX_INITIALIZER;

typedef struct sharer {
    uint32_t number;
    size_t count;
    char lines[TURNS][LINE];
    size_t told[TURNS];
} sharer;

static sharer sharers[SHARERS];

/* Orders kills and starts processes by lines, and keeps what is answered. */
static void *share(void *given)
{
    sharer *here = given;
    for (uint32_t i = 0; i < TURNS; i++) {
        char line[LINE], buffer[2 * LINE];
        size_t told = 0;
        uint32_t process = (here->number + i) % 6;
        if (i % 2 == 0)
            snprintf(
                line, sizeof line,
                "{\"by\":1,\"act\":{\"kill\":{\"floor\":\"RebootProcess\",\"key\":\"processid\","
                "\"kind\":\"RebootAndDelete\",\"tear\":%u,\"value\":\"p%u\"}}}",
                (unsigned)here->number, (unsigned)process);
        else
            snprintf(line, sizeof line, "{\"by\":0,\"act\":{\"up\":{\"process\":%u}}}",
                     (unsigned)process);
        pthread_mutex_lock(&turn);
        fy_status status = fy_guard_act(&shared, line, strlen(line), buffer, sizeof buffer, &told);
        pthread_mutex_unlock(&turn);
        if (status != FY_DONE || told > LINE)
            return NULL;
        memcpy(here->lines[i], buffer, told);
        here->told[i] = told;
        here->count++;
    }
    return given;
}

static void *close_shared(void *given)
{
    fy_guard_close(&shared);
    return given;
}

/* The place that an answer tells. */
static size_t place_of(const char *line, size_t told)
{
    char text[LINE + 1];
    memcpy(text, line, told);
    text[told] = 0;
    const char *at = strstr(text, "\"at\":");
    return at == NULL ? SIZE_MAX : (size_t)strtoul(at + 5, NULL, 10);
}

/* Each answer is the entry at its place, and no two have one place. */
static void taken_in_turns(const char *to)
{
    static char taken[SHARERS * TURNS];
    pthread_t threads[SHARERS], closer;
    const char *config = SIX_WITH("2000");
    char line[LINE];
    size_t count = 0, told;
    FILE *audit = fopen(to, "w");
    if (audit == NULL)
        exit(2);
    EQUAL(fy_guard_open(config, strlen(config), &shared), FY_DONE);
    for (uint32_t i = 0; i < SHARERS; i++) {
        sharers[i].number = i;
        EQUAL(pthread_create(&threads[i], NULL, share, &sharers[i]), 0);
    }
    for (int i = 0; i < SHARERS; i++) {
        void *done;
        EQUAL(pthread_join(threads[i], &done), 0);
        EQUAL(done != NULL, 1);
        EQUAL(sharers[i].count, TURNS);
    }
    EQUAL(fy_guard_journal_len(&shared, &count), FY_DONE);
    EQUAL(count, SHARERS * TURNS);
    for (int i = 0; i < SHARERS; i++) {
        for (int k = 0; k < TURNS; k++) {
            size_t at = place_of(sharers[i].lines[k], sharers[i].told[k]);
            EQUAL(at < SHARERS * TURNS && !taken[at], 1);
            if (at >= SHARERS * TURNS)
                continue;
            taken[at] = 1;
            EQUAL(fy_guard_audit(&shared, at, line, sizeof line, &told), FY_DONE);
            EQUAL(told == sharers[i].told[k] && memcmp(line, sharers[i].lines[k], told) == 0, 1);
        }
    }
    fputs(FY_AUDIT_HEADER, audit);
    for (size_t at = 0; fy_guard_audit(&shared, at, line, sizeof line, &told) == FY_DONE; at++)
        fwrite(line, 1, told, audit);
    EQUAL(fclose(audit), 0);
    EQUAL(pthread_create(&closer, NULL, close_shared, NULL), 0);
    EQUAL(pthread_join(closer, NULL), 0);
    EQUAL(fy_guard_is_open(&shared), 0);
}

int main(int count, char **words)
{
    if (count != 2)
        return 2;
    taken_in_turns(words[1]);
    run alone[2] = {{0, 0, NULL}, {3, 0, NULL}}, beside[2] = {{0, 0, NULL}, {3, 0, NULL}};
    pthread_t threads[2];
    for (int i = 0; i < 2; i++)
        EQUAL(play(&alone[i]) != NULL, 1);
    for (int i = 0; i < 2; i++)
        EQUAL(pthread_create(&threads[i], NULL, play, &beside[i]), 0);
    for (int i = 0; i < 2; i++) {
        void *done;
        EQUAL(pthread_join(threads[i], &done), 0);
        EQUAL(done != NULL, 1);
        EQUAL(beside[i].length > 100000, 1);
        EQUAL(beside[i].length == alone[i].length &&
                  memcmp(beside[i].audit, alone[i].audit, alone[i].length) == 0,
              1);
    }
    for (int i = 0; i < 2; i++) {
        free(alone[i].audit);
        free(beside[i].audit);
    }
    return ended("threads");
}
