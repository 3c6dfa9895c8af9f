/* Kills and judgements by a process's number, beside the same by its name: the same answers and the
 * same journal. */
#include "faultyard.h"
#include "told.h"

enum { ORDERS = 10000, PROCESSES = 6, MOST_LINE = 512 };

static uint64_t state = 20240229;

static uint32_t below(uint32_t most)
{
    state = state * 6364136223846793005u + 1442695040888963407u;
    return (uint32_t)(state >> 33) % most;
}

/* How many processes might have been killed by each kind. */
static unsigned long killable[FY_KILL_INSTANTLY + 1];

static const char *const NAMES[PROCESSES] = {"p0", "p1", "p2", "p3", "p4", "p5"};

/* What is asked of a process, by an actor that may not be there. */
typedef struct asked {
    uint32_t actor, process;
    fy_kind kind, floor;
    uint64_t tear;
} asked;

/* A random order: mostly a reboot, since what is killed for good isn't struck again. */
static asked drawn(void)
{
    asked order;
    order.actor = below(6);
    order.process = below(PROCESSES);
    order.kind = below(1000) == 0 ? FY_KILL_INSTANTLY : (fy_kind)(1 + below(3));
    order.floor = (fy_kind)(1 + below(4));
    order.tear = below(64);
    return order;
}

/* Gives an order to one guard by name and to another by number. Both judge it alike before, and
 * answer it alike. */
static fy_status both(fy_guard *by_name, fy_guard *by_number, asked order)
{
    uint32_t struck_by_name = 77, rule_by_name = 77;
    uint64_t named_by_name = 77;
    const char *name = NAMES[order.process];
    struck = rule = 78;
    named = 78;
    fy_status judged = fy_guard_judge(by_name, order.actor, FY_PROCESS, name, order.kind,
                                      order.floor, &struck_by_name, &rule_by_name, &named_by_name);
    EQUAL(fy_guard_judge_process(by_number, order.actor, order.process, order.kind, order.floor,
                                 &struck, &rule, &named),
          judged);
    EQUAL(struck, struck_by_name);
    EQUAL(rule, rule_by_name);
    EQUAL(named, named_by_name);
    struck = rule = 78;
    named = 78;
    fy_status killed =
        fy_guard_kill(by_name, order.actor, FY_PROCESS, name, order.kind, order.floor, order.tear,
                      &struck_by_name, &rule_by_name, &named_by_name);
    EQUAL(fy_guard_kill_process(by_number, order.actor, order.process, order.kind, order.floor,
                                order.tear, &struck, &rule, &named),
          killed);
    EQUAL(killed, judged);
    EQUAL(struck, struck_by_name);
    EQUAL(rule, rule_by_name);
    EQUAL(named, named_by_name);
    return killed;
}

/* Each process has the kind that a judgement of it alone tells, and what is behind them stays. */
static void same_kinds(const fy_guard *guard, uint32_t actor)
{
    uint8_t kinds[PROCESSES + 2];
    size_t told = 77;
    memset(kinds, 77, sizeof kinds);
    fy_status status = fy_guard_killable(guard, actor, kinds, sizeof kinds, &told);
    EQUAL(told, PROCESSES);
    for (uint32_t p = 0; p < PROCESSES; p++) {
        EQUAL(fy_guard_judge_process(guard, actor, p, FY_KILL_INSTANTLY, FY_REBOOT_PROCESS, &struck,
                                     &rule, &named),
              status);
        EQUAL(kinds[p], status == FY_DONE ? struck : 77);
        killable[struck]++;
    }
    EQUAL(kinds[PROCESSES] == 77 && kinds[PROCESSES + 1] == 77, 1);
}

/* Both journals have the same bytes. */
static void same_audit(const fy_guard *by_name, const fy_guard *by_number)
{
    size_t count = 0, other = 0, told = 0, also = 0;
    static char line[MOST_LINE], twin[MOST_LINE];
    EQUAL(fy_guard_journal_len(by_name, &count), FY_DONE);
    EQUAL(fy_guard_journal_len(by_number, &other), FY_DONE);
    EQUAL(count, other);
    for (size_t at = 0; at < count; at++) {
        EQUAL(fy_guard_audit(by_name, at, line, sizeof line, &told), FY_DONE);
        EQUAL(fy_guard_audit(by_number, at, twin, sizeof twin, &also), FY_DONE);
        EQUAL(told == also && memcmp(line, twin, told) == 0, 1);
    }
}

/* Random orders; each process that was struck starts again, and heals where it was emptied. */
static void random_orders(void)
{
    fy_guard by_name = open_guard(SIX_WITH("40000")), by_number = open_guard(SIX_WITH("40000"));
    unsigned long seen[FY_FLOOR + 1] = {0}, struck_by[FY_KILL_INSTANTLY + 1] = {0},
                                  barred_by[FY_TOO_FEW_LEFT + 1] = {0};
    uint32_t refusal, again;
    for (int i = 0; i < ORDERS; i++) {
        asked order = drawn();
        fy_status status = both(&by_name, &by_number, order);
        EQUAL(status == FY_DONE || status == FY_REFUSED || status == FY_FLOOR, 1);
        seen[status]++;
        struck_by[struck]++;
        barred_by[rule]++;
        same_kinds(&by_number, order.actor);
        EQUAL(fy_guard_up(&by_number, 0, order.process, &again),
              fy_guard_up(&by_name, 0, order.process, &refusal));
        EQUAL(again, refusal);
        EQUAL(fy_guard_heal(&by_number, 0, order.process, &again),
              fy_guard_heal(&by_name, 0, order.process, &refusal));
        EQUAL(again, refusal);
    }
    EQUAL(seen[FY_DONE] > 0 && seen[FY_REFUSED] > 0 && seen[FY_FLOOR] > 0, 1);
    for (int kind = FY_NONE; kind <= FY_KILL_INSTANTLY; kind++)
        EQUAL(struck_by[kind] > 0, 1);
    EQUAL(killable[FY_NONE] > 0 && killable[FY_REBOOT] > 0 && killable[FY_KILL_INSTANTLY] > 0, 1);
    EQUAL(barred_by[FY_NO_RULE] > 0 && barred_by[FY_NO_TARGET] > 0 && barred_by[FY_NO_GRANT] > 0,
          1);
    same_audit(&by_name, &by_number);
    fy_guard_close(&by_name);
    fy_guard_close(&by_number);
}

/* The status of a judgement and of a kill, which are the same; neither tells anything or enters
 * anything. */
static void refused(fy_guard *guard, uint32_t process, int kind, int floor, fy_status wanted)
{
    size_t count = 0, after = 0;
    fy_guard_journal_len(guard, &count);
    struck = rule = 77;
    named = 77;
    EQUAL(fy_guard_judge_process(guard, 1, process, (fy_kind)kind, (fy_kind)floor, &struck, &rule,
                                 &named),
          wanted);
    EQUAL(struck | rule | named, 0);
    struck = rule = 77;
    named = 77;
    EQUAL(fy_guard_kill_process(guard, 1, process, (fy_kind)kind, (fy_kind)floor, 0, &struck, &rule,
                                &named),
          wanted);
    EQUAL(struck | rule | named, 0);
    fy_guard_journal_len(guard, &after);
    EQUAL(after, count);
}

/* Each status once; FY_NO_MEMORY is that of memory.c. */
static void statuses(void)
{
    fy_guard guard = open_guard(TWO_PLACES), none = {NULL};
    size_t count = 0;
    refused(&guard, PROCESSES, FY_REBOOT, FY_REBOOT, FY_ARGUMENT);
    refused(&guard, UINT32_MAX, FY_REBOOT, FY_REBOOT, FY_ARGUMENT);
    refused(&guard, 0, 0, FY_REBOOT, FY_ARGUMENT);
    refused(&guard, 0, FY_KILL_INSTANTLY + 1, FY_REBOOT, FY_ARGUMENT);
    refused(&guard, 0, FY_REBOOT, 0, FY_ARGUMENT);
    /* A number of no process comes before a floor above the kind. */
    refused(&guard, PROCESSES, FY_REBOOT, FY_KILL_INSTANTLY, FY_ARGUMENT);
    refused(&guard, 5, FY_REBOOT, FY_KILL_INSTANTLY, FY_FLOOR);
    EQUAL(fy_guard_kill_process(&guard, 9, 5, FY_REBOOT, FY_REBOOT, 0, &struck, &rule, &named),
          FY_REFUSED);
    EQUAL(struck | rule | named, 0);
    EQUAL(fy_guard_kill_process(&guard, 1, 5, FY_REBOOT, FY_REBOOT, 0, &struck, &rule, &named),
          FY_DONE);
    EQUAL(struck, FY_REBOOT);
    EQUAL(fy_guard_kill_process(&guard, 1, 5, FY_REBOOT, FY_REBOOT, 0, &struck, &rule, &named),
          FY_JOURNAL_FULL);
    EQUAL(struck | rule | named, 0);
    EQUAL(fy_guard_judge_process(&guard, 1, 5, FY_REBOOT, FY_REBOOT, &struck, &rule, &named),
          FY_DONE);
    EQUAL(struck, FY_REBOOT);
    EQUAL(fy_guard_judge_process(&guard, 9, 5, FY_REBOOT, FY_REBOOT, &struck, &rule, &named),
          FY_REFUSED);
    EQUAL(fy_guard_journal_len(&guard, &count), FY_DONE);
    EQUAL(count, 2);
    EQUAL(fy_guard_judge_process(&none, 1, 0, FY_REBOOT, FY_REBOOT, &struck, &rule, &named),
          FY_CLOSED);
    EQUAL(fy_guard_kill_process(&none, 1, 0, FY_REBOOT, FY_REBOOT, 0, &struck, &rule, &named),
          FY_CLOSED);
    EQUAL(fy_guard_judge_process(&guard, 1, 0, FY_REBOOT, FY_REBOOT, NULL, &rule, &named),
          FY_CLOSED);
    EQUAL(fy_guard_kill_process(&guard, 1, 0, FY_REBOOT, FY_REBOOT, 0, &struck, &rule, NULL),
          FY_CLOSED);
    fy_guard_close(&guard);
}

/* Which of the six may still be killed, by grants, protections and a loss, and each status. */
static void killable_of_six(void)
{
    fy_guard guard = open_guard(SIX), none = {NULL};
    uint8_t kinds[PROCESSES] = {77, 77, 77, 77, 77, 77};
    size_t told = 77;
    fy_reply reply;
    EQUAL(fy_guard_killable(&guard, 1, kinds, PROCESSES, &told), FY_DONE);
    EQUAL(told, PROCESSES);
    EQUAL(memcmp(kinds, "\4\4\4\4\4\4", PROCESSES), 0);
    /* The second fault actor has the kinds KillInstantly and Reboot, the third none. */
    EQUAL(fy_guard_protect(&guard, 4, 3, FY_KINDS_KILL_INSTANTLY | FY_KINDS_REBOOT_AND_DELETE,
                           &reply),
          FY_DONE);
    EQUAL(fy_guard_protect(&guard, 4, 4, FY_KINDS_KILL_INSTANTLY | FY_KINDS_REBOOT, &reply),
          FY_DONE);
    EQUAL(fy_guard_killable(&guard, 1, kinds, PROCESSES, &told), FY_DONE);
    EQUAL(memcmp(kinds, "\4\4\4\2\3\4", PROCESSES), 0);
    EQUAL(fy_guard_killable(&guard, 2, kinds, PROCESSES, &told), FY_DONE);
    EQUAL(memcmp(kinds, "\4\4\4\2\0\4", PROCESSES), 0);
    EQUAL(fy_guard_killable(&guard, 3, kinds, PROCESSES, &told), FY_DONE);
    EQUAL(memcmp(kinds, "\0\0\0\0\0\0", PROCESSES), 0);
    /* With p0 gone, p1 of its zone may go too, and none of another zone may be emptied. */
    EQUAL(fy_guard_kill_process(&guard, 1, 0, FY_KILL_INSTANTLY, FY_REBOOT, 0, &struck, &rule,
                                &named),
          FY_DONE);
    EQUAL(struck, FY_KILL_INSTANTLY);
    EQUAL(fy_guard_killable(&guard, 1, kinds, PROCESSES, &told), FY_DONE);
    EQUAL(memcmp(kinds, "\0\4\2\2\1\2", PROCESSES), 0);
    /* What is refused writes nothing but how many there are. */
    memset(kinds, 77, sizeof kinds);
    told = 77;
    EQUAL(fy_guard_killable(&guard, 5, kinds, 0, &told), FY_REFUSED);
    EQUAL(told, PROCESSES);
    told = 77;
    EQUAL(fy_guard_killable(&guard, 1, kinds, PROCESSES - 1, &told), FY_SHORT);
    EQUAL(told, PROCESSES);
    told = 77;
    EQUAL(fy_guard_killable(&none, 1, kinds, PROCESSES, &told), FY_CLOSED);
    EQUAL(fy_guard_killable(&guard, 1, NULL, PROCESSES, &told), FY_CLOSED);
    EQUAL(fy_guard_killable(&guard, 1, kinds, PROCESSES, NULL), FY_CLOSED);
    EQUAL(told, 77);
    for (int p = 0; p < PROCESSES; p++)
        EQUAL(kinds[p], 77);
    /* It entered nothing. */
    EQUAL(fy_guard_journal_len(&guard, &told), FY_DONE);
    EQUAL(told, 3);
    fy_guard_close(&guard);
}

int main(void)
{
    random_orders();
    statuses();
    killable_of_six();
    return ended("processes");
}
