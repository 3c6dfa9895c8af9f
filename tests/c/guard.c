/* What each call of the library does and answers, by the words of docs/FORMATS.md. */
#include "faultyard.h"
#include "told.h"

static const char *KILLED_ZONE =
    "{\"act\":{\"kill\":{\"floor\":\"Reboot\",\"key\":\"zoneid\",\"kind\":\"KillInstantly\","
    "\"tear\":0,\"value\":\"z0\"}},"
    "\"at\":0,\"by\":1,\"reply\":{\"verdict\":{\"rule\":null,\"struck\":\"KillInstantly\"}}}\n";
static const char *REBOOTED_ZONE =
    "{\"act\":{\"kill\":{\"floor\":\"Reboot\",\"key\":\"zoneid\",\"kind\":\"KillInstantly\","
    "\"tear\":0,\"value\":\"z1\"}},"
    "\"at\":1,\"by\":1,\"reply\":{\"verdict\":{\"rule\":[\"TooManyDestroyed\",0],"
    "\"struck\":\"Reboot\"}}}\n";
static const char *KILL_ZONE =
    "{\"by\":1,\"act\":{\"kill\":{\"key\":\"zoneid\",\"value\":\"z1\",\"kind\":\"KillInstantly\","
    "\"floor\":\"Reboot\",\"tear\":0}}}";

static fy_status kill(fy_guard *guard, uint32_t actor, fy_key key, const char *value, fy_kind kind,
                      fy_kind floor)
{
    /* What is judged is what the kill then gets, but for a full journal. */
    uint32_t would_strike = 77, why = 77;
    uint64_t which = 77;
    size_t count = 0, after = 0;
    fy_guard_journal_len(guard, &count);
    fy_status judged =
        fy_guard_judge(guard, actor, key, value, kind, floor, &would_strike, &why, &which);
    fy_guard_journal_len(guard, &after);
    EQUAL(after, count);
    struck = rule = 77;
    named = 77;
    fy_status status =
        fy_guard_kill(guard, actor, key, value, kind, floor, 0, &struck, &rule, &named);
    if (status == FY_JOURNAL_FULL) {
        EQUAL(judged, FY_DONE);
    } else {
        EQUAL(judged, status);
        EQUAL(would_strike, struck);
        EQUAL(why, rule);
        EQUAL(which, named);
    }
    return status;
}

/* The worked kill: zone z0 may go, and then z1 is rebooted. */
static void worked_kill(void)
{
    fy_guard guard = open_guard(SIX);
    char buffer[512];
    size_t told, count = 0;
    EQUAL(kill(&guard, 1, FY_ZONE, "z0", FY_KILL_INSTANTLY, FY_REBOOT), FY_DONE);
    EQUAL(struck, FY_KILL_INSTANTLY);
    EQUAL(rule, FY_NO_RULE);
    EQUAL(named, 0);
    EQUAL(fy_guard_act(&guard, KILL_ZONE, strlen(KILL_ZONE), buffer, sizeof buffer, &told),
          FY_DONE);
    TEXT(buffer, told, REBOOTED_ZONE);
    EQUAL(fy_guard_journal_len(&guard, &count), FY_DONE);
    EQUAL(count, 2);
    EQUAL(fy_guard_audit(&guard, 0, buffer, sizeof buffer, &told), FY_DONE);
    TEXT(buffer, told, KILLED_ZONE);
    EQUAL(fy_guard_audit(&guard, 1, buffer, sizeof buffer, &told), FY_DONE);
    TEXT(buffer, told, REBOOTED_ZONE);
    for (uint32_t process = 0; process < 6; process++) {
        int destroyed = 2;
        EQUAL(fy_guard_is_destroyed(&guard, process, &destroyed), FY_DONE);
        EQUAL(destroyed, process < 2);
    }
    int destroyed = 2;
    EQUAL(fy_guard_is_destroyed(&guard, UINT32_MAX, &destroyed), FY_DONE);
    EQUAL(destroyed, 0);
    uint64_t left[FY_SET_WORDS];
    EQUAL(fy_guard_left(&guard, left), FY_DONE);
    EQUAL(left[0], 0x3c);
    for (int word = 1; word < FY_SET_WORDS; word++)
        EQUAL(left[word], 0);
    fy_guard_close(&guard);
}

/* Each rule, with what it names. */
static void rules(void)
{
    fy_guard guard = open_guard(SIX);
    char buffer[512];
    size_t told;
    const char *protect =
        "{\"by\":4,\"act\":{\"protect\":{\"process\":5,\"kinds\":[\"Reboot\",\"KillInstantly\"]}}}";
    EQUAL(kill(&guard, 1, FY_PROCESS, "nobody", FY_REBOOT, FY_REBOOT), FY_DONE);
    EQUAL(struck, FY_NONE);
    EQUAL(rule, FY_NO_TARGET);
    EQUAL(kill(&guard, 3, FY_MACHINE, "m4", FY_REBOOT, FY_REBOOT_PROCESS), FY_DONE);
    EQUAL(struck, FY_NONE);
    EQUAL(rule, FY_NO_GRANT);
    EQUAL(named, 4);
    EQUAL(fy_guard_act(&guard, protect, strlen(protect), buffer, sizeof buffer, &told), FY_DONE);
    EQUAL(kill(&guard, 1, FY_PROCESS, "p5", FY_KILL_INSTANTLY, FY_REBOOT_PROCESS), FY_DONE);
    EQUAL(struck, FY_REBOOT_AND_DELETE);
    EQUAL(rule, FY_PROTECTED);
    EQUAL(named, 5);
    EQUAL(kill(&guard, 1, FY_ZONE, "z0", FY_REBOOT_AND_DELETE, FY_REBOOT_AND_DELETE), FY_DONE);
    EQUAL(struck, FY_NONE);
    EQUAL(rule, FY_TOO_MANY_DESTROYED);
    EQUAL(named, 0);
    /* All of the one data centre is all there is: nobody would be left. */
    EQUAL(kill(&guard, 1, FY_DATA_CENTER, "d0", FY_REBOOT_PROCESS, FY_REBOOT_PROCESS), FY_DONE);
    EQUAL(struck, FY_REBOOT_PROCESS);
    EQUAL(kill(&guard, 1, FY_DATA_HALL, "d0", FY_REBOOT, FY_REBOOT), FY_DONE);
    EQUAL(rule, FY_NO_TARGET);
    fy_guard_close(&guard);
    /* Two of three zones have to be left, and copies of three are never destroyed at once. */
    guard = open_guard(THREE);
    EQUAL(kill(&guard, 0, FY_ZONE, "z0", FY_KILL_INSTANTLY, FY_KILL_INSTANTLY), FY_DONE);
    EQUAL(struck, FY_NONE);
    EQUAL(rule, FY_TOO_FEW_LEFT);
    EQUAL(named, 0);
    fy_guard_close(&guard);
}

/* What is refused stands in the journal all the same. */
static void refusals(void)
{
    fy_guard guard = open_guard(SIX);
    uint32_t refusal = 77;
    size_t count = 0;
    EQUAL(fy_guard_up(&guard, 0, 0, &refusal), FY_REFUSED);
    EQUAL(refusal, FY_IS_UP);
    EQUAL(fy_guard_up(&guard, 0, 6, &refusal), FY_REFUSED);
    EQUAL(refusal, FY_NO_PROCESS);
    EQUAL(fy_guard_up(&guard, 9, 0, &refusal), FY_REFUSED);
    EQUAL(refusal, FY_STRANGER);
    EQUAL(fy_guard_up(&guard, 1, 0, &refusal), FY_REFUSED);
    EQUAL(refusal, FY_WRONG_ROLE);
    EQUAL(fy_guard_heal(&guard, 0, 0, &refusal), FY_REFUSED);
    EQUAL(refusal, FY_NOT_DESTROYED);
    EQUAL(kill(&guard, 9, FY_PROCESS, "p0", FY_REBOOT, FY_REBOOT), FY_REFUSED);
    EQUAL(struck | rule | named, 0);
    EQUAL(kill(&guard, 1, FY_PROCESS, "p0", FY_REBOOT_AND_DELETE, FY_REBOOT), FY_DONE);
    EQUAL(struck, FY_REBOOT_AND_DELETE);
    EQUAL(fy_guard_heal(&guard, 0, 0, &refusal), FY_REFUSED);
    EQUAL(refusal, FY_NOT_UP);
    EQUAL(fy_guard_up(&guard, 0, 0, &refusal), FY_DONE);
    EQUAL(refusal, FY_NOT_REFUSED);
    EQUAL(fy_guard_heal(&guard, 0, 0, &refusal), FY_DONE);
    EQUAL(refusal, FY_NOT_REFUSED);
    int destroyed = 2;
    EQUAL(fy_guard_is_destroyed(&guard, 0, &destroyed), FY_DONE);
    EQUAL(destroyed, 0);
    EQUAL(fy_guard_journal_len(&guard, &count), FY_DONE);
    EQUAL(count, 10);
    fy_guard_close(&guard);
}

/* A set of processes below 64, which is all that it has. */
#define SET(found, wanted)                              \
    do {                                                \
        EQUAL((found)[0], wanted);                      \
        for (int word = 1; word < FY_SET_WORDS; word++) \
            EQUAL((found)[word], 0);                    \
    } while (0)

static void act(fy_guard *guard, const char *line)
{
    char buffer[512];
    size_t told = 0;
    EQUAL(fy_guard_act(guard, line, strlen(line), buffer, sizeof buffer, &told), FY_DONE);
    if (strstr(line, "\"act\"") == NULL || told == 0)
        return;
    buffer[told] = 0;
    EQUAL(strstr(buffer, "\"no\"") == NULL, 1);
}

/* The sets of a guard: who is up, left, destroyed and gone. What has become of each process
 * agrees. */
static void sets_are(const fy_guard *guard, uint64_t up, uint64_t left, uint64_t destroyed,
                     uint64_t gone)
{
    uint64_t set[FY_SET_WORDS];
    uint32_t state = 77;
    for (uint32_t p = 0; p < 6; p++) {
        EQUAL(fy_guard_state(guard, p, &state), FY_DONE);
        EQUAL(state & FY_STATE_UP, up >> p & 1 ? FY_STATE_UP : 0);
        EQUAL(state & FY_STATE_DESTROYED, destroyed >> p & 1 ? FY_STATE_DESTROYED : 0);
        EQUAL(state & FY_STATE_GONE, gone >> p & 1 ? FY_STATE_GONE : 0);
        EQUAL(state & ~(FY_STATE_UP | FY_STATE_DESTROYED | FY_STATE_GONE), 0);
    }
    memset(set, 0xff, sizeof set);
    EQUAL(fy_guard_up_set(guard, set), FY_DONE);
    SET(set, up);
    memset(set, 0xff, sizeof set);
    EQUAL(fy_guard_left(guard, set), FY_DONE);
    SET(set, left);
    memset(set, 0xff, sizeof set);
    EQUAL(fy_guard_destroyed_set(guard, set), FY_DONE);
    SET(set, destroyed);
    memset(set, 0xff, sizeof set);
    EQUAL(fy_guard_gone_set(guard, set), FY_DONE);
    SET(set, gone);
}

/* Whom a target means. */
static void targets_are(const fy_guard *guard, fy_key key, const char *value, uint64_t wanted)
{
    uint64_t set[FY_SET_WORDS];
    memset(set, 0xff, sizeof set);
    EQUAL(fy_guard_targets(guard, key, value, set), FY_DONE);
    SET(set, wanted);
}

/* Whom a kill would be about, and what has become of whom: emptied is destroyed and left, killed
 * for good is gone, and a process that is healed is neither. */
static void sets(void)
{
    fy_guard guard = open_guard(SIX);
    uint32_t refusal;
    uint64_t set[FY_SET_WORDS];
    sets_are(&guard, 0x3f, 0x3f, 0, 0);
    uint32_t state = 77;
    EQUAL(fy_guard_state(&guard, 6, &state), FY_DONE);
    EQUAL(state, FY_NOBODY);
    EQUAL(fy_guard_state(&guard, UINT32_MAX, &state), FY_DONE);
    EQUAL(state, FY_NOBODY);
    targets_are(&guard, FY_ZONE, "z0", 0x03);
    targets_are(&guard, FY_PROCESS, "p5", 0x20);
    targets_are(&guard, FY_MACHINE, "m2", 0x04);
    targets_are(&guard, FY_DATA_CENTER, "d0", 0x3f);
    targets_are(&guard, FY_DATA_HALL, "d0", 0);
    targets_are(&guard, FY_ZONE, "p5", 0);
    EQUAL(kill(&guard, 1, FY_PROCESS, "p1", FY_KILL_INSTANTLY, FY_KILL_INSTANTLY), FY_DONE);
    EQUAL(struck, FY_KILL_INSTANTLY);
    sets_are(&guard, 0x3d, 0x3d, 0x02, 0x02);
    targets_are(&guard, FY_ZONE, "z0", 0x01);
    EQUAL(kill(&guard, 1, FY_ZONE, "z0", FY_REBOOT_AND_DELETE, FY_REBOOT_AND_DELETE), FY_DONE);
    EQUAL(struck, FY_REBOOT_AND_DELETE);
    sets_are(&guard, 0x3c, 0x3d, 0x03, 0x02);
    targets_are(&guard, FY_ZONE, "z0", 0x01);
    EQUAL(fy_guard_up(&guard, 0, 0, &refusal), FY_DONE);
    EQUAL(fy_guard_heal(&guard, 0, 0, &refusal), FY_DONE);
    sets_are(&guard, 0x3d, 0x3d, 0x02, 0x02);
    /* A clog of zone z2 for three ticks holds until the third has passed. */
    act(&guard, "{\"by\":1,\"act\":{\"clog\":{\"key\":\"zoneid\",\"value\":\"z2\",\"ticks\":3}}}");
    for (int tick = 0; tick < 4; tick++) {
        for (uint32_t p = 2; p < 6; p++) {
            EQUAL(fy_guard_state(&guard, p, &state), FY_DONE);
            EQUAL(state, tick < 3 && p >= 4 ? FY_STATE_UP | FY_STATE_CLOGGED : FY_STATE_UP);
        }
        act(&guard, "{\"by\":0,\"act\":{\"tick\":{\"ticks\":1}}}");
    }
    /* What is no target writes nothing. */
    memset(set, 0x55, sizeof set);
    EQUAL(fy_guard_targets(&guard, (fy_key)0, "z0", set), FY_ARGUMENT);
    EQUAL(fy_guard_targets(&guard, (fy_key)6, "", set), FY_ARGUMENT);
    EQUAL(fy_guard_targets(&guard, FY_ZONE, "", set), FY_NAME);
    EQUAL(fy_guard_targets(&guard, FY_ZONE, "z 0", set), FY_NAME);
    for (int word = 0; word < FY_SET_WORDS; word++)
        EQUAL(set[word], 0x5555555555555555);
    fy_guard_close(&guard);
}

/* A guard that is reset is as it was opened, and then does the same again. */
static void reset(void)
{
    fy_guard guard = open_guard(SIX);
    char first[512], second[512];
    size_t told = 0, again = 0, count = 77;
    for (int round = 0; round < 2; round++) {
        sets_are(&guard, 0x3f, 0x3f, 0, 0);
        act(&guard, "{\"by\":0,\"act\":{\"tick\":{\"ticks\":7}}}");
        EQUAL(kill(&guard, 1, FY_ZONE, "z0", FY_KILL_INSTANTLY, FY_REBOOT), FY_DONE);
        EQUAL(struck, FY_KILL_INSTANTLY);
        sets_are(&guard, 0x3c, 0x3c, 0x03, 0x03);
        EQUAL(fy_guard_audit(&guard, 1, round == 0 ? first : second, sizeof first,
                             round == 0 ? &told : &again),
              FY_DONE);
        EQUAL(fy_guard_reset(&guard), FY_DONE);
        EQUAL(fy_guard_journal_len(&guard, &count), FY_DONE);
        EQUAL(count, 0);
    }
    EQUAL(told == again && memcmp(first, second, told) == 0, 1);
    fy_guard_close(&guard);
}

/* The lines of a guard's journal. */
static size_t journal_of(const fy_guard *guard, char *text, size_t room)
{
    size_t count = 0, told = 0, length = 0;
    EQUAL(fy_guard_journal_len(guard, &count), FY_DONE);
    for (size_t at = 0; at < count; at++) {
        EQUAL(fy_guard_audit(guard, at, text + length, room - length, &told), FY_DONE);
        length += told;
    }
    return length;
}

/* Two guards have this many entries, and the same journal to the byte. */
static void same_journal(const fy_guard *guard, const fy_guard *other, size_t wanted)
{
    char its[4096], others[4096];
    size_t count = 77, length = journal_of(guard, its, sizeof its);
    EQUAL(fy_guard_journal_len(guard, &count), FY_DONE);
    EQUAL(count, wanted);
    EQUAL(journal_of(other, others, sizeof others), length);
    EQUAL(memcmp(its, others, length), 0);
}

static void now_is(const fy_guard *guard, uint64_t wanted)
{
    fy_seen seen;
    EQUAL(fy_guard_sight(guard, &seen), FY_DONE);
    EQUAL(seen.now, wanted);
}

/* A copy has the journal of its guard. What is done with one changes nothing of the other, and each
 * is closed alone. */
static void copies(void)
{
    fy_guard guard = open_guard(SIX), other = {&guard}, third = {&guard};
    fy_reply reply;
    EQUAL(fy_guard_try_copy(&guard, &other), FY_DONE);
    same_journal(&guard, &other, 0);
    fy_guard_close(&other);
    act(&guard, "{\"by\":0,\"act\":{\"form\":{\"members\":[0,2],\"policy\":0}}}");
    act(&guard, "{\"by\":0,\"act\":{\"begin\":{\"payload\":\"6869\",\"team\":0}}}");
    act(&guard, "{\"by\":0,\"act\":{\"deliver\":{\"message\":1}}}");
    EQUAL(fy_guard_sync(&guard, 3, 0, &reply), FY_REFUSED);
    EQUAL(kill(&guard, 1, FY_ZONE, "z0", FY_KILL_INSTANTLY, FY_REBOOT), FY_DONE);
    EQUAL(fy_guard_try_copy(&guard, &other), FY_DONE);
    EQUAL(other.at != guard.at, 1);
    same_journal(&guard, &other, 5);
    sets_are(&other, 0x3c, 0x3c, 0x03, 0x03);
    /* The copy looks ahead: zone z1 is only rebooted. Nothing of it is in the guard, nor of what
     * the guard does in the copy. */
    EQUAL(kill(&other, 1, FY_ZONE, "z1", FY_KILL_INSTANTLY, FY_REBOOT), FY_DONE);
    EQUAL(struck, FY_REBOOT);
    sets_are(&other, 0x30, 0x3c, 0x03, 0x03);
    sets_are(&guard, 0x3c, 0x3c, 0x03, 0x03);
    act(&guard, "{\"by\":0,\"act\":{\"tick\":{\"ticks\":7}}}");
    now_is(&guard, 7);
    now_is(&other, 0);
    /* A copy of the copy has what the copy did, and outlives both. */
    EQUAL(fy_guard_try_copy(&other, &third), FY_DONE);
    same_journal(&other, &third, 6);
    EQUAL(fy_guard_reset(&guard), FY_DONE);
    fy_guard_close(&other);
    sets_are(&guard, 0x3f, 0x3f, 0, 0);
    fy_guard_close(&guard);
    sets_are(&third, 0x30, 0x3c, 0x03, 0x03);
    act(&third, "{\"by\":0,\"act\":{\"up\":{\"process\":3}}}");
    sets_are(&third, 0x38, 0x3c, 0x03, 0x03);
    fy_guard_close(&third);
}

/* A full journal is copied too, and the copy's is full. */
static void full_copies(void)
{
    fy_guard guard = open_guard(TWO_PLACES), other;
    fy_reply reply;
    act(&guard, "{\"by\":0,\"act\":{\"tick\":{\"ticks\":1}}}");
    act(&guard, "{\"by\":0,\"act\":{\"tick\":{\"ticks\":1}}}");
    EQUAL(fy_guard_try_copy(&guard, &other), FY_DONE);
    same_journal(&guard, &other, 2);
    EQUAL(fy_guard_tick(&other, 0, 1, &reply), FY_JOURNAL_FULL);
    same_journal(&guard, &other, 2);
    fy_guard_close(&other);
    fy_guard_close(&guard);
}

/* A guard that isn't opened is closed, whatever it was. One that is to be its own copy stays as it
 * is. */
static void no_copies(void)
{
    fy_guard guard = {0}, other = {&guard};
    EQUAL(fy_guard_try_copy(&guard, &other), FY_CLOSED);
    EQUAL(fy_guard_is_open(&other), 0);
    other.at = &guard;
    EQUAL(fy_guard_try_copy(NULL, &other), FY_CLOSED);
    EQUAL(fy_guard_is_open(&other), 0);
    EQUAL(fy_guard_try_copy(NULL, NULL), FY_CLOSED);
    guard = open_guard(SIX);
    EQUAL(fy_guard_try_copy(&guard, NULL), FY_CLOSED);
    EQUAL(fy_guard_try_copy(&guard, &guard), FY_CLOSED);
    now_is(&guard, 0);
    fy_guard_close(&guard);
}

/* Processes by their names. */
static void names(void)
{
    fy_guard guard = open_guard(SIX);
    uint32_t process = 77;
    char name[8];
    EQUAL(fy_guard_process_count(&guard, &process), FY_DONE);
    EQUAL(process, 6);
    for (uint32_t p = 0; p < 6; p++) {
        snprintf(name, sizeof name, "p%u", (unsigned)p);
        EQUAL(fy_guard_process(&guard, name, &process), FY_DONE);
        EQUAL(process, p);
    }
    static const char *const none[] = {"p6", "m0",  "P0",  "p",
                                       "",   "p 0", "-p0", "a23456789012345678901234567890123"};
    for (size_t i = 0; i < sizeof none / sizeof *none; i++) {
        process = 77;
        EQUAL(fy_guard_process(&guard, none[i], &process), FY_DONE);
        EQUAL(process, FY_NOBODY);
    }
    fy_guard_close(&guard);
}

static void seen_is(const fy_guard *guard, uint64_t now, uint64_t deliverable, uint32_t unsynced,
                    uint32_t sleeping)
{
    fy_seen seen;
    memset(&seen, 0x55, sizeof seen);
    EQUAL(fy_guard_sight(guard, &seen), FY_DONE);
    EQUAL(seen.now, now);
    EQUAL(seen.deliverable, deliverable);
    EQUAL(seen.unsynced, unsynced);
    EQUAL(seen.sleeping, sleeping);
}

static void record_is(const fy_guard *guard, uint32_t record, int acked, uint32_t keeper)
{
    int found = 77;
    uint32_t process = 77;
    EQUAL(fy_guard_is_acked(guard, record, &found), FY_DONE);
    EQUAL(found, acked);
    EQUAL(fy_guard_keeper(guard, record, &process), FY_DONE);
    EQUAL(process, keeper);
}

static void needed_is(const fy_guard *guard, uint32_t process, uint32_t wanted)
{
    uint32_t record = 77;
    EQUAL(fy_guard_needed(guard, process, &record), FY_DONE);
    EQUAL(record, wanted);
}

/* A record of processes 0 and 2 is acknowledged by the second word, and kept by the least of them
 * that isn't destroyed. */
static void records(void)
{
    fy_guard guard = open_guard(SIX);
    seen_is(&guard, 0, FY_NOTHING, FY_NOBODY, FY_NOBODY);
    record_is(&guard, 0, 0, FY_NOBODY);
    act(&guard, "{\"by\":0,\"act\":{\"form\":{\"members\":[0,2],\"policy\":0}}}");
    act(&guard, "{\"by\":0,\"act\":{\"begin\":{\"payload\":\"6869\",\"team\":0}}}");
    seen_is(&guard, 0, 0, FY_NOBODY, FY_NOBODY);
    act(&guard, "{\"by\":0,\"act\":{\"deliver\":{\"message\":0}}}");
    seen_is(&guard, 0, 1, 0, FY_NOBODY);
    act(&guard, "{\"by\":0,\"act\":{\"deliver\":{\"message\":1}}}");
    act(&guard, "{\"by\":0,\"act\":{\"sync\":{\"process\":0}}}");
    seen_is(&guard, 0, 2, 2, FY_NOBODY);
    act(&guard, "{\"by\":0,\"act\":{\"sync\":{\"process\":2}}}");
    act(&guard, "{\"by\":0,\"act\":{\"tick\":{\"ticks\":9}}}");
    seen_is(&guard, 9, 2, FY_NOBODY, FY_NOBODY);
    act(&guard, "{\"by\":0,\"act\":{\"deliver\":{\"message\":2}}}");
    record_is(&guard, 0, 0, FY_NOBODY);
    act(&guard, "{\"by\":0,\"act\":{\"deliver\":{\"message\":3}}}");
    record_is(&guard, 0, 1, 0);
    record_is(&guard, 1, 0, FY_NOBODY);
    record_is(&guard, UINT32_MAX, 0, FY_NOBODY);
    seen_is(&guard, 9, FY_NOTHING, FY_NOBODY, FY_NOBODY);
    EQUAL(kill(&guard, 1, FY_PROCESS, "p0", FY_REBOOT_AND_DELETE, FY_REBOOT_AND_DELETE), FY_DONE);
    EQUAL(struck, FY_REBOOT_AND_DELETE);
    record_is(&guard, 0, 1, 2);
    seen_is(&guard, 9, FY_NOTHING, FY_NOBODY, 0);
    /* What a heal is refused for is needed, until it is synced again. */
    needed_is(&guard, 2, FY_NO_SUCH_RECORD);
    needed_is(&guard, 1, FY_NO_SUCH_RECORD);
    needed_is(&guard, 6, FY_NO_SUCH_RECORD);
    needed_is(&guard, 0, 0);
    uint32_t refusal;
    EQUAL(fy_guard_up(&guard, 0, 0, &refusal), FY_DONE);
    EQUAL(fy_guard_heal(&guard, 0, 0, &refusal), FY_REFUSED);
    EQUAL(refusal, FY_STILL_NEEDS);
    act(&guard, "{\"by\":0,\"act\":{\"copy\":{\"from\":2,\"record\":0,\"to\":0}}}");
    act(&guard, "{\"by\":0,\"act\":{\"deliver\":{\"message\":4}}}");
    needed_is(&guard, 0, 0);
    act(&guard, "{\"by\":0,\"act\":{\"sync\":{\"process\":0}}}");
    needed_is(&guard, 0, FY_NO_SUCH_RECORD);
    EQUAL(fy_guard_heal(&guard, 0, 0, &refusal), FY_DONE);
    fy_guard_close(&guard);
}

/* Each error that enters nothing. */
static void errors(void)
{
    fy_guard guard = open_guard(TWO_PLACES);
    char buffer[512], room[1024];
    size_t told = 77, count = 77, length = strlen(KILL_ZONE);
    EQUAL(kill(&guard, 1, (fy_key)0, "p0", FY_REBOOT, FY_REBOOT), FY_ARGUMENT);
    EQUAL(struck | rule | named, 0);
    EQUAL(kill(&guard, 1, (fy_key)6, "p0", FY_REBOOT, FY_REBOOT), FY_ARGUMENT);
    EQUAL(kill(&guard, 1, FY_PROCESS, "p0", FY_NONE, FY_REBOOT), FY_ARGUMENT);
    EQUAL(kill(&guard, 1, FY_PROCESS, "p0", (fy_kind)5, FY_REBOOT), FY_ARGUMENT);
    EQUAL(kill(&guard, 1, FY_PROCESS, "p0", FY_REBOOT, FY_NONE), FY_ARGUMENT);
    EQUAL(kill(&guard, 1, FY_PROCESS, "", FY_REBOOT, FY_REBOOT), FY_NAME);
    EQUAL(kill(&guard, 1, FY_PROCESS, "-p", FY_REBOOT, FY_REBOOT), FY_NAME);
    EQUAL(kill(&guard, 1, FY_PROCESS, "p 0", FY_REBOOT, FY_REBOOT), FY_NAME);
    EQUAL(kill(&guard, 1, FY_PROCESS, "a23456789012345678901234567890123", FY_REBOOT, FY_REBOOT),
          FY_NAME);
    EQUAL(kill(&guard, 1, FY_PROCESS, "p0", FY_REBOOT, FY_KILL_INSTANTLY), FY_FLOOR);
    EQUAL(fy_guard_act(&guard, "", 0, buffer, sizeof buffer, &told), FY_LINE_SYNTAX);
    EQUAL(fy_guard_act(&guard, "{}", 2, buffer, sizeof buffer, &told), FY_LINE_SYNTAX);
    const char *above = "{\"by\":1,\"act\":{\"kill\":{\"floor\":\"Reboot\",\"key\":\"zoneid\","
                        "\"kind\":\"RebootProcess\",\"tear\":0,\"value\":\"z0\"}}}";
    EQUAL(fy_guard_act(&guard, above, strlen(above), buffer, sizeof buffer, &told), FY_FLOOR);
    static char longest[65537], large[65537 + FY_MOST_REPLY];
    memset(longest, ' ', sizeof longest);
    EQUAL(fy_guard_act(&guard, longest, 65536, large, sizeof large, &told), FY_LINE_SYNTAX);
    EQUAL(fy_guard_act(&guard, longest, 65537, large, sizeof large, &told), FY_LINE_TOO_LONG);
    /* One byte too few does nothing, and with that byte there is room for whatever is answered. */
    memset(room, 'x', sizeof room);
    /* No line has so many bytes; nothing is read. */
    EQUAL(fy_guard_act(&guard, KILL_ZONE, SIZE_MAX, room, SIZE_MAX, &told), FY_SHORT);
    EQUAL(told, SIZE_MAX);
    EQUAL(fy_guard_act(&guard, KILL_ZONE, SIZE_MAX - FY_MOST_REPLY + 1, room, 1, &told), FY_SHORT);
    EQUAL(told, SIZE_MAX);
    told = 77;
    EQUAL(fy_guard_act(&guard, KILL_ZONE, length, room, length + FY_MOST_REPLY - 1, &told),
          FY_SHORT);
    EQUAL(told, length + FY_MOST_REPLY);
    EQUAL(room[0], 'x');
    EQUAL(fy_guard_journal_len(&guard, &count), FY_DONE);
    EQUAL(count, 0);
    EQUAL(fy_guard_act(&guard, KILL_ZONE, length, room, length + FY_MOST_REPLY, &told), FY_DONE);
    for (size_t i = told; i < sizeof room; i++)
        EQUAL(room[i], 'x');
    size_t line = told;
    EQUAL(fy_guard_audit(&guard, 0, room, line - 1, &told), FY_SHORT);
    EQUAL(told, line);
    memset(room, 'y', sizeof room);
    EQUAL(fy_guard_audit(&guard, 0, room, sizeof room, &told), FY_DONE);
    for (size_t i = told; i < sizeof room; i++)
        EQUAL(room[i], 'y');
    EQUAL(fy_guard_audit(&guard, 0, room, line, &told), FY_DONE);
    EQUAL(told, line);
    EQUAL(fy_guard_audit(&guard, 1, room, sizeof room, &told), FY_NO_ENTRY);
    EQUAL(fy_guard_audit(&guard, SIZE_MAX, room, sizeof room, &told), FY_NO_ENTRY);
    /* The cluster file of this guard has two places in the journal. */
    uint32_t refusal;
    EQUAL(fy_guard_up(&guard, 0, 0, &refusal), FY_REFUSED);
    EQUAL(fy_guard_up(&guard, 0, 0, &refusal), FY_JOURNAL_FULL);
    EQUAL(refusal, FY_NOT_REFUSED);
    EQUAL(fy_guard_heal(&guard, 0, 0, &refusal), FY_JOURNAL_FULL);
    EQUAL(kill(&guard, 1, FY_PROCESS, "p0", FY_REBOOT, FY_REBOOT), FY_JOURNAL_FULL);
    EQUAL(fy_guard_act(&guard, KILL_ZONE, length, room, sizeof room, &told), FY_JOURNAL_FULL);
    EQUAL(fy_guard_journal_len(&guard, &count), FY_DONE);
    EQUAL(count, 2);
    fy_guard_close(&guard);
}

/* A cluster file that is none, one for each reason. */
static void cluster_files(void)
{
    static const struct {
        const char *text;
        fy_status status;
        fy_part part;
        uint64_t place;
    } files[] = {
        {"", FY_CONFIG_FIELD, FY_PART_JOURNAL_LIMIT, 0},
        {"journal_limit = 1\n", FY_CONFIG_FIELD, FY_PART_POLICIES, 0},
        {"=", FY_CONFIG_TOML, FY_WHOLE_FILE, 0},
        {"\xff", FY_CONFIG_TOML, FY_WHOLE_FILE, 0},
        {"journal_limit = 0\n" REST("Across(2,zoneid,One())", "z1"), FY_CONFIG_LIMIT,
         FY_PART_JOURNAL_LIMIT, 0},
        {"journal_limit = 1.0\n" REST("Across(2,zoneid,One())", "z1"), FY_CONFIG_FIELD,
         FY_PART_JOURNAL_LIMIT, 0},
        {"journal_limit = 1\nmore = 1\n" REST("Across(2,zoneid,One())", "z1"), FY_CONFIG_FIELD,
         FY_PART_UNKNOWN, 0},
        {"journal_limit = 1\n" REST("Across(2,zoneid,One())", "z 1"), FY_CONFIG_NAME,
         FY_PART_PROCESS, 1},
        {"journal_limit = 1\nprotect = [{process = \"p0\", kinds = [\"Reboot\"]}, "
         "{process = \"p9\", kinds = [\"Reboot\"]}]\n" REST("Across(2,zoneid,One())", "z1"),
         FY_CONFIG_NAME, FY_PART_PROTECT, 1},
        {"journal_limit = 1\n" PROCESSES("Across(2,zoneid,One())", "z1") "actor = []\n",
         FY_CONFIG_LIMIT, FY_PART_ACTOR, 0},
        {"journal_limit = 1\n" PROCESSES(
             "Across(2,zoneid,One())",
             "z1") "actor = [{role = \"fault\"}, {role = \"fault\", grants = [{kinds = [], "
                   "key = \"zoneid\", value = \"-\"}]}]\n",
         FY_CONFIG_NAME, FY_PART_ACTOR, 1},
        {"journal_limit = 1\n" REST("Across(2,zone,One())", "z1"), FY_CONFIG_POLICY,
         FY_PART_POLICIES, 0},
        {"journal_limit = 1\n" REST("One()\", \"Across(2,zone,One())", "z1"), FY_CONFIG_POLICY,
         FY_PART_POLICIES, 1},
        {"journal_limit = 1\n" REST("One()\", \"Across(3,zoneid,One())", "z1"), FY_CONFIG_UNMET,
         FY_PART_POLICIES, 1},
    };
    uint32_t part;
    uint64_t place;
    fy_guard guard;
    for (size_t i = 0; i < sizeof files / sizeof *files; i++) {
        memset(&guard, 0xff, sizeof guard);
        EQUAL(fy_guard_open(files[i].text, strlen(files[i].text), &guard), files[i].status);
        EQUAL(fy_guard_is_open(&guard), 0);
        part = 77;
        place = 77;
        EQUAL(fy_guard_config_fault(files[i].text, strlen(files[i].text), &part, &place),
              files[i].status);
        EQUAL(part, files[i].part);
        EQUAL(place, files[i].place);
    }
    static char longest[1048577];
    memset(longest, '\n', sizeof longest);
    EQUAL(fy_guard_open(longest, 1048576, &guard), FY_CONFIG_FIELD);
    EQUAL(fy_guard_open(longest, 1048577, &guard), FY_CONFIG_TOO_LONG);
    const char *met = "journal_limit = 1\n" REST("Across(2,zoneid,One())", "z1");
    EQUAL(fy_guard_config_fault(met, strlen(met), &part, &place), FY_DONE);
    EQUAL(part | place, 0);
    EQUAL(fy_guard_config_fault(longest, 1048577, &part, &place), FY_CONFIG_TOO_LONG);
    EQUAL(part | place, 0);
    EQUAL(fy_guard_config_fault(NULL, 0, &part, &place), FY_CLOSED);
    EQUAL(fy_guard_config_fault("", 0, NULL, &place), FY_CLOSED);
    EQUAL(fy_guard_config_fault("", 0, &part, NULL), FY_CLOSED);
    EQUAL(fy_guard_open(met, strlen(met), &guard), FY_DONE);
    EQUAL(fy_guard_is_open(&guard), 1);
    fy_guard_close(&guard);
}

/* The inline calls answer for a closed guard and for a null pointer. */
static void closed(void)
{
    fy_guard guard = {0};
    uint32_t refusal;
    size_t told;
    int destroyed = 2;
    uint64_t left[FY_SET_WORDS];
    char buffer[256];
    uint32_t process;
    fy_seen seen;
    fy_guard_close(&guard);
    fy_guard_close(NULL);
    EQUAL(fy_guard_open(NULL, 0, &guard), FY_CLOSED);
    EQUAL(fy_guard_open("", 0, NULL), FY_CLOSED);
    for (int round = 0; round < 2; round++) {
        fy_guard *none = round == 0 ? &guard : NULL;
        EQUAL(kill(none, 1, FY_PROCESS, "p0", FY_REBOOT, FY_REBOOT), FY_CLOSED);
        EQUAL(fy_guard_up(none, 0, 0, &refusal), FY_CLOSED);
        EQUAL(fy_guard_heal(none, 0, 0, &refusal), FY_CLOSED);
        EQUAL(fy_guard_act(none, "", 0, buffer, sizeof buffer, &told), FY_CLOSED);
        EQUAL(fy_guard_is_destroyed(none, 0, &destroyed), FY_CLOSED);
        EQUAL(fy_guard_reset(none), FY_CLOSED);
        EQUAL(fy_guard_left(none, left), FY_CLOSED);
        EQUAL(fy_guard_destroyed_set(none, left), FY_CLOSED);
        EQUAL(fy_guard_up_set(none, left), FY_CLOSED);
        EQUAL(fy_guard_state(none, 0, &process), FY_CLOSED);
        EQUAL(fy_guard_needed(none, 0, &process), FY_CLOSED);
        EQUAL(
            fy_guard_judge(none, 1, FY_PROCESS, "p0", FY_REBOOT, FY_REBOOT, &struck, &rule, &named),
            FY_CLOSED);
        EQUAL(fy_guard_gone_set(none, left), FY_CLOSED);
        EQUAL(fy_guard_targets(none, FY_ZONE, "z0", left), FY_CLOSED);
        EQUAL(fy_guard_process(none, "p0", &process), FY_CLOSED);
        EQUAL(fy_guard_process_count(none, &process), FY_CLOSED);
        EQUAL(fy_guard_is_acked(none, 0, &destroyed), FY_CLOSED);
        EQUAL(fy_guard_keeper(none, 0, &process), FY_CLOSED);
        EQUAL(fy_guard_sight(none, &seen), FY_CLOSED);
        EQUAL(fy_guard_journal_len(none, &told), FY_CLOSED);
        EQUAL(fy_guard_audit(none, 0, buffer, sizeof buffer, &told), FY_CLOSED);
    }
    guard = open_guard(SIX);
    EQUAL(kill(&guard, 1, FY_PROCESS, NULL, FY_REBOOT, FY_REBOOT), FY_CLOSED);
    EQUAL(fy_guard_up(&guard, 0, 0, NULL), FY_CLOSED);
    EQUAL(fy_guard_heal(&guard, 0, 0, NULL), FY_CLOSED);
    EQUAL(fy_guard_act(&guard, NULL, 0, buffer, sizeof buffer, &told), FY_CLOSED);
    EQUAL(fy_guard_act(&guard, "", 0, NULL, 0, &told), FY_CLOSED);
    EQUAL(fy_guard_is_destroyed(&guard, 0, NULL), FY_CLOSED);
    EQUAL(fy_guard_left(&guard, NULL), FY_CLOSED);
    EQUAL(fy_guard_destroyed_set(&guard, NULL), FY_CLOSED);
    EQUAL(fy_guard_up_set(&guard, NULL), FY_CLOSED);
    EQUAL(fy_guard_state(&guard, 0, NULL), FY_CLOSED);
    EQUAL(fy_guard_needed(&guard, 0, NULL), FY_CLOSED);
    EQUAL(fy_guard_judge(&guard, 1, FY_PROCESS, "p0", FY_REBOOT, FY_REBOOT, NULL, &rule, &named),
          FY_CLOSED);
    EQUAL(fy_guard_gone_set(&guard, NULL), FY_CLOSED);
    EQUAL(fy_guard_targets(&guard, FY_ZONE, "z0", NULL), FY_CLOSED);
    EQUAL(fy_guard_targets(&guard, FY_ZONE, NULL, left), FY_CLOSED);
    EQUAL(fy_guard_process(&guard, "p0", NULL), FY_CLOSED);
    EQUAL(fy_guard_process(&guard, NULL, &process), FY_CLOSED);
    EQUAL(fy_guard_process_count(&guard, NULL), FY_CLOSED);
    EQUAL(fy_guard_is_acked(&guard, 0, NULL), FY_CLOSED);
    EQUAL(fy_guard_keeper(&guard, 0, NULL), FY_CLOSED);
    EQUAL(fy_guard_sight(&guard, NULL), FY_CLOSED);
    EQUAL(fy_guard_journal_len(&guard, NULL), FY_CLOSED);
    EQUAL(fy_guard_audit(&guard, 0, NULL, 0, &told), FY_CLOSED);
    fy_guard_close(&guard);
    EQUAL(fy_guard_is_open(&guard), 0);
    fy_guard_close(&guard);
}

int main(void)
{
    worked_kill();
    rules();
    refusals();
    sets();
    reset();
    copies();
    full_copies();
    no_copies();
    names();
    records();
    errors();
    cluster_files();
    closed();
    EQUAL(fy_version(), FAULTYARD_VERSION);
    return ended("guard");
}
