/* Guards that are opened where an audit ends: on worked audits and on each front of a guard's
 * journal; and with each request for memory refused in turn. */
#include "faultyard.h"
#include "refuse.h"
#include "told.h"

#define FIRST_HEADER "{\"audit\":1}\n"
#define TICK(at, now) \
    "{\"act\":{\"tick\":{\"ticks\":1}},\"at\":" at ",\"by\":0,\"reply\":{\"time\":" now "}}\n"
#define KILL(value, at, verdict)                                                                  \
    "{\"act\":{\"kill\":{\"floor\":\"Reboot\",\"key\":\"zoneid\",\"kind\":\"KillInstantly\","     \
    "\"tear\":0,\"value\":\"" value "\"}},\"at\":" at ",\"by\":1,\"reply\":{\"verdict\":" verdict \
    "}}\n"
#define KILLED KILL("z0", "0", "{\"rule\":null,\"struck\":\"KillInstantly\"}")
#define REBOOTED KILL("z1", "1", "{\"rule\":[\"TooManyDestroyed\",0],\"struck\":\"Reboot\"}")
/* What would destroy the last copy: no rule allows it. */
#define KILLED_TOO KILL("z1", "1", "{\"rule\":null,\"struck\":\"KillInstantly\"}")

/* What opens a guard behind an audit of so many bytes. */
static fy_status open_after(const char *config, const char *audit, size_t length, fy_guard *guard,
                            uint32_t bad)
{
    uint32_t first_bad = 77;
    memset(guard, 0x55, sizeof *guard);
    fy_status status =
        fy_guard_open_after(config, strlen(config), audit, length, guard, &first_bad);
    EQUAL(first_bad, bad);
    EQUAL(fy_guard_is_open(guard), status == FY_DONE);
    return status;
}

static void refused(const char *config, const char *audit, fy_status status, uint32_t bad)
{
    fy_guard guard;
    EQUAL(open_after(config, audit, strlen(audit), &guard, bad), status);
    fy_guard_close(&guard);
}

/* The audit that is worked out in docs/FORMATS.md: behind its first entry the second is answered
 * so. */
static void worked(void)
{
    static const char audit[] = FY_AUDIT_HEADER KILLED;
    char line[1024];
    size_t told, count = 77;
    fy_guard guard;
    EQUAL(open_after(SIX, audit, strlen(audit), &guard, FY_NO_BAD_ENTRY), FY_DONE);
    EQUAL(fy_guard_journal_len(&guard, &count), FY_DONE);
    EQUAL(count, 1);
    EQUAL(fy_guard_audit(&guard, 0, line, sizeof line, &told), FY_DONE);
    TEXT(line, told, KILLED);
    EQUAL(fy_guard_kill(&guard, 1, FY_ZONE, "z1", FY_KILL_INSTANTLY, FY_REBOOT, 0, &struck, &rule,
                        &named),
          FY_DONE);
    EQUAL(struck, FY_REBOOT);
    EQUAL(rule, FY_TOO_MANY_DESTROYED);
    EQUAL(fy_guard_audit(&guard, 1, line, sizeof line, &told), FY_DONE);
    TEXT(line, told, REBOOTED);
    /* Put back, it is where nothing happened yet. */
    EQUAL(fy_guard_reset(&guard), FY_DONE);
    EQUAL(fy_guard_journal_len(&guard, &count), FY_DONE);
    EQUAL(count, 0);
    fy_guard_close(&guard);
    EQUAL(open_after(SIX, FY_AUDIT_HEADER, strlen(FY_AUDIT_HEADER), &guard, FY_NO_BAD_ENTRY),
          FY_DONE);
    EQUAL(fy_guard_journal_len(&guard, &count), FY_DONE);
    EQUAL(count, 0);
    fy_guard_close(&guard);
}

static void faults(void)
{
    static const char whole[] = FY_AUDIT_HEADER KILLED REBOOTED;
    static char longest[70000];
    fy_guard guard;
    refused(SIX, FY_AUDIT_HEADER KILLED KILLED_TOO, FY_REFUTED, 1);
    refused(SIX, FY_AUDIT_HEADER KILLED KILLED_TOO TICK("2", "1"), FY_REFUTED, 1);
    refused(SIX, FY_AUDIT_HEADER TICK("0", "2"), FY_REFUTED, 0);
    refused(TWO_PLACES, FY_AUDIT_HEADER TICK("0", "1") TICK("1", "2") TICK("2", "3"), FY_REFUTED,
            2);
    refused(SIX, FIRST_HEADER, FY_NO_HEADER, FY_NO_BAD_ENTRY);
    refused(SIX, FIRST_HEADER TICK("0", "1"), FY_NO_HEADER, FY_NO_BAD_ENTRY);
    refused(SIX, "", FY_NO_HEADER, FY_NO_BAD_ENTRY);
    refused(SIX, TICK("0", "1"), FY_NO_HEADER, FY_NO_BAD_ENTRY);
    refused(SIX, FY_AUDIT_HEADER TICK("1", "1"), FY_LINE_SYNTAX, FY_NO_BAD_ENTRY);
    refused(SIX, FY_AUDIT_HEADER "\n", FY_LINE_SYNTAX, FY_NO_BAD_ENTRY);
    refused("journal_limit = 0", FY_AUDIT_HEADER, FY_CONFIG_FIELD, FY_NO_BAD_ENTRY);
    refused("", "", FY_CONFIG_FIELD, FY_NO_BAD_ENTRY);
    memcpy(longest, FY_AUDIT_HEADER, strlen(FY_AUDIT_HEADER));
    memset(longest + strlen(FY_AUDIT_HEADER), ' ', 65537);
    refused(SIX, longest, FY_LINE_TOO_LONG, FY_NO_BAD_ENTRY);
    /* A cut within a line leaves half of it; behind a line feed it leaves a whole audit. */
    for (size_t length = 0; length < strlen(whole); length++) {
        size_t header = strlen(FY_AUDIT_HEADER);
        fy_status wanted = length < header             ? FY_NO_HEADER
                           : whole[length - 1] == '\n' ? FY_DONE
                                                       : FY_LINE_SYNTAX;
        EQUAL(open_after(SIX, whole, length, &guard, FY_NO_BAD_ENTRY), wanted);
        fy_guard_close(&guard);
    }
}

static void closed(void)
{
    uint32_t first_bad = 77;
    fy_guard guard = {NULL};
    EQUAL(fy_guard_open_after(NULL, 0, "", 0, &guard, &first_bad), FY_CLOSED);
    EQUAL(fy_guard_open_after("", 0, NULL, 0, &guard, &first_bad), FY_CLOSED);
    EQUAL(fy_guard_open_after("", 0, "", 0, NULL, &first_bad), FY_CLOSED);
    EQUAL(fy_guard_open_after("", 0, "", 0, &guard, NULL), FY_CLOSED);
    EQUAL(first_bad, 77);
}

/* Acts of each kind that leaves something behind; each front of their journal is gone on from, and
 * the rest is made. */
static const char *const STORY[] = {
    "{\"by\":0,\"act\":{\"form\":{\"members\":[0,2],\"policy\":0}}}",
    "{\"by\":0,\"act\":{\"begin\":{\"payload\":\"6869\",\"team\":0}}}",
    "{\"by\":0,\"act\":{\"deliver\":{\"message\":0}}}",
    "{\"by\":0,\"act\":{\"deliver\":{\"message\":1}}}",
    "{\"by\":0,\"act\":{\"sync\":{\"process\":0}}}",
    "{\"by\":0,\"act\":{\"sync\":{\"process\":2}}}",
    "{\"by\":0,\"act\":{\"deliver\":{\"message\":2}}}",
    "{\"by\":0,\"act\":{\"deliver\":{\"message\":3}}}",
    "{\"by\":1,\"act\":{\"kill\":{\"key\":\"zoneid\",\"value\":\"z0\","
    "\"kind\":\"RebootAndDelete\",\"floor\":\"Reboot\",\"tear\":0}}}",
    "{\"by\":0,\"act\":{\"up\":{\"process\":0}}}",
    "{\"by\":0,\"act\":{\"heal\":{\"process\":0}}}",
    "{\"by\":1,\"act\":{\"clog\":{\"key\":\"zoneid\",\"value\":\"z2\",\"ticks\":3}}}",
    "{\"by\":0,\"act\":{\"tick\":{\"ticks\":2}}}",
    "{\"by\":4,\"act\":{\"give\":{\"actor\":3,\"kinds\":[\"Reboot\"],\"scope\":\"all\"}}}",
    "{\"by\":4,\"act\":{\"protect\":{\"process\":4,\"kinds\":[\"Reboot\"]}}}",
    "{\"by\":1,\"act\":{\"kill\":{\"key\":\"zoneid\",\"value\":\"z1\",\"kind\":\"KillInstantly\","
    "\"floor\":\"Reboot\",\"tear\":0}}}",
};

enum { LINES = sizeof STORY / sizeof *STORY };

/* The story's audit, and where each of its lines ends. */
static size_t told_story(char *audit, size_t room, size_t *ends)
{
    fy_guard guard;
    size_t length = strlen(FY_AUDIT_HEADER), told;
    memcpy(audit, FY_AUDIT_HEADER, length);
    EQUAL(fy_guard_open(SIX, strlen(SIX), &guard), FY_DONE);
    ends[0] = length;
    for (size_t at = 0; at < LINES; at++) {
        EQUAL(fy_guard_act(&guard, STORY[at], strlen(STORY[at]), audit + length, room - length,
                           &told),
              FY_DONE);
        length += told;
        ends[at + 1] = length;
    }
    fy_guard_close(&guard);
    return length;
}

static void each_front(void)
{
    static char audit[16384], line[1024];
    size_t ends[LINES + 1], told;
    told_story(audit, sizeof audit, ends);
    for (size_t front = 0; front <= LINES; front++) {
        fy_guard guard;
        EQUAL(open_after(SIX, audit, ends[front], &guard, FY_NO_BAD_ENTRY), FY_DONE);
        for (size_t at = front; at < LINES; at++) {
            EQUAL(fy_guard_act(&guard, STORY[at], strlen(STORY[at]), line, sizeof line, &told),
                  FY_DONE);
            EQUAL(told, ends[at + 1] - ends[at]);
            EQUAL(memcmp(line, audit + ends[at], told), 0);
        }
        for (size_t at = 0; at < LINES; at++) {
            EQUAL(fy_guard_audit(&guard, at, line, sizeof line, &told), FY_DONE);
            EQUAL(told, ends[at + 1] - ends[at]);
            EQUAL(memcmp(line, audit + ends[at], told), 0);
        }
        fy_guard_close(&guard);
    }
}

static void refuse(void)
{
    static char audit[16384];
    size_t ends[LINES + 1], length = told_story(audit, sizeof audit, ends);
    long held = live, unmade = 0;
    for (long request = 0;; request++) {
        fy_guard guard = {&held};
        uint32_t first_bad = 77;
        answered = request;
        fy_status status = fy_guard_open_after(SIX, strlen(SIX), audit, length, &guard, &first_bad);
        int met = answered < 0;
        answered = -1;
        EQUAL(first_bad, FY_NO_BAD_ENTRY);
        EQUAL(fy_guard_is_open(&guard), status == FY_DONE);
        if (status == FY_NO_MEMORY)
            unmade += met;
        else
            EQUAL(status, FY_DONE);
        fy_guard_close(&guard);
        EQUAL(live, held);
        if (!met)
            break;
    }
    EQUAL(unmade >= LINES, 1);
    printf("resumed: %ld times not opened by a request refused\n", unmade);
}

int main(void)
{
    worked();
    faults();
    closed();
    each_front();
    refuse();
    return ended("resumed");
}
