/* Each request for memory of each call refused in turn: the call answers FY_NO_MEMORY, and nothing
 * changed; or it gets on without, as a reader whose scan of a line had no memory, and does what it
 * says. */
#include "faultyard.h"
#include "refuse.h"
#include "told.h"

static const char *LINES[] = {
    "{\"by\":0,\"act\":{\"form\":{\"members\":[0,2],\"policy\":0}}}",
    "{\"by\":0,\"act\":{\"begin\":{\"payload\":\"6869\",\"team\":0}}}",
    "{\"by\":0,\"act\":{\"deliver\":{\"message\":0}}}",
    "{ \"act\": {\"deliver\": {\"message\": 1}}, \"by\": 0 }",
    "{\"by\":0,\"act\":{\"sync\":{\"process\":0}}}",
    "{\"by\":4,\"act\":{\"give\":{\"actor\":3,\"kinds\":[\"Reboot\"],\"scope\":\"all\"}}}",
    "{\"by\":1,\"act\":{\"kill\":{\"key\":\"zoneid\",\"value\":\"z1\",\"kind\":\"KillInstantly\","
    "\"floor\":\"Reboot\",\"tear\":0}}}",
};

static char before[100000], after[100000];

/* The audit of a guard. */
static size_t audit_of(fy_guard *guard, char *text)
{
    size_t count = 0, told, length = 0;
    EQUAL(fy_guard_journal_len(guard, &count), FY_DONE);
    for (size_t at = 0; at < count; at++) {
        EQUAL(fy_guard_audit(guard, at, text + length, sizeof before - length, &told), FY_DONE);
        length += told;
    }
    return length;
}

enum { OPEN, FAULT, RESET, COPY, KILL, KILL_PROCESS, UP, HEAL, ACT, BEARS, AUDIT, CALLS };

static fy_status call(int which, fy_guard *guard, size_t line)
{
    char buffer[1024];
    size_t told;
    uint32_t refusal, part = 77;
    uint64_t place = 77;
    fy_guard other;
    fy_borne borne = {77, 77, 77, 77};
    fy_status status;
    switch (which) {
    case OPEN:
        status = fy_guard_open(SIX, strlen(SIX), &other);
        fy_guard_close(&other);
        return status;
    case FAULT:
        status = fy_guard_config_fault(SIX, strlen(SIX), &part, &place);
        EQUAL(part | place, 0);
        return status;
    case RESET:
        return fy_guard_reset(guard);
    case COPY:
        other.at = guard;
        status = fy_guard_try_copy(guard, &other);
        /* Each request is needed, and what was made for a copy that isn't opened is freed. */
        EQUAL(status, answered < 0 ? FY_NO_MEMORY : FY_DONE);
        EQUAL(fy_guard_is_open(&other), status == FY_DONE);
        fy_guard_close(&other);
        return status;
    case KILL:
        return fy_guard_kill(guard, 1, FY_PROCESS, "p4", FY_REBOOT, FY_REBOOT, 0, &struck, &rule,
                             &named);
    case KILL_PROCESS:
        return fy_guard_kill_process(guard, 1, 4, FY_REBOOT, FY_REBOOT, 0, &struck, &rule, &named);
    case UP:
        return fy_guard_up(guard, 0, 4, &refusal);
    case HEAL:
        return fy_guard_heal(guard, 0, 4, &refusal);
    case ACT:
        return fy_guard_act(guard, LINES[line], strlen(LINES[line]), buffer, sizeof buffer, &told);
    case BEARS:
        status = fy_guard_bears(guard, &borne);
        EQUAL(status, answered < 0 ? FY_NO_MEMORY : FY_DONE);
        EQUAL(borne.emptied, status == FY_DONE ? 0 : 77);
        EQUAL(borne.gone_exact, status == FY_DONE ? 1 : 77);
        return status;
    default:
        return fy_guard_audit(guard, 0, buffer, sizeof buffer, &told);
    }
}

/* Each act by numbers, behind the acts of LINES. */
enum { NUMBERED = 15 };

static fy_status numbered(int which, fy_guard *guard, fy_reply *reply)
{
    static const uint32_t members[] = {1, 4};
    switch (which) {
    case 0:
        return fy_guard_clog(guard, 1, FY_ZONE, "z2", 3, reply);
    case 1:
        return fy_guard_unclog(guard, 1, FY_ZONE, "z2", reply);
    case 2:
        return fy_guard_form(guard, 0, members, 2, 0, reply);
    case 3:
        return fy_guard_begin(guard, 0, 0, "hi", 2, reply);
    case 4:
        return fy_guard_deliver(guard, 0, 2, reply);
    case 5:
        return fy_guard_lose(guard, 0, 2, reply);
    case 6:
        return fy_guard_resend(guard, 0, 0, 2, reply);
    case 7:
        return fy_guard_sync(guard, 0, 0, reply);
    case 8:
        return fy_guard_tick(guard, 0, 1, reply);
    case 9:
        return fy_guard_give(guard, 4, 3, FY_KINDS_ALL, FY_ZONE, "z1", reply);
    case 10:
        return fy_guard_take(guard, 4, 3, 0, reply);
    case 11:
        return fy_guard_protect(guard, 4, 0, FY_KINDS_ALL, reply);
    case 12:
        return fy_guard_unprotect(guard, 4, 0, FY_KINDS_ALL, reply);
    case 13:
        return fy_guard_copy(guard, 0, 0, 0, 4, reply);
    default:
        return fy_guard_replace(guard, 0, 0, 0, 1, reply);
    }
}

/* Each request for memory of each of them refused in turn: it answers FY_NO_MEMORY, tells nothing,
 * and nothing changed. There are eight entries before, so that each needs room for its own. */
static void refuse_numbered(void)
{
    static const fy_reply nothing;
    long held = live, unmade = 0;
    for (int which = 0; which < NUMBERED; which++) {
        for (long request = 0;; request++) {
            fy_guard guard = open_guard(SIX);
            fy_reply reply;
            for (size_t i = 0; i < sizeof LINES / sizeof *LINES; i++)
                EQUAL(call(ACT, &guard, i), FY_DONE);
            EQUAL(fy_guard_tick(&guard, 0, 1, &reply), FY_DONE);
            memset(&reply, 0x55, sizeof reply);
            size_t length = audit_of(&guard, before);
            answered = request;
            fy_status status = numbered(which, &guard, &reply);
            int met = answered < 0;
            answered = -1;
            size_t now = audit_of(&guard, after);
            if (met && status == FY_NO_MEMORY) {
                unmade++;
                EQUAL(memcmp(&reply, &nothing, sizeof reply), 0);
                EQUAL(now == length && memcmp(before, after, length) == 0, 1);
            } else {
                EQUAL(status, FY_DONE);
                EQUAL(now > length, 1);
            }
            fy_guard_close(&guard);
            EQUAL(live, held);
            if (!met)
                break;
        }
    }
    EQUAL(unmade >= NUMBERED, 1);
    printf("memory: %ld acts by numbers undone by a request refused\n", unmade);
}

/* These ask for no memory. */
static void ask(void)
{
    fy_guard guard = open_guard(SIX);
    uint64_t set[FY_SET_WORDS];
    uint32_t told;
    uint8_t kinds[6];
    size_t count;
    answered = 0;
    EQUAL(fy_guard_judge(&guard, 1, FY_ZONE, "z0", FY_KILL_INSTANTLY, FY_REBOOT, &struck, &rule,
                         &named),
          FY_DONE);
    EQUAL(
        fy_guard_judge_process(&guard, 1, 0, FY_KILL_INSTANTLY, FY_REBOOT, &struck, &rule, &named),
        FY_DONE);
    EQUAL(fy_guard_killable(&guard, 1, kinds, sizeof kinds, &count), FY_DONE);
    EQUAL(fy_guard_up_set(&guard, set), FY_DONE);
    EQUAL(fy_guard_state(&guard, 0, &told), FY_DONE);
    EQUAL(fy_guard_needed(&guard, 0, &told), FY_DONE);
    EQUAL(answered, 0);
    answered = -1;
    fy_guard_close(&guard);
}

/* A guard with so many entries: the acts of LINES, and ticks. */
static fy_guard guard_with(size_t entries)
{
    fy_guard guard = open_guard(SIX);
    fy_reply reply;
    for (size_t i = 0; i < entries; i++) {
        if (i < sizeof LINES / sizeof *LINES)
            EQUAL(call(ACT, &guard, i), FY_DONE);
        else
            EQUAL(fy_guard_tick(&guard, 0, 1, &reply), FY_DONE);
    }
    return guard;
}

/* How many bytes a call asks for after so many entries. */
static size_t asks(int which, size_t entries)
{
    fy_guard guard = guard_with(entries);
    asked = 0;
    answered = 1000000;
    EQUAL(call(which, &guard, 0), FY_DONE);
    answered = -1;
    size_t bytes = asked;
    fy_guard_close(&guard);
    return bytes;
}

/* What reset and audit ask for is the same however long the journal is, unlike a copy. Audit asks
 * at once for at most twice the bytes of its line. */
static void asked_for(void)
{
    static const char payload[32000];
    static char line[70000];
    fy_guard guard = open_guard(SIX);
    fy_reply reply;
    size_t told = 0, longest = 0, at = 0;
    EQUAL(asks(RESET, 0) > 0, 1);
    EQUAL(asks(RESET, 900), asks(RESET, 0));
    EQUAL(asks(COPY, 900) > asks(COPY, 0), 1);
    EQUAL(asks(AUDIT, 1) > 0, 1);
    EQUAL(asks(AUDIT, 900), asks(AUDIT, 1));
    for (size_t length = 0; length <= sizeof payload; length += 50) {
        EQUAL(fy_guard_begin(&guard, 0, 0, payload, length, &reply), FY_REFUSED);
        largest = 0;
        EQUAL(fy_guard_audit(&guard, at++, line, sizeof line, &told), FY_DONE);
        EQUAL(largest > 0 && largest <= 2 * told, 1);
        longest = told;
    }
    EQUAL(longest > 2 * sizeof payload, 1);
    printf("memory: reset asks for %zu bytes; audit asks at once for %zu of a line of %zu\n",
           asks(RESET, 0), largest, longest);
    fy_guard_close(&guard);
}

int main(void)
{
    ask();
    asked_for();
    refuse_numbered();
    long held = live, refused = 0, unmade = 0;
    size_t lines = sizeof LINES / sizeof *LINES;
    for (int which = 0; which < CALLS; which++) {
        for (size_t line = 0; line < (which == ACT ? lines : 1); line++) {
            for (long request = 0;; request++) {
                fy_guard guard = open_guard(SIX);
                for (size_t i = 0; i < (which == ACT ? line : lines); i++)
                    EQUAL(call(ACT, &guard, i), FY_DONE);
                size_t length = audit_of(&guard, before);
                answered = request;
                fy_status status = call(which, &guard, line);
                int met = answered < 0;
                answered = -1;
                size_t now = audit_of(&guard, after);
                refused += met;
                if (met && status == FY_NO_MEMORY) {
                    unmade++;
                    EQUAL(now == length && memcmp(before, after, length) == 0, 1);
                } else {
                    EQUAL(status == FY_DONE || status == FY_REFUSED, 1);
                    EQUAL(now > length, which == KILL || which == KILL_PROCESS || which == UP ||
                                            which == HEAL || which == ACT);
                    EQUAL(now == 0, which == RESET);
                }
                fy_guard_close(&guard);
                EQUAL(live, held);
                if (!met)
                    break;
            }
        }
    }
    EQUAL(unmade > 100, 1);
    printf("memory: %ld requests refused, %ld calls undone by it\n", refused, unmade);
    return ended("memory");
}
