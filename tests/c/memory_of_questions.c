/* Each request for memory of each question refused in turn: the call answers FY_NO_MEMORY, and
 * tells nothing; or it goes on without, and tells what it tells with it. Nothing changes either
 * way, and what was asked for is given back. */
#include "faultyard.h"
#include "refuse.h"
#include "told.h"

static const char *const STORY[] = {
    "{\"by\":0,\"act\":{\"form\":{\"members\":[0,2],\"policy\":0}}}",
    "{\"by\":0,\"act\":{\"begin\":{\"payload\":\"6869\",\"team\":0}}}",
    "{\"by\":1,\"act\":{\"kill\":{\"floor\":\"Reboot\",\"key\":\"processid\","
    "\"kind\":\"KillInstantly\",\"tear\":0,\"value\":\"p1\"}}}",
    "{\"by\":4,\"act\":{\"protect\":{\"kinds\":[\"Reboot\",\"Clog\"],\"process\":4}}}",
};

static const char *const ASKED[] = {
    "{\"ask\":{\"judge\":{\"by\":1,\"act\":{\"kill\":{\"floor\":\"Reboot\",\"key\":\"zoneid\","
    "\"kind\":\"KillInstantly\",\"tear\":0,\"value\":\"z1\"}}}}}",
    "{\"ask\":{\"judge\":{\"by\":1,\"act\":{\"clog\":{\"key\":\"zoneid\",\"ticks\":1,"
    "\"value\":\"z2\"}}}}}",
    "{\"ask\":{\"killable\":{\"actor\":1}}}",
    "{\"ask\":{\"state\":{}}}",
    "{\"ask\":{\"state\":{\"process\":3}}}",
    "{\"ask\":{\"cluster\":{}}}",
    "{\"ask\":{\"targets\":{\"key\":\"zoneid\",\"value\":\"z0\"}}}",
    "{\"ask\":{\"record\":{\"record\":0}}}",
    "{\"ask\":{\"needed\":{\"process\":0}}}",
    "{\"ask\":{\"sight\":{}}}",
    "{\"ask\":{\"bears\":{}}}",
    /* What isn't there, and no question. */
    "{\"ask\":{\"needed\":{\"process\":6}}}",
    "{\"ask\":{\"sights\":{}}}",
};

enum { ENTRIES = sizeof STORY / sizeof *STORY, QUESTIONS = sizeof ASKED / sizeof *ASKED };

static char whole[8192], found[8192];

/* Asks with the request of this number refused; whether one was. */
static int asked_without(const fy_guard *guard, const char *line, long request, fy_status wanted,
                         size_t length, long *untold)
{
    size_t told = 77;
    memset(found, 'x', sizeof found);
    answered = request;
    fy_status status = fy_guard_ask(guard, line, strlen(line), found, sizeof found, &told);
    int met = answered < 0;
    answered = -1;
    if (met && status == FY_NO_MEMORY) {
        *untold += 1;
        EQUAL(told, 77);
        EQUAL(found[0], 'x');
    } else {
        EQUAL(status, wanted);
        EQUAL(told, length);
        EQUAL(wanted != FY_DONE || memcmp(found, whole, told) == 0, 1);
    }
    return met;
}

int main(void)
{
    char line[512];
    size_t told, count = 77;
    long refused = 0, untold = 0;
    fy_guard guard = open_guard(SIX);
    for (int at = 0; at < ENTRIES; at++)
        EQUAL(fy_guard_act(&guard, STORY[at], strlen(STORY[at]), line, sizeof line, &told),
              FY_DONE);
    for (int at = 0; at < QUESTIONS; at++) {
        long held = live, before = untold, request = 0;
        size_t length = 77;
        fy_status wanted =
            fy_guard_ask(&guard, ASKED[at], strlen(ASKED[at]), whole, sizeof whole, &length);
        EQUAL(wanted, at == QUESTIONS - 1 ? FY_LINE_SYNTAX : FY_DONE);
        EQUAL(live, held);
        while (asked_without(&guard, ASKED[at], request, wanted, length, &untold)) {
            EQUAL(live, held);
            EQUAL(fy_guard_journal_len(&guard, &count), FY_DONE);
            EQUAL(count, ENTRIES);
            request++;
        }
        EQUAL(untold > before, 1);
        refused += request;
    }
    printf("questions: %ld requests refused, %ld of them told nothing\n", refused, untold);
    fy_guard_close(&guard);
    return ended("memory_of_questions");
}
