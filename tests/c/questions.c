/* Questions as lines: each is told what the rules say of a written run, and changes nothing. */
#include "faultyard.h"
#include "told.h"

/* A record of p0 and p2 is acknowledged, p0 emptied, p1 killed for good, p3 clogged until 10 and p4
 * protected, at time 4. */
static const char *const STORY[] = {
    "{\"by\":0,\"act\":{\"form\":{\"members\":[0,2],\"policy\":0}}}",
    "{\"by\":0,\"act\":{\"begin\":{\"payload\":\"6869\",\"team\":0}}}",
    "{\"by\":0,\"act\":{\"deliver\":{\"message\":0}}}",
    "{\"by\":0,\"act\":{\"deliver\":{\"message\":1}}}",
    "{\"by\":0,\"act\":{\"sync\":{\"process\":0}}}",
    "{\"by\":0,\"act\":{\"sync\":{\"process\":2}}}",
    "{\"by\":0,\"act\":{\"deliver\":{\"message\":2}}}",
    "{\"by\":0,\"act\":{\"deliver\":{\"message\":3}}}",
    "{\"by\":1,\"act\":{\"kill\":{\"floor\":\"Reboot\",\"key\":\"processid\","
    "\"kind\":\"RebootAndDelete\",\"tear\":0,\"value\":\"p0\"}}}",
    "{\"by\":1,\"act\":{\"kill\":{\"floor\":\"Reboot\",\"key\":\"processid\","
    "\"kind\":\"KillInstantly\",\"tear\":0,\"value\":\"p1\"}}}",
    "{\"by\":1,\"act\":{\"clog\":{\"key\":\"processid\",\"ticks\":10,\"value\":\"p3\"}}}",
    "{\"by\":0,\"act\":{\"tick\":{\"ticks\":4}}}",
    "{\"by\":4,\"act\":{\"protect\":{\"kinds\":[\"Reboot\",\"Clog\"],\"process\":4}}}",
};

enum { ENTRIES = sizeof STORY / sizeof *STORY };

/* What each question is told then. */
static const char *const ASKED[][2] = {
    {"{\"ask\":{\"judge\":{\"by\":1,\"act\":{\"kill\":{\"floor\":\"Reboot\",\"key\":\"zoneid\","
     "\"kind\":\"KillInstantly\",\"tear\":0,\"value\":\"z1\"}}}}}",
     "{\"told\":{\"verdict\":{\"rule\":[\"TooManyDestroyed\",0],\"struck\":\"Reboot\"}}}\n"},
    {"{\"ask\":{\"judge\":{\"by\":1,\"act\":{\"clog\":{\"key\":\"zoneid\",\"ticks\":1,"
     "\"value\":\"z2\"}}}}}",
     "{\"told\":{\"ruled\":[\"Protected\",4]}}\n"},
    {"{\"ask\":{\"killable\":{\"actor\":2}}}",
     "{\"told\":{\"killable\":[\"KillInstantly\",null,\"Reboot\",\"Reboot\",null,\"Reboot\"]}}\n"},
    {"{\"ask\":{\"killable\":{\"actor\":5}}}", "{\"told\":{\"no\":[\"NoActor\"]}}\n"},
    {"{\"ask\":{\"state\":{\"process\":3}}}",
     "{\"told\":{\"state\":{\"now\":4,\"process\":{\"clogged\":10,\"destroyed\":false,"
     "\"down\":false,\"gone\":false,\"protected\":[],\"up\":true}}}}\n"},
    {"{\"ask\":{\"state\":{\"process\":6}}}", "{\"told\":{\"no\":[\"NoProcess\"]}}\n"},
    {"{\"ask\":{\"targets\":{\"key\":\"zoneid\",\"value\":\"z0\"}}}",
     "{\"told\":{\"targets\":[0]}}\n"},
    {"{\"ask\":{\"record\":{\"record\":0}}}",
     "{\"told\":{\"record\":{\"acked\":true,\"keeper\":2,\"synced\":[2],\"team\":0}}}\n"},
    {"{\"ask\":{\"record\":{\"record\":1}}}", "{\"told\":{\"no\":[\"NoRecord\"]}}\n"},
    {"{\"ask\":{\"needed\":{\"process\":0}}}", "{\"told\":{\"needed\":0}}\n"},
    {"{\"ask\":{\"sight\":{}}}",
     "{\"told\":{\"sight\":{\"deliverable\":null,\"now\":4,\"sleeping\":0,\"unsynced\":null}}}\n"},
};

static fy_guard after_the_story(void)
{
    char line[512];
    size_t told;
    fy_guard guard = open_guard(SIX);
    for (int at = 0; at < ENTRIES; at++)
        EQUAL(fy_guard_act(&guard, STORY[at], strlen(STORY[at]), line, sizeof line, &told),
              FY_DONE);
    return guard;
}

/* A buffer of exactly the length has room, and one byte less is too short. */
static void told(const fy_guard *guard, const char *line, const char *wanted)
{
    char buffer[1024];
    size_t length = strlen(wanted), found = 77;
    memset(buffer, 'x', sizeof buffer);
    EQUAL(fy_guard_ask(guard, line, strlen(line), buffer, length - 1, &found), FY_SHORT);
    EQUAL(found, length);
    EQUAL(buffer[0], 'x');
    EQUAL(fy_guard_ask(guard, line, strlen(line), buffer, length, &found), FY_DONE);
    TEXT(buffer, found, wanted);
    EQUAL(buffer[length], 'x');
}

static void refused(fy_guard *guard)
{
    char buffer[512];
    static char longest[65537];
    size_t told = 77;
    const char *act = STORY[0];
    const char *above = "{\"ask\":{\"judge\":{\"by\":1,\"act\":{\"kill\":{\"floor\":\"Reboot\","
                        "\"key\":\"zoneid\",\"kind\":\"RebootProcess\",\"tear\":0,"
                        "\"value\":\"z0\"}}}}}";
    memset(longest, ' ', sizeof longest);
    EQUAL(fy_guard_ask(guard, "", 0, buffer, sizeof buffer, &told), FY_LINE_SYNTAX);
    EQUAL(fy_guard_ask(guard, act, strlen(act), buffer, sizeof buffer, &told), FY_LINE_SYNTAX);
    EQUAL(fy_guard_ask(guard, above, strlen(above), buffer, sizeof buffer, &told), FY_FLOOR);
    EQUAL(fy_guard_ask(guard, longest, 65536, buffer, sizeof buffer, &told), FY_LINE_SYNTAX);
    EQUAL(fy_guard_ask(guard, longest, 65537, buffer, sizeof buffer, &told), FY_LINE_TOO_LONG);
    EQUAL(fy_guard_ask(NULL, "", 0, buffer, sizeof buffer, &told), FY_CLOSED);
    EQUAL(fy_guard_ask(guard, NULL, 0, buffer, sizeof buffer, &told), FY_CLOSED);
    EQUAL(fy_guard_ask(guard, "", 0, NULL, 0, &told), FY_CLOSED);
    EQUAL(fy_guard_ask(guard, "", 0, buffer, sizeof buffer, NULL), FY_CLOSED);
    EQUAL(told, 77);
}

int main(void)
{
    fy_guard guard = after_the_story();
    size_t count = 77;
    for (size_t at = 0; at < sizeof ASKED / sizeof *ASKED; at++)
        told(&guard, ASKED[at][0], ASKED[at][1]);
    refused(&guard);
    EQUAL(fy_guard_journal_len(&guard, &count), FY_DONE);
    EQUAL(count, ENTRIES);
    fy_guard_close(&guard);
    return ended("questions");
}
