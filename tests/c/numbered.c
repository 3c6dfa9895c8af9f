/* What each act by numbers does, tells and is refused for, by the words of docs/FORMATS.md. */
#include "faultyard.h"
#include "told.h"

enum { STORAGE = 0, FAULT = 1, GRANTLESS = 3, OPERATOR = 4, NO_ACTOR = 9 };

static fy_reply reply;

/* The reply has these fields, and 0 in each that isn't given. */
static void tells(int line, fy_reply wanted)
{
    checked++;
    if (memcmp(&reply, &wanted, sizeof reply) == 0)
        return;
    wrong++;
    fprintf(stderr,
            "line %d: refusal %u rule %u named %llu team %u record %u message %llu synced %llu"
            " now %llu marked %u acked %u\n",
            line, (unsigned)reply.refusal, (unsigned)reply.rule, (unsigned long long)reply.named,
            (unsigned)reply.team, (unsigned)reply.record, (unsigned long long)reply.message,
            (unsigned long long)reply.synced, (unsigned long long)reply.now, (unsigned)reply.marked,
            (unsigned)reply.acked);
}

#define ANSWERS(wanted_status, call, ...)         \
    do {                                          \
        memset(&reply, 0x55, sizeof reply);       \
        EQUAL(call, wanted_status);               \
        tells(__LINE__, (fy_reply){__VA_ARGS__}); \
    } while (0)

/* The act is done, and tells these fields; it is refused; or nothing changed, since the status says
 * so. */
#define DONE(call, ...) ANSWERS(FY_DONE, call, __VA_ARGS__)
#define REFUSED(why, call) ANSWERS(FY_REFUSED, call, .refusal = why)
#define REFUSED_BY(why, which, call) ANSWERS(FY_REFUSED, call, .refusal = why, .named = which)
#define FAILS(status, call) ANSWERS(status, call, 0)

static const uint32_t PAIR[] = {0, 2};

static void killed(fy_guard *guard, const char *process, fy_kind kind)
{
    EQUAL(fy_guard_kill(guard, FAULT, FY_PROCESS, process, kind, kind, 0, &struck, &rule, &named),
          FY_DONE);
    EQUAL(struck, kind);
}

/* The last entry of the journal has this act and this reply. */
static void entered(const fy_guard *guard, const char *act, const char *answer)
{
    char line[512], wanted[512];
    size_t count = 0, told = 0;
    EQUAL(fy_guard_journal_len(guard, &count), FY_DONE);
    EQUAL(fy_guard_audit(guard, count - 1, line, sizeof line, &told), FY_DONE);
    line[told] = 0;
    snprintf(wanted, sizeof wanted, "{\"act\":%s,\"at\":%u,\"by\":", act, (unsigned)count - 1);
    EQUAL(strncmp(line, wanted, strlen(wanted)), 0);
    snprintf(wanted, sizeof wanted, ",\"reply\":%s}\n", answer);
    EQUAL(told > strlen(wanted) && strcmp(line + told - strlen(wanted), wanted) == 0, 1);
}

/* A record of processes 0 and 2, from the form of its team until it is acknowledged. Each act
 * stands in the journal as its line would. */
static void stored(void)
{
    fy_guard guard = open_guard(SIX);
    DONE(fy_guard_form(&guard, STORAGE, PAIR, 2, 0, &reply), .team = 0);
    entered(&guard, "{\"form\":{\"members\":[0,2],\"policy\":0}}", "{\"formed\":0}");
    DONE(fy_guard_form(&guard, STORAGE, PAIR, 2, 0, &reply), .team = 1);
    DONE(fy_guard_begin(&guard, STORAGE, 1, "", 0, &reply), .record = 0, .message = 0);
    entered(&guard, "{\"begin\":{\"payload\":\"\",\"team\":1}}",
            "{\"begun\":{\"first\":0,\"record\":0}}");
    DONE(fy_guard_begin(&guard, STORAGE, 0, "hi", 2, &reply), .record = 1, .message = 2);
    entered(&guard, "{\"begin\":{\"payload\":\"6869\",\"team\":0}}",
            "{\"begun\":{\"first\":2,\"record\":1}}");
    DONE(fy_guard_lose(&guard, STORAGE, 3, &reply), 0);
    entered(&guard, "{\"lose\":{\"message\":3}}", "\"done\"");
    DONE(fy_guard_resend(&guard, STORAGE, 1, 2, &reply), .message = 4);
    entered(&guard, "{\"resend\":{\"process\":2,\"record\":1}}", "{\"sent\":4}");
    DONE(fy_guard_deliver(&guard, STORAGE, 2, &reply), 0);
    entered(&guard, "{\"deliver\":{\"message\":2}}", "\"stored\"");
    DONE(fy_guard_deliver(&guard, STORAGE, 4, &reply), 0);
    DONE(fy_guard_sync(&guard, STORAGE, 1, &reply), .synced = 0, .message = 5);
    entered(&guard, "{\"sync\":{\"process\":1}}", "{\"synced\":{\"count\":0,\"first\":5}}");
    DONE(fy_guard_deliver(&guard, STORAGE, 0, &reply), 0);
    DONE(fy_guard_sync(&guard, STORAGE, 0, &reply), .synced = 2, .message = 5);
    entered(&guard, "{\"sync\":{\"process\":0}}", "{\"synced\":{\"count\":2,\"first\":5}}");
    DONE(fy_guard_sync(&guard, STORAGE, 2, &reply), .synced = 1, .message = 7);
    DONE(fy_guard_tick(&guard, STORAGE, 9, &reply), .now = 9);
    entered(&guard, "{\"tick\":{\"ticks\":9}}", "{\"time\":9}");
    DONE(fy_guard_deliver(&guard, STORAGE, 5, &reply), .marked = 1);
    entered(&guard, "{\"deliver\":{\"message\":5}}", "{\"marked\":false}");
    DONE(fy_guard_deliver(&guard, STORAGE, 7, &reply), .marked = 1, .acked = 1);
    entered(&guard, "{\"deliver\":{\"message\":7}}", "{\"marked\":true}");
    REFUSED(FY_ACKED, fy_guard_resend(&guard, STORAGE, 1, 2, &reply));
    /* Record 1 goes to process 1, which then takes the place of process 0. */
    REFUSED_BY(FY_STILL_NEEDS, 1, fy_guard_replace(&guard, STORAGE, 0, 0, 1, &reply));
    entered(&guard, "{\"replace\":{\"into\":1,\"out\":0,\"team\":0}}",
            "{\"no\":[\"StillNeeds\",1]}");
    DONE(fy_guard_copy(&guard, STORAGE, 2, 1, 1, &reply), .message = 8);
    entered(&guard, "{\"copy\":{\"from\":2,\"record\":1,\"to\":1}}", "{\"sent\":8}");
    DONE(fy_guard_deliver(&guard, STORAGE, 8, &reply), 0);
    DONE(fy_guard_sync(&guard, STORAGE, 1, &reply), .synced = 1, .message = 9);
    DONE(fy_guard_replace(&guard, STORAGE, 0, 0, 1, &reply), 0);
    entered(&guard, "{\"replace\":{\"into\":1,\"out\":0,\"team\":0}}", "\"done\"");
    fy_guard_close(&guard);
}

static void state_is(const fy_guard *guard, uint32_t process, uint32_t wanted)
{
    uint32_t state = 77;
    EQUAL(fy_guard_state(guard, process, &state), FY_DONE);
    EQUAL(state, wanted);
}

/* Clogs hold for their ticks or until they end; a rule that bars one is no refusal. */
static void clogs(void)
{
    fy_guard guard = open_guard(SIX);
    DONE(fy_guard_clog(&guard, FAULT, FY_ZONE, "z1", 3, &reply), 0);
    entered(&guard, "{\"clog\":{\"key\":\"zoneid\",\"ticks\":3,\"value\":\"z1\"}}",
            "{\"ruled\":null}");
    state_is(&guard, 2, FY_STATE_UP | FY_STATE_CLOGGED);
    state_is(&guard, 4, FY_STATE_UP);
    DONE(fy_guard_form(&guard, STORAGE, PAIR, 2, 0, &reply), .team = 0);
    DONE(fy_guard_begin(&guard, STORAGE, 0, "a", 1, &reply), .record = 0, .message = 0);
    REFUSED(FY_CLOGGED, fy_guard_deliver(&guard, STORAGE, 1, &reply));
    DONE(fy_guard_unclog(&guard, FAULT, FY_PROCESS, "p2", &reply), 0);
    entered(&guard, "{\"unclog\":{\"key\":\"processid\",\"value\":\"p2\"}}", "{\"ruled\":null}");
    state_is(&guard, 2, FY_STATE_UP);
    state_is(&guard, 3, FY_STATE_UP | FY_STATE_CLOGGED);
    DONE(fy_guard_tick(&guard, STORAGE, 3, &reply), .now = 3);
    state_is(&guard, 3, FY_STATE_UP);
    DONE(fy_guard_clog(&guard, FAULT, FY_MACHINE, "m9", 3, &reply), .rule = FY_NO_TARGET);
    DONE(fy_guard_clog(&guard, GRANTLESS, FY_ZONE, "z2", 3, &reply), .rule = FY_NO_GRANT,
         .named = 4);
    DONE(fy_guard_unclog(&guard, GRANTLESS, FY_PROCESS, "p5", &reply), .rule = FY_NO_GRANT,
         .named = 5);
    DONE(fy_guard_protect(&guard, OPERATOR, 3, FY_KINDS_CLOG, &reply), 0);
    DONE(fy_guard_clog(&guard, FAULT, FY_ZONE, "z1", 3, &reply), .rule = FY_PROTECTED, .named = 3);
    entered(&guard, "{\"clog\":{\"key\":\"zoneid\",\"ticks\":3,\"value\":\"z1\"}}",
            "{\"ruled\":[\"Protected\",3]}");
    fy_guard_close(&guard);
}

/* Grants and protections of every set of kinds. */
static void rights(void)
{
    static const char *const WORDS[] = {"\"RebootProcess\"", "\"Reboot\"", "\"RebootAndDelete\"",
                                        "\"KillInstantly\"", "\"Clog\""};
    fy_guard guard = open_guard(SIX);
    char kinds[128], act[256];
    for (uint32_t bits = 0; bits <= FY_KINDS_ALL; bits++) {
        size_t length = 0;
        kinds[0] = 0;
        for (int kind = 0; kind < 5; kind++)
            if (bits >> kind & 1)
                length +=
                    (size_t)sprintf(kinds + length, "%s%s", length == 0 ? "" : ",", WORDS[kind]);
        DONE(fy_guard_give(&guard, OPERATOR, GRANTLESS, bits, FY_EVERYONE, NULL, &reply), 0);
        sprintf(act, "{\"give\":{\"actor\":3,\"kinds\":[%s],\"scope\":\"all\"}}", kinds);
        entered(&guard, act, "\"done\"");
        DONE(fy_guard_protect(&guard, OPERATOR, 5, bits, &reply), 0);
        sprintf(act, "{\"protect\":{\"kinds\":[%s],\"process\":5}}", kinds);
        entered(&guard, act, "\"done\"");
        DONE(fy_guard_unprotect(&guard, OPERATOR, 5, bits, &reply), 0);
        sprintf(act, "{\"unprotect\":{\"kinds\":[%s],\"process\":5}}", kinds);
        entered(&guard, act, "\"done\"");
        DONE(fy_guard_take(&guard, OPERATOR, GRANTLESS, 0, &reply), 0);
        entered(&guard, "{\"take\":{\"actor\":3,\"index\":0}}", "\"done\"");
    }
    /* A grant of a zone covers the zone alone, and the kinds that it has. */
    uint32_t grant = FY_KINDS_REBOOT | FY_KINDS_CLOG;
    DONE(fy_guard_give(&guard, OPERATOR, GRANTLESS, grant, FY_ZONE, "z1", &reply), 0);
    entered(&guard,
            "{\"give\":{\"actor\":3,\"kinds\":[\"Reboot\",\"Clog\"],\"scope\":{\"key\":\"zoneid\","
            "\"value\":\"z1\"}}}",
            "\"done\"");
    DONE(fy_guard_clog(&guard, GRANTLESS, FY_ZONE, "z1", 1, &reply), 0);
    DONE(fy_guard_clog(&guard, GRANTLESS, FY_ZONE, "z2", 1, &reply), .rule = FY_NO_GRANT,
         .named = 4);
    EQUAL(fy_guard_kill(&guard, GRANTLESS, FY_PROCESS, "p2", FY_REBOOT_AND_DELETE, FY_REBOOT, 0,
                        &struck, &rule, &named),
          FY_DONE);
    EQUAL(struck, FY_REBOOT);
    DONE(fy_guard_take(&guard, OPERATOR, GRANTLESS, 0, &reply), 0);
    DONE(fy_guard_clog(&guard, GRANTLESS, FY_ZONE, "z1", 1, &reply), .rule = FY_NO_GRANT,
         .named = 2);
    fy_guard_close(&guard);
}

/* Who acts: nobody with this number, or an actor of another role. */
static void actors(void)
{
    fy_guard guard = open_guard(SIX);
    for (int round = 0; round < 2; round++) {
        uint32_t by = round == 0 ? NO_ACTOR : FAULT, operator_by = round == 0 ? NO_ACTOR : STORAGE;
        fy_refusal why = round == 0 ? FY_STRANGER : FY_WRONG_ROLE;
        REFUSED(why, fy_guard_form(&guard, by, PAIR, 2, 0, &reply));
        REFUSED(why, fy_guard_begin(&guard, by, 0, "a", 1, &reply));
        REFUSED(why, fy_guard_deliver(&guard, by, 0, &reply));
        REFUSED(why, fy_guard_lose(&guard, by, 0, &reply));
        REFUSED(why, fy_guard_resend(&guard, by, 0, 0, &reply));
        REFUSED(why, fy_guard_sync(&guard, by, 0, &reply));
        REFUSED(why, fy_guard_tick(&guard, by, 1, &reply));
        REFUSED(why, fy_guard_copy(&guard, by, 0, 0, 1, &reply));
        REFUSED(why, fy_guard_replace(&guard, by, 0, 0, 1, &reply));
        REFUSED(why, fy_guard_give(&guard, operator_by, 0, 1, FY_EVERYONE, NULL, &reply));
        REFUSED(why, fy_guard_take(&guard, operator_by, 1, 0, &reply));
        REFUSED(why, fy_guard_protect(&guard, operator_by, 0, 1, &reply));
        REFUSED(why, fy_guard_unprotect(&guard, operator_by, 0, 1, &reply));
    }
    REFUSED(FY_STRANGER, fy_guard_clog(&guard, NO_ACTOR, FY_ZONE, "z0", 1, &reply));
    REFUSED(FY_STRANGER, fy_guard_unclog(&guard, NO_ACTOR, FY_ZONE, "z0", &reply));
    size_t count = 0;
    EQUAL(fy_guard_journal_len(&guard, &count), FY_DONE);
    EQUAL(count, 28);
    fy_guard_close(&guard);
}

/* Each other refusal that needs no thousand acts. */
static void refusals(void)
{
    fy_guard guard = open_guard(SIX);
    static const uint32_t ABSENT[] = {0, 6}, SHORT[] = {0, 1}, GONE[] = {0, 5},
                          GONE_AND_SHORT[] = {4, 5};
    static const uint8_t LONG[257] = {0};
    REFUSED(FY_NO_POLICY, fy_guard_form(&guard, STORAGE, PAIR, 2, 1, &reply));
    REFUSED(FY_NO_PROCESS, fy_guard_form(&guard, STORAGE, ABSENT, 2, 0, &reply));
    REFUSED_BY(FY_TEAM_SHORT, 0, fy_guard_form(&guard, STORAGE, SHORT, 2, 0, &reply));
    REFUSED_BY(FY_TEAM_SHORT, 0, fy_guard_form(&guard, STORAGE, SHORT, 0, 0, &reply));
    killed(&guard, "p5", FY_KILL_INSTANTLY);
    REFUSED(FY_GONE, fy_guard_form(&guard, STORAGE, GONE, 2, 0, &reply));
    REFUSED(FY_GONE, fy_guard_form(&guard, STORAGE, GONE_AND_SHORT, 2, 0, &reply));
    DONE(fy_guard_form(&guard, STORAGE, PAIR, 2, 0, &reply), .team = 0);
    REFUSED(FY_NO_TEAM, fy_guard_begin(&guard, STORAGE, 1, LONG, 257, &reply));
    REFUSED(FY_PAYLOAD, fy_guard_begin(&guard, STORAGE, 0, LONG, 257, &reply));
    DONE(fy_guard_begin(&guard, STORAGE, 0, LONG, 256, &reply), .record = 0, .message = 0);
    REFUSED(FY_NO_MESSAGE, fy_guard_deliver(&guard, STORAGE, 2, &reply));
    REFUSED(FY_NO_MESSAGE, fy_guard_deliver(&guard, STORAGE, UINT64_MAX, &reply));
    REFUSED(FY_NO_MESSAGE, fy_guard_lose(&guard, STORAGE, 2, &reply));
    REFUSED(FY_NO_RECORD, fy_guard_resend(&guard, STORAGE, 1, 1, &reply));
    REFUSED(FY_NOT_MEMBER, fy_guard_resend(&guard, STORAGE, 0, 1, &reply));
    REFUSED(FY_NO_PROCESS, fy_guard_sync(&guard, STORAGE, 6, &reply));
    killed(&guard, "p2", FY_REBOOT_PROCESS);
    REFUSED(FY_NOT_UP, fy_guard_deliver(&guard, STORAGE, 1, &reply));
    REFUSED(FY_NOT_UP, fy_guard_sync(&guard, STORAGE, 2, &reply));
    REFUSED(FY_NO_RECORD, fy_guard_copy(&guard, STORAGE, 6, 1, 6, &reply));
    REFUSED(FY_NO_PROCESS, fy_guard_copy(&guard, STORAGE, 6, 0, 1, &reply));
    REFUSED(FY_NO_PROCESS, fy_guard_copy(&guard, STORAGE, 0, 0, 6, &reply));
    REFUSED(FY_GONE, fy_guard_copy(&guard, STORAGE, 2, 0, 5, &reply));
    REFUSED(FY_NOT_UP, fy_guard_copy(&guard, STORAGE, 2, 0, 1, &reply));
    REFUSED(FY_NO_COPY, fy_guard_copy(&guard, STORAGE, 0, 0, 1, &reply));
    REFUSED(FY_NO_TEAM, fy_guard_replace(&guard, STORAGE, 1, 0, 6, &reply));
    REFUSED(FY_NO_PROCESS, fy_guard_replace(&guard, STORAGE, 0, 1, 6, &reply));
    REFUSED(FY_NOT_MEMBER, fy_guard_replace(&guard, STORAGE, 0, 1, 2, &reply));
    REFUSED(FY_IS_MEMBER, fy_guard_replace(&guard, STORAGE, 0, 0, 2, &reply));
    REFUSED(FY_GONE, fy_guard_replace(&guard, STORAGE, 0, 0, 5, &reply));
    REFUSED_BY(FY_TEAM_SHORT, 0, fy_guard_replace(&guard, STORAGE, 0, 0, 3, &reply));
    REFUSED(FY_NO_ACTOR, fy_guard_give(&guard, OPERATOR, 5, 1, FY_EVERYONE, NULL, &reply));
    REFUSED(FY_NO_ACTOR, fy_guard_take(&guard, OPERATOR, 5, 0, &reply));
    REFUSED(FY_NO_SUCH, fy_guard_take(&guard, OPERATOR, FAULT, 1, &reply));
    REFUSED(FY_NO_PROCESS, fy_guard_protect(&guard, OPERATOR, 6, 1, &reply));
    REFUSED(FY_NO_PROCESS, fy_guard_unprotect(&guard, OPERATOR, 6, 1, &reply));
    uint64_t end = (uint64_t)1 << 40;
    REFUSED(FY_CLOCK_END, fy_guard_tick(&guard, STORAGE, end + 1, &reply));
    REFUSED(FY_CLOCK_END, fy_guard_tick(&guard, STORAGE, UINT64_MAX, &reply));
    DONE(fy_guard_tick(&guard, STORAGE, end, &reply), .now = end);
    REFUSED(FY_CLOCK_END, fy_guard_tick(&guard, STORAGE, 1, &reply));
    fy_guard_close(&guard);
}

/* A policy that one process satisfies, so that a team has one member and a record one message. */
static const char *const ALONE =
    "journal_limit = 100000\n"
    "policies = [\"One()\"]\n"
    "process = [{processid = \"p0\", machineid = \"m0\", zoneid = \"z0\"},\n"
    "  {processid = \"p1\", machineid = \"m1\", zoneid = \"z1\"},\n"
    "  {processid = \"p2\", machineid = \"m2\", zoneid = \"z2\"}]\n"
    "actor = [{role = \"storage\"}, {role = \"operator\"}]\n";

/* As many teams, grants, messages and records as there may be. */
static void limits(void)
{
    enum { TEAMS = 4096, GRANTS = 4096, MESSAGES = 65536, RECORDS = 65536 };
    fy_guard guard = open_guard(ALONE);
    static const uint32_t ONE[] = {0, 1};
    DONE(fy_guard_form(&guard, STORAGE, ONE, 1, 0, &reply), .team = 0);
    for (uint32_t team = 1; team < TEAMS; team++)
        DONE(fy_guard_form(&guard, STORAGE, ONE, 2, 0, &reply), .team = team);
    REFUSED(FY_TOO_MANY, fy_guard_form(&guard, STORAGE, ONE, 2, 1, &reply));
    for (int grant = 0; grant < GRANTS; grant++)
        DONE(fy_guard_give(&guard, 1, 0, FY_KINDS_ALL, FY_PROCESS, "p0", &reply), 0);
    REFUSED(FY_FULL, fy_guard_give(&guard, 1, 0, FY_KINDS_ALL, FY_PROCESS, "p0", &reply));
    /* Process 0 has record 0 synced and record 1 not. Messages 1, 2 and 4 are in flight, and then
     * as many as there may be. */
    DONE(fy_guard_begin(&guard, STORAGE, 1, "a", 1, &reply), .record = 0, .message = 0);
    DONE(fy_guard_deliver(&guard, STORAGE, 0, &reply), 0);
    DONE(fy_guard_sync(&guard, STORAGE, 0, &reply), .synced = 1, .message = 2);
    DONE(fy_guard_begin(&guard, STORAGE, 1, "b", 1, &reply), .record = 1, .message = 3);
    DONE(fy_guard_deliver(&guard, STORAGE, 3, &reply), 0);
    uint64_t message = 5;
    for (uint32_t record = 2; record < RECORDS - 1; record++)
        DONE(fy_guard_begin(&guard, STORAGE, 0, "c", 1, &reply), .record = record,
             .message = message++);
    EQUAL(message, 2 + MESSAGES);
    REFUSED(FY_NET_FULL, fy_guard_begin(&guard, STORAGE, 0, "d", 1, &reply));
    REFUSED(FY_NET_FULL, fy_guard_resend(&guard, STORAGE, 0, 1, &reply));
    REFUSED(FY_NET_FULL, fy_guard_copy(&guard, STORAGE, 0, 0, 2, &reply));
    REFUSED(FY_NET_FULL, fy_guard_sync(&guard, STORAGE, 0, &reply));
    DONE(fy_guard_sync(&guard, STORAGE, 1, &reply), .synced = 0, .message = message);
    DONE(fy_guard_lose(&guard, STORAGE, 1, &reply), 0);
    DONE(fy_guard_begin(&guard, STORAGE, 0, "e", 1, &reply), .record = RECORDS - 1,
         .message = message);
    REFUSED(FY_TOO_MANY, fy_guard_begin(&guard, STORAGE, 0, "f", 1, &reply));
    fy_guard_close(&guard);
}

/* Arguments that are none, each before what is behind it in the order of statuses. Nothing
 * changes. */
static void arguments(fy_guard *guard)
{
    static uint32_t members[FY_MOST_MEMBERS + 1];
    static uint8_t payload[FY_MOST_PAYLOAD + 1];
    static const uint32_t EQUALS[] = {3, 3}, FALLS[] = {0, 2, 1}, LAST[] = {UINT32_MAX, 0};
    for (uint32_t i = 0; i <= FY_MOST_MEMBERS; i++)
        members[i] = i;
    size_t before = 0, after = 1;
    EQUAL(fy_guard_journal_len(guard, &before), FY_DONE);
    FAILS(FY_ARGUMENT, fy_guard_clog(guard, FAULT, (fy_key)0, "", 1, &reply));
    FAILS(FY_ARGUMENT, fy_guard_clog(guard, FAULT, (fy_key)6, "", 1, &reply));
    FAILS(FY_NAME, fy_guard_clog(guard, FAULT, FY_ZONE, "", 1, &reply));
    FAILS(FY_ARGUMENT, fy_guard_unclog(guard, FAULT, (fy_key)0, "", &reply));
    FAILS(FY_NAME, fy_guard_unclog(guard, FAULT, FY_ZONE, "-", &reply));
    FAILS(FY_ARGUMENT, fy_guard_form(guard, STORAGE, EQUALS, 2, 0, &reply));
    FAILS(FY_ARGUMENT, fy_guard_form(guard, STORAGE, FALLS, 3, 0, &reply));
    FAILS(FY_ARGUMENT, fy_guard_form(guard, STORAGE, LAST, 2, 0, &reply));
    FAILS(FY_ARGUMENT, fy_guard_form(guard, STORAGE, members, FY_MOST_MEMBERS + 1, 0, &reply));
    FAILS(FY_ARGUMENT, fy_guard_begin(guard, STORAGE, 0, payload, FY_MOST_PAYLOAD + 1, &reply));
    FAILS(FY_ARGUMENT, fy_guard_give(guard, OPERATOR, 0, 32, FY_ZONE, "", &reply));
    FAILS(FY_ARGUMENT, fy_guard_give(guard, OPERATOR, 0, UINT32_MAX, FY_EVERYONE, NULL, &reply));
    FAILS(FY_ARGUMENT, fy_guard_give(guard, OPERATOR, 0, 1, (fy_key)6, "", &reply));
    FAILS(FY_NAME, fy_guard_give(guard, OPERATOR, 0, 1, FY_ZONE, "z 0", &reply));
    FAILS(FY_ARGUMENT, fy_guard_protect(guard, OPERATOR, 0, 32, &reply));
    FAILS(FY_ARGUMENT, fy_guard_unprotect(guard, OPERATOR, 0, 1u << 31, &reply));
    EQUAL(fy_guard_journal_len(guard, &after), FY_DONE);
    EQUAL(after, before);
}

/* The longest members and payload, whose entries a line of an audit has room for. */
static void longest(void)
{
    fy_guard guard = open_guard(SIX);
    static uint32_t members[FY_MOST_MEMBERS];
    static uint8_t payload[FY_MOST_PAYLOAD];
    static char line[65537];
    size_t told = 0;
    arguments(&guard);
    for (uint32_t i = 0; i < FY_MOST_MEMBERS; i++)
        members[i] = UINT32_MAX - FY_MOST_MEMBERS + i + 1;
    REFUSED(FY_NO_PROCESS, fy_guard_form(&guard, STORAGE, members, FY_MOST_MEMBERS, 0, &reply));
    EQUAL(fy_guard_audit(&guard, 0, line, sizeof line, &told), FY_DONE);
    DONE(fy_guard_form(&guard, STORAGE, PAIR, 2, 0, &reply), .team = 0);
    REFUSED(FY_PAYLOAD, fy_guard_begin(&guard, STORAGE, 0, payload, FY_MOST_PAYLOAD, &reply));
    EQUAL(fy_guard_audit(&guard, 2, line, sizeof line, &told), FY_DONE);
    fy_guard_close(&guard);
}

/* Every act by numbers, that nothing comes of but a status. */
static void each_is(fy_guard *guard, fy_status status)
{
    FAILS(status, fy_guard_clog(guard, FAULT, FY_ZONE, "z0", 1, &reply));
    FAILS(status, fy_guard_unclog(guard, FAULT, FY_ZONE, "z0", &reply));
    FAILS(status, fy_guard_form(guard, STORAGE, PAIR, 2, 0, &reply));
    FAILS(status, fy_guard_begin(guard, STORAGE, 0, "a", 1, &reply));
    FAILS(status, fy_guard_deliver(guard, STORAGE, 0, &reply));
    FAILS(status, fy_guard_lose(guard, STORAGE, 0, &reply));
    FAILS(status, fy_guard_resend(guard, STORAGE, 0, 0, &reply));
    FAILS(status, fy_guard_sync(guard, STORAGE, 0, &reply));
    FAILS(status, fy_guard_tick(guard, STORAGE, 1, &reply));
    FAILS(status, fy_guard_give(guard, OPERATOR, 1, 1, FY_ZONE, "z0", &reply));
    FAILS(status, fy_guard_take(guard, OPERATOR, 1, 0, &reply));
    FAILS(status, fy_guard_protect(guard, OPERATOR, 0, 1, &reply));
    FAILS(status, fy_guard_unprotect(guard, OPERATOR, 0, 1, &reply));
    FAILS(status, fy_guard_copy(guard, STORAGE, 0, 0, 1, &reply));
    FAILS(status, fy_guard_replace(guard, STORAGE, 0, 0, 1, &reply));
}

/* A full journal takes no act, and is named behind what is wrong with the arguments. */
static void full(void)
{
    fy_guard guard = open_guard(TWO_PLACES);
    DONE(fy_guard_tick(&guard, STORAGE, 1, &reply), .now = 1);
    DONE(fy_guard_tick(&guard, STORAGE, 1, &reply), .now = 2);
    each_is(&guard, FY_JOURNAL_FULL);
    arguments(&guard);
    fy_guard_close(&guard);
}

/* The inline calls answer for a closed guard and for a null pointer, and write nothing. */
static void closed(void)
{
    fy_guard guard = {0};
    fy_reply untouched;
    memset(&untouched, 0x55, sizeof untouched);
#define CLOSED(call)                                        \
    do {                                                    \
        memset(&reply, 0x55, sizeof reply);                 \
        EQUAL(call, FY_CLOSED);                             \
        EQUAL(memcmp(&reply, &untouched, sizeof reply), 0); \
    } while (0)
    fy_guard open = open_guard(SIX);
    for (int round = 0; round < 3; round++) {
        fy_guard *none = round == 0 ? &guard : round == 1 ? NULL : &open;
        fy_reply *to = round == 2 ? NULL : &reply;
        CLOSED(fy_guard_clog(none, FAULT, FY_ZONE, "z0", 1, to));
        CLOSED(fy_guard_unclog(none, FAULT, FY_ZONE, "z0", to));
        CLOSED(fy_guard_form(none, STORAGE, PAIR, 2, 0, to));
        CLOSED(fy_guard_begin(none, STORAGE, 0, "a", 1, to));
        CLOSED(fy_guard_deliver(none, STORAGE, 0, to));
        CLOSED(fy_guard_lose(none, STORAGE, 0, to));
        CLOSED(fy_guard_resend(none, STORAGE, 0, 0, to));
        CLOSED(fy_guard_sync(none, STORAGE, 0, to));
        CLOSED(fy_guard_tick(none, STORAGE, 1, to));
        CLOSED(fy_guard_give(none, OPERATOR, 1, 1, FY_ZONE, "z0", to));
        CLOSED(fy_guard_give(none, OPERATOR, 1, 1, FY_EVERYONE, NULL, to));
        CLOSED(fy_guard_take(none, OPERATOR, 1, 0, to));
        CLOSED(fy_guard_protect(none, OPERATOR, 0, 1, to));
        CLOSED(fy_guard_unprotect(none, OPERATOR, 0, 1, to));
        CLOSED(fy_guard_copy(none, STORAGE, 0, 0, 1, to));
        CLOSED(fy_guard_replace(none, STORAGE, 0, 0, 1, to));
    }
    CLOSED(fy_guard_clog(&open, FAULT, FY_ZONE, NULL, 1, &reply));
    CLOSED(fy_guard_unclog(&open, FAULT, FY_ZONE, NULL, &reply));
    CLOSED(fy_guard_form(&open, STORAGE, NULL, 0, 0, &reply));
    CLOSED(fy_guard_begin(&open, STORAGE, 0, NULL, 0, &reply));
    CLOSED(fy_guard_give(&open, OPERATOR, 1, 1, FY_ZONE, NULL, &reply));
    fy_guard_close(&open);
}

int main(void)
{
    EQUAL(sizeof(fy_reply), 56);
    stored();
    clogs();
    rights();
    actors();
    refusals();
    limits();
    longest();
    full();
    closed();
    return ended("numbered");
}
