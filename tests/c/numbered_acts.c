/* Random acts of every kind, each made by its call by numbers: their lines go to the file of the
 * first word, and the journal to that of the second. What each call tells is the reply of its
 * entry. */
#include "faultyard.h"
#include "told.h"

enum { ACTS = 10000, LINE = 1024 };

static uint64_t state = 20261126;

static uint32_t below(uint32_t most)
{
    state = state * 6364136223846793005u + 1442695040888963407u;
    return (uint32_t)(state >> 33) % most;
}

static const char *const KEYS[] = {"processid", "machineid", "zoneid", "data_hall", "dcid"};
static const char *const KINDS[] = {"RebootProcess", "Reboot", "RebootAndDelete", "KillInstantly",
                                    "Clog"};
static const char *const RULES[] = {"",          "NoTarget",         "NoGrant",
                                    "Protected", "TooManyDestroyed", "TooFewLeft"};
static const char *const REFUSALS[] = {
    "",          "Stranger",  "WrongRole", "TooMany",      "NoPolicy",   "NoProcess", "Gone",
    "TeamShort", "NoTeam",    "Payload",   "NetFull",      "NoMessage",  "Clogged",   "NotUp",
    "NoRecord",  "NotMember", "Acked",     "IsUp",         "ClockEnd",   "NoActor",   "Full",
    "NoSuch",    "NoCopy",    "IsMember",  "NotDestroyed", "StillNeeds",
};
static const char LETTERS[] = "pmzhd";

static fy_guard guard;
static fy_reply reply;
static char act[LINE], told[LINE];

/* How often a reply of each shape was met, and each refusal. */
enum {
    VERDICT,
    RULED,
    BARRED,
    FORMED,
    BEGUN,
    STORED,
    MARKED,
    ACKED,
    SENT,
    SYNCED,
    TIME,
    DONE,
    SHAPES
};
static unsigned met[SHAPES], refused[FY_STILL_NEEDS + 1];

/* The reply as an audit has it, where the act is done. */
static void tell(int shape, fy_status status, const char *format, unsigned long long first,
                 unsigned long long second)
{
    if (status == FY_REFUSED &&
        (reply.refusal == FY_TEAM_SHORT || reply.refusal == FY_STILL_NEEDS)) {
        sprintf(told, "{\"no\":[\"%s\",%llu]}", REFUSALS[reply.refusal],
                (unsigned long long)reply.named);
    } else if (status == FY_REFUSED) {
        sprintf(told, "{\"no\":[\"%s\"]}", REFUSALS[reply.refusal]);
    } else {
        EQUAL(status, FY_DONE);
        sprintf(told, format, first, second);
        met[shape]++;
    }
    refused[reply.refusal] += status == FY_REFUSED;
}

static void rule_text(char *text, uint32_t number, uint64_t which)
{
    if (number == FY_NO_RULE)
        strcpy(text, "null");
    else if (number == FY_NO_TARGET)
        strcpy(text, "[\"NoTarget\"]");
    else
        sprintf(text, "[\"%s\",%llu]", RULES[number], (unsigned long long)which);
}

static void rule_told(fy_status status)
{
    char text[64], format[LINE];
    rule_text(text, reply.rule, reply.named);
    sprintf(format, "{\"ruled\":%s}", text);
    tell(reply.rule == FY_NO_RULE ? RULED : BARRED, status, format, 0, 0);
}

static void verdict_told(fy_status status)
{
    char text[64], format[LINE], word[32] = "null";
    if (struck != FY_NONE)
        sprintf(word, "\"%s\"", KINDS[struck - 1]);
    rule_text(text, rule, named);
    sprintf(format, "{\"verdict\":{\"rule\":%s,\"struck\":%s}}", text, word);
    /* No other refusal of a kill is there. */
    memset(&reply, 0, sizeof reply);
    reply.refusal = status == FY_REFUSED ? FY_STRANGER : FY_NOT_REFUSED;
    tell(VERDICT, status, format, 0, 0);
}

/* A kill, a clog or the end of one. */
static void strike(uint32_t by, uint32_t which)
{
    uint32_t key = below(5), kind = below(9) == 0 ? 3 : below(3), floor = below(kind + 1),
             ticks = below(9);
    char value[16];
    sprintf(value, "%c%u", LETTERS[key], (unsigned)below(7));
    if (which == 0) {
        sprintf(act,
                "{\"kill\":{\"floor\":\"%s\",\"key\":\"%s\",\"kind\":\"%s\",\"tear\":5,"
                "\"value\":\"%s\"}}",
                KINDS[floor], KEYS[key], KINDS[kind], value);
        verdict_told(fy_guard_kill(&guard, by, (fy_key)(key + 1), value, (fy_kind)(kind + 1),
                                   (fy_kind)(floor + 1), 5, &struck, &rule, &named));
    } else if (which == 1) {
        sprintf(act, "{\"clog\":{\"key\":\"%s\",\"ticks\":%u,\"value\":\"%s\"}}", KEYS[key],
                (unsigned)ticks, value);
        rule_told(fy_guard_clog(&guard, by, (fy_key)(key + 1), value, ticks, &reply));
    } else {
        sprintf(act, "{\"unclog\":{\"key\":\"%s\",\"value\":\"%s\"}}", KEYS[key], value);
        rule_told(fy_guard_unclog(&guard, by, (fy_key)(key + 1), value, &reply));
    }
}

/* A team of up to six processes, of which the last may not be there. */
static void form(uint32_t by)
{
    uint32_t members[7], count = 0, policy = below(20) == 0, length;
    for (uint32_t process = 0; process < 7; process++)
        if (below(process == 6 ? 20 : 3) == 0)
            members[count++] = process;
    length = (uint32_t)sprintf(act, "{\"form\":{\"members\":[");
    for (uint32_t i = 0; i < count; i++)
        length += (uint32_t)sprintf(act + length, "%s%u", i == 0 ? "" : ",", (unsigned)members[i]);
    sprintf(act + length, "],\"policy\":%u}}", (unsigned)policy);
    fy_status status = fy_guard_form(&guard, by, members, count, policy, &reply);
    tell(FORMED, status, "{\"formed\":%llu}", reply.team, 0);
}

static void begin(uint32_t by)
{
    uint8_t payload[300];
    uint32_t team = below(9), count = below(30) == 0 ? 257 + below(40) : below(4), length;
    length = (uint32_t)sprintf(act, "{\"begin\":{\"payload\":\"");
    for (uint32_t i = 0; i < count; i++) {
        payload[i] = (uint8_t)below(256);
        length += (uint32_t)sprintf(act + length, "%02x", payload[i]);
    }
    sprintf(act + length, "\",\"team\":%u}}", (unsigned)team);
    fy_status status = fy_guard_begin(&guard, by, team, payload, count, &reply);
    tell(BEGUN, status, "{\"begun\":{\"first\":%llu,\"record\":%llu}}", reply.message,
         reply.record);
}

/* The least message that can be delivered, or any. */
static void deliver(uint32_t by)
{
    fy_seen seen;
    EQUAL(fy_guard_sight(&guard, &seen), FY_DONE);
    uint64_t message =
        seen.deliverable == FY_NOTHING || below(4) == 0 ? below(3000) : seen.deliverable;
    sprintf(act, "{\"deliver\":{\"message\":%llu}}", (unsigned long long)message);
    fy_status status = fy_guard_deliver(&guard, by, message, &reply);
    if (status == FY_DONE && !reply.marked)
        tell(STORED, status, "\"stored\"", 0, 0);
    else
        tell(reply.acked ? ACKED : MARKED, status,
             reply.acked ? "{\"marked\":true}" : "{\"marked\":false}", 0, 0);
}

/* An act of a storage actor on a record, a message, a process or the clock. */
static void store(uint32_t by, uint32_t which)
{
    uint32_t record = below(40), process = below(7), other = below(7), team = below(9),
             number = below(3000);
    fy_status status;
    switch (which) {
    case 0:
        sprintf(act, "{\"lose\":{\"message\":%u}}", (unsigned)number);
        tell(DONE, fy_guard_lose(&guard, by, number, &reply), "\"done\"", 0, 0);
        break;
    case 1:
        sprintf(act, "{\"resend\":{\"process\":%u,\"record\":%u}}", (unsigned)process,
                (unsigned)record);
        status = fy_guard_resend(&guard, by, record, process, &reply);
        tell(SENT, status, "{\"sent\":%llu}", reply.message, 0);
        break;
    case 2:
        sprintf(act, "{\"sync\":{\"process\":%u}}", (unsigned)process);
        status = fy_guard_sync(&guard, by, process, &reply);
        tell(SYNCED, status, "{\"synced\":{\"count\":%llu,\"first\":%llu}}", reply.synced,
             reply.message);
        break;
    case 3:
        sprintf(act, "{\"tick\":{\"ticks\":%u}}", (unsigned)number % 5);
        status = fy_guard_tick(&guard, by, number % 5, &reply);
        tell(TIME, status, "{\"time\":%llu}", reply.now, 0);
        break;
    case 4:
        sprintf(act, "{\"copy\":{\"from\":%u,\"record\":%u,\"to\":%u}}", (unsigned)process,
                (unsigned)record, (unsigned)other);
        status = fy_guard_copy(&guard, by, process, record, other, &reply);
        tell(SENT, status, "{\"sent\":%llu}", reply.message, 0);
        break;
    default:
        sprintf(act, "{\"replace\":{\"into\":%u,\"out\":%u,\"team\":%u}}", (unsigned)other,
                (unsigned)process, (unsigned)team);
        tell(DONE, fy_guard_replace(&guard, by, team, process, other, &reply), "\"done\"", 0, 0);
    }
}

/* A process that is said to run again, or to have its records again. */
static void report(uint32_t by, uint32_t which)
{
    uint32_t process = below(7), needed = 0;
    memset(&reply, 0, sizeof reply);
    if (which == 0) {
        sprintf(act, "{\"up\":{\"process\":%u}}", (unsigned)process);
        tell(DONE, fy_guard_up(&guard, by, process, &reply.refusal), "\"done\"", 0, 0);
    } else {
        EQUAL(fy_guard_needed(&guard, process, &needed), FY_DONE);
        sprintf(act, "{\"heal\":{\"process\":%u}}", (unsigned)process);
        fy_status status = fy_guard_heal(&guard, by, process, &reply.refusal);
        reply.named = needed;
        tell(DONE, status, "\"done\"", 0, 0);
    }
}

/* A grant given or taken, a protection or its end. */
static void grant(uint32_t by, uint32_t which)
{
    uint32_t bits = below(32), actor = below(6), process = below(7), key = below(6), length = 0;
    char kinds[128] = "", scope[64] = "\"all\"", value[16] = "";
    for (int kind = 0; kind < 5; kind++)
        if (bits >> kind & 1)
            length +=
                (uint32_t)sprintf(kinds + length, "%s\"%s\"", length == 0 ? "" : ",", KINDS[kind]);
    if (key > 0) {
        sprintf(value, "%c%u", LETTERS[key - 1], (unsigned)below(7));
        sprintf(scope, "{\"key\":\"%s\",\"value\":\"%s\"}", KEYS[key - 1], value);
    }
    fy_status status;
    switch (which) {
    case 0:
        sprintf(act, "{\"give\":{\"actor\":%u,\"kinds\":[%s],\"scope\":%s}}", (unsigned)actor,
                kinds, scope);
        status =
            fy_guard_give(&guard, by, actor, bits, (fy_key)key, key == 0 ? NULL : value, &reply);
        break;
    case 1:
        sprintf(act, "{\"take\":{\"actor\":%u,\"index\":%u}}", (unsigned)actor, (unsigned)process);
        status = fy_guard_take(&guard, by, actor, process, &reply);
        break;
    case 2:
        sprintf(act, "{\"protect\":{\"kinds\":[%s],\"process\":%u}}", kinds, (unsigned)process);
        status = fy_guard_protect(&guard, by, process, bits, &reply);
        break;
    default:
        sprintf(act, "{\"unprotect\":{\"kinds\":[%s],\"process\":%u}}", kinds, (unsigned)process);
        status = fy_guard_unprotect(&guard, by, process, bits, &reply);
    }
    tell(DONE, status, "\"done\"", 0, 0);
}

/* Makes a random act by the actor whose role may, or now and then by any. */
static uint32_t make(void)
{
    static const uint32_t OFTEN[] = {2, 2, 2, 0, 1, 3, 4, 5};
    uint32_t draw = below(40), any = below(6), is_any = below(10) == 0;
    uint32_t by = is_any ? any : draw < 5 ? 1 + below(3) : draw < 34 ? 0 : 4;
    memset(&reply, 0x55, sizeof reply);
    if (draw < 5)
        strike(by, draw < 3 ? 0 : draw - 2);
    else if (draw < 7)
        form(by);
    else if (draw < 10)
        begin(by);
    else if (draw < 20)
        deliver(by);
    else if (draw < 28)
        store(by, OFTEN[draw - 20]);
    else if (draw < 34)
        report(by, draw < 32 ? 0 : 1);
    else
        grant(by, draw < 38 ? draw - 34 : 3);
    return by;
}

int main(int count, char **words)
{
    if (count != 3)
        return 2;
    FILE *script = fopen(words[1], "w"), *audit = fopen(words[2], "w");
    if (script == NULL || audit == NULL)
        return 2;
    guard = open_guard(SIX_WITH("10000"));
    fputs(FY_AUDIT_HEADER, audit);
    char line[2 * LINE], wanted[3 * LINE];
    for (unsigned at = 0; at < ACTS; at++) {
        unsigned by = make();
        size_t length = 0;
        fprintf(script, "{\"by\":%u,\"act\":%s}\n", by, act);
        EQUAL(fy_guard_audit(&guard, at, line, sizeof line, &length), FY_DONE);
        sprintf(wanted, "{\"act\":%s,\"at\":%u,\"by\":%u,\"reply\":%s}\n", act, at, by, told);
        TEXT(line, length, wanted);
        fwrite(line, 1, length, audit);
    }
    fy_guard_close(&guard);
    EQUAL(fclose(script), 0);
    EQUAL(fclose(audit), 0);
    /* Whatever a reply may be was met, but for limits that need more acts. */
    for (int shape = 0; shape < SHAPES; shape++)
        EQUAL(met[shape] > 0, 1);
    for (int why = FY_STRANGER; why <= FY_STILL_NEEDS; why++)
        if (why != FY_TOO_MANY && why != FY_NET_FULL && why != FY_CLOCK_END && why != FY_FULL)
            EQUAL(refused[why] > 0 ? why : 0, why);
    return ended("numbered_acts");
}
