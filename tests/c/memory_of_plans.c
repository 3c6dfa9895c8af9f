/* Each request for memory of the calls of plans and checks refused in turn: the call answers
 * FY_NO_MEMORY, and nothing is written or read; or it gets on without, as a reader whose scan of a
 * line had no memory, and does what it says. */
#include "faultyard.h"
#include "refuse.h"
#include "told.h"

enum { ROOM = 20, WORDS = 50, WORDS_CALL = 0, SWIZZLE, ATTRITION, ORDERS, PLANS };

static fy_status plan(int which, const fy_guard *guard, uint32_t *words, fy_order *orders,
                      size_t *told)
{
    switch (which) {
    case WORDS_CALL:
        *told = WORDS;
        return fy_guard_words(9, 1, words, WORDS);
    case SWIZZLE:
        return fy_guard_swizzle_plan(guard, 9, 1, 10, orders, ROOM, told);
    case ATTRITION:
        return fy_guard_attrition_plan(guard, 9, 1, 4, 1, FY_KILL_INSTANTLY, FY_REBOOT, 0, orders,
                                       ROOM, told);
    default:
        *told = ROOM;
        return fy_guard_plan_orders(guard, FY_PLAN_SWIZZLE, 9, 1, orders, ROOM);
    }
}

static void plans(void)
{
    fy_guard guard = open_guard(SIX);
    long held = live, refused = 0;
    for (int which = 0; which < PLANS; which++) {
        for (long request = 0;; request++) {
            uint32_t words[WORDS], no_words[WORDS];
            fy_order orders[ROOM], no_orders[ROOM];
            size_t told = 77;
            memset(words, 0x55, sizeof words);
            memset(no_words, 0x55, sizeof no_words);
            memset(orders, 0x55, sizeof orders);
            memset(no_orders, 0x55, sizeof no_orders);
            answered = request;
            fy_status status = plan(which, &guard, words, orders, &told);
            int met = answered < 0;
            answered = -1;
            refused += met;
            EQUAL(live, held);
            EQUAL(status, met ? FY_NO_MEMORY : FY_DONE);
            if (met) {
                EQUAL(told, which == WORDS_CALL ? WORDS : which == ORDERS ? ROOM : 0);
                EQUAL(memcmp(words, no_words, sizeof words), 0);
                EQUAL(memcmp(orders, no_orders, sizeof orders), 0);
            } else {
                EQUAL(told > 0, 1);
                EQUAL(memcmp(words, no_words, sizeof words) != 0, which == WORDS_CALL);
                break;
            }
        }
    }
    EQUAL(refused > 10, 1);
    printf("plans: %ld requests refused\n", refused);
    fy_guard_close(&guard);
}

static const char *const LINES[] = {
    FY_AUDIT_HEADER,
    "{\"act\":{\"form\":{\"members\":[0,2],\"policy\":0}},\"at\":0,\"by\":0,"
    "\"reply\":{\"formed\":0}}\n",
    "{\"act\":{\"begin\":{\"payload\":\"6869\",\"team\":0}},\"at\":1,\"by\":0,"
    "\"reply\":{\"begun\":{\"first\":0,\"record\":0}}}\n",
    "{\"act\":{\"deliver\":{\"message\":0}},\"at\":2,\"by\":0,\"reply\":\"stored\"}\n",
    "{\"act\":{\"sync\":{\"process\":0}},\"at\":3,\"by\":0,"
    "\"reply\":{\"synced\":{\"count\":1,\"first\":2}}}\n",
    "{\"act\":{\"sync\":{\"process\":0}},\"at\":4,\"by\":0,"
    "\"reply\":{\"synced\":{\"count\":1,\"first\":2}}}\n",
};

enum { LINE_COUNT = sizeof LINES / sizeof *LINES };

/* The lines of an audit whose last entry is bad, up to one for which a request is refused; then
 * that line and the rest. */
static void checks(void)
{
    long held = live, refused = 0, unread = 0;
    for (int line = -1; line < LINE_COUNT; line++) {
        for (long request = 0;; request++) {
            fy_check check;
            uint32_t bad = FY_NO_BAD_ENTRY, count = 0;
            answered = line < 0 ? request : -1;
            fy_status status = fy_check_begin(SIX, strlen(SIX), &check);
            int met = line < 0 && answered < 0;
            answered = -1;
            for (int at = 0; status == FY_DONE && at < LINE_COUNT; at++) {
                answered = at == line ? request : -1;
                fy_status read = fy_check_line(&check, LINES[at], strlen(LINES[at]), &bad);
                if (at == line) {
                    met = answered < 0;
                    answered = -1;
                    if (met && read == FY_NO_MEMORY) {
                        unread++;
                        EQUAL(bad, FY_NO_BAD_ENTRY);
                        EQUAL(fy_check_finding(&check, &count, &bad),
                              at == 0 ? FY_NO_HEADER : FY_DONE);
                        EQUAL(count, at == 0 ? 0 : at - 1);
                        read = fy_check_line(&check, LINES[at], strlen(LINES[at]), &bad);
                    }
                }
                EQUAL(read, FY_DONE);
            }
            refused += met;
            if (status == FY_DONE) {
                EQUAL(fy_check_finding(&check, &count, &bad), FY_DONE);
                EQUAL(count, LINE_COUNT - 1);
                EQUAL(bad, LINE_COUNT - 2);
            } else {
                EQUAL(met && status == FY_NO_MEMORY, 1);
                EQUAL(fy_check_is_open(&check), 0);
            }
            fy_check_end(&check);
            EQUAL(live, held);
            if (!met)
                break;
        }
    }
    EQUAL(unread > 5, 1);
    printf("checks: %ld requests refused, %ld lines unread by it\n", refused, unread);
}

int main(void)
{
    plans();
    checks();
    return ended("memory_of_plans");
}
