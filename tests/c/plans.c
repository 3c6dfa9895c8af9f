/* Words of a seed, and the plans that are drawn from them, by the words of docs/FORMATS.md.
 * plans.py compares both with a ChaCha that isn't the library's. */
#include "faultyard.h"
#include "told.h"

enum { PROCESSES = 6, WORDS = 2 * PROCESSES, ROOM = 20 };

/* The first words of the published vectors: where key and nonce are zero, where the first byte of
 * the key is 1, and where the first byte of the nonce is 1. */
static void published(void)
{
    static const struct {
        uint64_t seed, stream;
        uint32_t words[4];
    } vectors[] = {
        {0, 0, {0x2fef003e, 0xd6405f89, 0xe8b85b7f, 0xa1a5091f}},
        {1, 0, {0xa0e95ecf, 0x61a94a49, 0xedd5053e, 0x4b805b72}},
        {0, 1, {0xb34b8f2b, 0xca068379, 0x7cd43051, 0xd14e8d4f}},
    };
    uint32_t words[300], front[5];
    for (size_t i = 0; i < sizeof vectors / sizeof *vectors; i++) {
        EQUAL(fy_guard_words(vectors[i].seed, vectors[i].stream, words, 300), FY_DONE);
        for (int word = 0; word < 4; word++)
            EQUAL(words[word], vectors[i].words[word]);
        /* Fewer words are their front, and what is behind them stays. */
        front[3] = front[4] = 77;
        EQUAL(fy_guard_words(vectors[i].seed, vectors[i].stream, front, 3), FY_DONE);
        EQUAL(memcmp(front, words, 3 * sizeof *front), 0);
        EQUAL(front[3] == 77 && front[4] == 77, 1);
    }
    EQUAL(fy_guard_words(0, 0, front, 0), FY_DONE);
    EQUAL(fy_guard_words(UINT64_MAX, UINT64_MAX, front, 1), FY_DONE);
    EQUAL(fy_guard_words(0, 0, NULL, 1), FY_CLOSED);
}

/* From the last place down to the second, each is swapped with the place that the next word
 * gives. */
static void shuffle(uint32_t *list, size_t length, const uint32_t *words)
{
    for (size_t last = length; last-- > 1; words++) {
        size_t other = *words % (last + 1);
        uint32_t swapped = list[last];
        list[last] = list[other];
        list[other] = swapped;
    }
}

/* An order by its numbers, and nothing but zeros behind its value. */
static void order_is(const fy_order *order, uint32_t act, uint32_t key, char letter,
                     uint32_t number, uint32_t kind, uint32_t floor, uint64_t tear, uint64_t ticks)
{
    char value[FY_VALUE_BYTES] = {letter, (char)('0' + number)};
    EQUAL(order->act, act);
    EQUAL(order->key, key);
    EQUAL(memcmp(order->value, value, sizeof value), 0);
    EQUAL(order->kind, kind);
    EQUAL(order->floor, floor);
    EQUAL(order->tear, tear);
    EQUAL(order->ticks, ticks);
}

/* So many orders are the same; between their fields there may be anything. */
static void same_orders(const fy_order *these, const fy_order *those, size_t count)
{
    for (size_t at = 0; at < count; at++) {
        EQUAL(these[at].ticks, those[at].ticks);
        EQUAL(these[at].tear, those[at].tear);
        EQUAL(these[at].act, those[at].act);
        EQUAL(these[at].key, those[at].key);
        EQUAL(these[at].kind, those[at].kind);
        EQUAL(these[at].floor, those[at].floor);
        EQUAL(memcmp(these[at].value, those[at].value, FY_VALUE_BYTES), 0);
    }
}

/* A buffer holds so many orders of a plan, and behind them what was there. */
static void rest_stays(const fy_order *orders, size_t told)
{
    fy_order stays;
    memset(&stays, 0x55, sizeof stays);
    for (size_t at = told; at < ROOM; at++)
        EQUAL(memcmp(&orders[at], &stays, sizeof stays), 0);
}

/* Processes beside an odd word are clogged in their order, and freed in an order of the words
 * behind. */
static size_t swizzle_is(const fy_guard *guard, uint64_t seed, uint64_t stream, uint64_t ticks)
{
    uint32_t words[WORDS], clogs[PROCESSES], frees[PROCESSES];
    fy_order orders[ROOM];
    size_t count = 0, told = 77;
    EQUAL(fy_guard_words(seed, stream, words, WORDS), FY_DONE);
    for (uint32_t process = 0; process < PROCESSES; process++)
        if (words[process] % 2 == 1)
            clogs[count++] = process;
    memcpy(frees, clogs, sizeof frees);
    shuffle(frees, count, words + PROCESSES);
    memset(orders, 0x55, sizeof orders);
    EQUAL(fy_guard_swizzle_plan(guard, seed, stream, ticks, orders, ROOM, &told), FY_DONE);
    EQUAL(told, 2 * count);
    for (size_t at = 0; at < count; at++) {
        order_is(&orders[at], FY_ORDER_CLOG, FY_PROCESS, 'p', clogs[at], 0, 0, 0, ticks);
        order_is(&orders[count + at], FY_ORDER_UNCLOG, FY_PROCESS, 'p', frees[at], 0, 0, 0, 0);
    }
    rest_stays(orders, told);
    return told;
}

/* The first machines of the shuffled ones are killed, and so many are spared. */
static size_t attrition_is(const fy_guard *guard, uint64_t seed, uint64_t stream, uint32_t to_kill,
                           uint32_t to_leave)
{
    uint32_t words[WORDS], machines[PROCESSES] = {0, 1, 2, 3, 4, 5};
    fy_order orders[ROOM];
    size_t most = to_leave < PROCESSES ? PROCESSES - to_leave : 0,
           count = to_kill < most ? to_kill : most, told = 77;
    EQUAL(fy_guard_words(seed, stream, words, WORDS), FY_DONE);
    shuffle(machines, PROCESSES, words);
    memset(orders, 0x55, sizeof orders);
    EQUAL(fy_guard_attrition_plan(guard, seed, stream, to_kill, to_leave, FY_KILL_INSTANTLY,
                                  FY_REBOOT, 5, orders, ROOM, &told),
          FY_DONE);
    EQUAL(told, count);
    for (size_t at = 0; at < count; at++)
        order_is(&orders[at], FY_ORDER_KILL, FY_MACHINE, 'm', machines[at], FY_KILL_INSTANTLY,
                 FY_REBOOT, 5, 0);
    rest_stays(orders, told);
    return told;
}

static void plans(void)
{
    fy_guard guard = open_guard(SIX);
    size_t none = 0, all = 0, count = 77;
    for (uint64_t seed = 0; seed < 300; seed++) {
        size_t told = swizzle_is(&guard, seed, seed % 5, seed);
        none += told == 0;
        all += told == 2 * PROCESSES;
        attrition_is(&guard, seed, seed % 7, (uint32_t)(seed % 8), (uint32_t)(seed / 8 % 8));
    }
    EQUAL(none > 0 && all > 0, 1);
    swizzle_is(&guard, UINT64_MAX, UINT64_MAX, UINT64_MAX);
    EQUAL(attrition_is(&guard, UINT64_MAX, UINT64_MAX, UINT32_MAX, 0), PROCESSES);
    EQUAL(attrition_is(&guard, 3, 2, UINT32_MAX, UINT32_MAX), 0);
    /* Nothing is entered, and what becomes of the processes changes no plan. */
    EQUAL(fy_guard_journal_len(&guard, &count), FY_DONE);
    EQUAL(count, 0);
    EQUAL(fy_guard_kill(&guard, 1, FY_MACHINE, "m0", FY_KILL_INSTANTLY, FY_KILL_INSTANTLY, 0,
                        &struck, &rule, &named),
          FY_DONE);
    EQUAL(attrition_is(&guard, 9, 1, 6, 0), PROCESSES);
    fy_guard_close(&guard);
}

/* The first round of a fault actor is a plan of the library, from the stream that its first turn
 * draws. */
static void rounds(void)
{
    fy_guard guard = open_guard(SIX);
    size_t none = 0, some = 0;
    for (uint64_t seed = 0; seed < 300; seed++) {
        uint32_t actor = (uint32_t)(seed % 5), words[8];
        fy_order plan[ROOM], orders[ROOM];
        size_t told = 77;
        EQUAL(fy_guard_words(seed, actor, words, 8), FY_DONE);
        uint64_t stream = (uint64_t)words[7] << 32 | words[6];
        uint64_t ticks = words[3] % 64 == 63 ? UINT64_C(1) << 41 : 250 * (words[3] / 64 % 16);
        EQUAL(fy_guard_swizzle_plan(&guard, seed, stream, ticks, plan, ROOM, &told), FY_DONE);
        EQUAL(fy_guard_plan_orders(&guard, FY_PLAN_SWIZZLE, seed, actor, orders, ROOM), FY_DONE);
        same_orders(orders, plan, told);
        if (told == 0)
            EQUAL(orders[0].act, FY_ORDER_NONE);
        none += told == 0;
        some += told > 0;
        EQUAL(fy_guard_attrition_plan(&guard, seed, stream, UINT32_MAX, 0, FY_REBOOT_AND_DELETE,
                                      FY_REBOOT, stream, plan, ROOM, &told),
              FY_DONE);
        EQUAL(told, PROCESSES);
        EQUAL(fy_guard_plan_orders(&guard, FY_PLAN_ATTRITION, seed, actor, orders, ROOM), FY_DONE);
        same_orders(orders, plan, told);
    }
    EQUAL(none > 0 && some > 0, 1);
    fy_guard_close(&guard);
}

/* A longer call begins with the orders of a shorter one, and writes nothing behind its own. */
static void longer(void)
{
    fy_guard guard = open_guard(SIX);
    for (int plan = FY_PLAN_MIXED; plan <= FY_PLAN_ROLLING; plan++) {
        fy_order all[500], some[ROOM];
        size_t count = 77;
        EQUAL(fy_guard_plan_orders(&guard, (fy_plan)plan, 7, 1, all, 500), FY_DONE);
        for (size_t room = 0; room <= ROOM; room++) {
            memset(some, 0x55, sizeof some);
            EQUAL(fy_guard_plan_orders(&guard, (fy_plan)plan, 7, 1, some, room), FY_DONE);
            same_orders(some, all, room);
            rest_stays(some, room);
        }
        EQUAL(fy_guard_journal_len(&guard, &count), FY_DONE);
        EQUAL(count, 0);
    }
    fy_guard_close(&guard);
}

/* A plan of a swarm is carried out by its orders. */
static void carried_out(void)
{
    fy_guard guard = open_guard(SIX);
    fy_order orders[FY_MOST_ORDERS];
    size_t told = 0;
    EQUAL(fy_guard_attrition_plan(&guard, 7, 2, 2, 1, FY_KILL_INSTANTLY, FY_REBOOT, 0, orders,
                                  FY_MOST_ORDERS, &told),
          FY_DONE);
    EQUAL(told, 2);
    for (size_t at = 0; at < told; at++)
        EQUAL(fy_guard_kill(&guard, 1, (fy_key)orders[at].key, orders[at].value,
                            (fy_kind)orders[at].kind, (fy_kind)orders[at].floor, orders[at].tear,
                            &struck, &rule, &named),
              FY_DONE);
    fy_guard_close(&guard);
}

/* Each refusal, in its order: nothing is written to the buffer. */
static void refusals(void)
{
    fy_guard guard = open_guard(SIX);
    fy_order orders[ROOM];
    uint64_t seed = 0;
    size_t told = 77, whole = 0;
    memset(orders, 0x55, sizeof orders);
    while (whole < 4)
        whole = swizzle_is(&guard, ++seed, 0, 10);
    EQUAL(fy_guard_swizzle_plan(&guard, seed, 0, 10, orders, whole - 1, &told), FY_SHORT);
    EQUAL(told, whole);
    EQUAL(fy_guard_swizzle_plan(&guard, seed, 0, 10, orders, 0, &told), FY_SHORT);
    EQUAL(told, whole);
    EQUAL(fy_guard_attrition_plan(&guard, seed, 0, 3, 1, FY_REBOOT, FY_REBOOT, 0, orders, 2, &told),
          FY_SHORT);
    EQUAL(told, 3);
    static const struct {
        fy_kind kind, floor;
        fy_status status;
    } kinds[] = {
        {FY_NONE, FY_REBOOT, FY_ARGUMENT},
        {(fy_kind)5, FY_NONE, FY_ARGUMENT},
        {FY_REBOOT, FY_NONE, FY_ARGUMENT},
        {FY_REBOOT, (fy_kind)5, FY_ARGUMENT},
        {FY_REBOOT, FY_REBOOT_AND_DELETE, FY_FLOOR},
        {FY_REBOOT_PROCESS, FY_KILL_INSTANTLY, FY_FLOOR},
    };
    for (size_t i = 0; i < sizeof kinds / sizeof *kinds; i++) {
        told = 77;
        EQUAL(fy_guard_attrition_plan(&guard, seed, 0, 3, 1, kinds[i].kind, kinds[i].floor, 0,
                                      orders, 0, &told),
              kinds[i].status);
        EQUAL(told, 0);
    }
    EQUAL(fy_guard_plan_orders(&guard, (fy_plan)0, seed, 1, orders, ROOM), FY_ARGUMENT);
    EQUAL(fy_guard_plan_orders(&guard, (fy_plan)5, seed, 1, orders, ROOM), FY_ARGUMENT);
    EQUAL(fy_guard_plan_orders(&guard, (fy_plan)5, seed, 1, orders, 0), FY_ARGUMENT);
    rest_stays(orders, 0);
    EQUAL(fy_guard_swizzle_plan(&guard, seed, 0, 10, orders, whole, &told), FY_DONE);
    rest_stays(orders, whole);
    fy_guard_close(&guard);
}

static void closed(void)
{
    fy_guard shut = {0}, guard = open_guard(SIX);
    fy_order order;
    size_t told;
    for (int round = 0; round < 2; round++) {
        const fy_guard *none = round == 0 ? &shut : NULL;
        EQUAL(fy_guard_plan_orders(none, FY_PLAN_MIXED, 0, 0, &order, 1), FY_CLOSED);
        EQUAL(fy_guard_swizzle_plan(none, 0, 0, 1, &order, 1, &told), FY_CLOSED);
        EQUAL(fy_guard_attrition_plan(none, 0, 0, 1, 1, FY_REBOOT, FY_REBOOT, 0, &order, 1, &told),
              FY_CLOSED);
    }
    EQUAL(fy_guard_plan_orders(&guard, FY_PLAN_MIXED, 0, 0, NULL, 0), FY_CLOSED);
    EQUAL(fy_guard_swizzle_plan(&guard, 0, 0, 1, NULL, 0, &told), FY_CLOSED);
    EQUAL(fy_guard_swizzle_plan(&guard, 0, 0, 1, &order, 1, NULL), FY_CLOSED);
    EQUAL(fy_guard_attrition_plan(&guard, 0, 0, 1, 1, FY_REBOOT, FY_REBOOT, 0, NULL, 0, &told),
          FY_CLOSED);
    EQUAL(fy_guard_attrition_plan(&guard, 0, 0, 1, 1, FY_REBOOT, FY_REBOOT, 0, &order, 1, NULL),
          FY_CLOSED);
    fy_guard_close(&guard);
}

int main(void)
{
    published();
    plans();
    rounds();
    longer();
    carried_out();
    refusals();
    closed();
    return ended("plans");
}
