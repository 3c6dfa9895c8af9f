/* How much may still be lost, held against every set of the six processes, and against what
 * `faultyard bears` prints. */
#include "faultyard.h"
#include "told.h"

enum { ACTS = 4000, PEOPLE = 6 };

static uint64_t state = 20261127;

static uint32_t below(uint32_t most)
{
    state = state * 6364136223846793005u + 1442695040888963407u;
    return (uint32_t)(state >> 33) % most;
}

/* In how many of the three zones the processes of a set lie. */
static int zones_of(uint64_t set)
{
    return ((set & 0x03) != 0) + ((set & 0x0c) != 0) + ((set & 0x30) != 0);
}

static int size_of(uint64_t set)
{
    int size = 0;
    for (; set != 0; set &= set - 1)
        size++;
    return size;
}

/* The greatest number of which every set may be lost, by the policy of SIX: two zones. */
static int most(uint64_t destroyed, uint64_t left, int for_good)
{
    int least = PEOPLE + 1;
    for (uint64_t set = 0; set < 1u << PEOPLE; set++)
        if ((zones_of(destroyed | set) >= 2 || (for_good && zones_of(left & ~set) < 2)) &&
            size_of(set) < least)
            least = size_of(set);
    return least - 1;
}

static void bears(const fy_guard *guard, uint32_t emptied, uint32_t gone, uint32_t emptied_exact,
                  uint32_t gone_exact)
{
    fy_borne borne = {77, 77, 77, 77};
    EQUAL(fy_guard_bears(guard, &borne), FY_DONE);
    EQUAL(borne.emptied, emptied);
    EQUAL(borne.gone, gone);
    EQUAL(borne.emptied_exact, emptied_exact);
    EQUAL(borne.gone_exact, gone_exact);
}

/* Random kills, starts and heals: without an And each number is exact. */
static void every_set(void)
{
    unsigned long met[PEOPLE + 1] = {0};
    fy_guard guard = open_guard(SIX_WITH("20000"));
    for (int i = 0; i < ACTS; i++) {
        uint64_t destroyed[FY_SET_WORDS], left[FY_SET_WORDS];
        uint32_t refusal, process = below(PEOPLE);
        fy_kind kind = below(500) == 0 ? FY_KILL_INSTANTLY : (fy_kind)(1 + below(3));
        EQUAL(fy_guard_kill_process(&guard, 1, process, kind, FY_REBOOT_PROCESS, 0, &struck, &rule,
                                    &named),
              FY_DONE);
        (void)fy_guard_up(&guard, 0, below(PEOPLE), &refusal);
        (void)fy_guard_heal(&guard, 0, below(PEOPLE), &refusal);
        EQUAL(fy_guard_destroyed_set(&guard, destroyed), FY_DONE);
        EQUAL(fy_guard_left(&guard, left), FY_DONE);
        int emptied = most(destroyed[0], left[0], 0), gone = most(destroyed[0], left[0], 1);
        bears(&guard, (uint32_t)emptied, (uint32_t)gone, 1, 1);
        met[emptied]++;
        met[gone]++;
    }
    EQUAL(met[0] > 0 && met[1] > 0, 1);
    fy_guard_close(&guard);
}

/* Three zones and three machines take four processes together, which isn't found. */
static const char *const CROSSED =
    "journal_limit = 9\n"
    "policies = [\"And(Across(3,zoneid,One()),Across(3,machineid,One()))\"]\n"
    "process = [{processid = \"p0\", machineid = \"m0\", zoneid = \"z0\"},\n"
    "  {processid = \"p1\", machineid = \"m0\", zoneid = \"z1\"}, "
    "{processid = \"p2\", machineid = \"m0\", zoneid = \"z2\"},\n"
    "  {processid = \"p3\", machineid = \"m1\", zoneid = \"z0\"}, "
    "{processid = \"p4\", machineid = \"m2\", zoneid = \"z0\"}]\n"
    "actor = [{role = \"storage\"}]\n";

/* What `faultyard bears` prints of these clusters, and each status; FY_NO_MEMORY is that of
 * memory.c. */
static void cases(void)
{
    fy_guard six = open_guard(SIX), three = open_guard(THREE), crossed = open_guard(CROSSED),
             none = {NULL};
    fy_borne borne = {77, 77, 77, 77};
    size_t count = 77;
    bears(&six, 1, 1, 1, 1);
    bears(&three, 2, 0, 1, 1);
    bears(&crossed, 2, 0, 0, 1);
    EQUAL(fy_guard_kill(&six, 1, FY_ZONE, "z1", FY_KILL_INSTANTLY, FY_REBOOT, 0, &struck, &rule,
                        &named),
          FY_DONE);
    bears(&six, 0, 0, 1, 1);
    EQUAL(fy_guard_journal_len(&six, &count), FY_DONE);
    EQUAL(count, 1);
    EQUAL(fy_guard_reset(&six), FY_DONE);
    bears(&six, 1, 1, 1, 1);
    EQUAL(fy_guard_bears(&none, &borne), FY_CLOSED);
    EQUAL(fy_guard_bears(NULL, &borne), FY_CLOSED);
    EQUAL(fy_guard_bears(&six, NULL), FY_CLOSED);
    EQUAL(borne.emptied, 77);
    fy_guard_close(&six);
    fy_guard_close(&three);
    fy_guard_close(&crossed);
}

int main(void)
{
    every_set();
    cases();
    return ended("bearing");
}
