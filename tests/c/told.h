/* What the C tests share: checks that are counted, and cluster files. */
#include <stdio.h>
#include <stdlib.h>
#include <string.h>

static unsigned long checked, wrong;
static uint32_t struck, rule;
static uint64_t named;

#define EQUAL(found, wanted)                                                                     \
    do {                                                                                         \
        unsigned long long found_ = (unsigned long long)(found),                                 \
                           wanted_ = (unsigned long long)(wanted);                               \
        checked++;                                                                               \
        if (found_ != wanted_) {                                                                 \
            wrong++;                                                                             \
            fprintf(stderr, "%s:%d: %s is %llu, not %llu\n", __FILE__, __LINE__, #found, found_, \
                    wanted_);                                                                    \
        }                                                                                        \
    } while (0)

#define TEXT(buffer, told, wanted)                                                     \
    do {                                                                               \
        checked++;                                                                     \
        if ((told) != strlen(wanted) || memcmp((buffer), (wanted), (told)) != 0) {     \
            wrong++;                                                                   \
            fprintf(stderr, "%s:%d: %.*s", __FILE__, __LINE__, (int)(told), (buffer)); \
        }                                                                              \
    } while (0)

/* Two processes in two zones, the second zone's name and the policy given. */
#define PROCESSES(policy, zone)                                               \
    "policies = [\"" policy "\"]\n"                                           \
    "process = [{processid = \"p0\", machineid = \"m0\", zoneid = \"z0\"},\n" \
    "  {processid = \"p1\", machineid = \"m1\", zoneid = \"" zone "\"}]\n"

/* The same, with two actors. */
#define REST(policy, zone)            \
    PROCESSES(policy, zone)           \
    "actor = [{role = \"storage\"}, " \
    "{role = \"fault\", grants = [{kinds = [\"Reboot\", \"KillInstantly\"]}]}]\n"

/* examples/c6.toml: two copies in two of three zones, with a journal of so many entries. */
#define SIX_WITH(limit)                                                             \
    "journal_limit = " limit "\n"                                                   \
    "policies = [\"Across(2,zoneid,One())\"]\n"                                     \
    "process = [\n"                                                                 \
    "  {processid = \"p0\", machineid = \"m0\", zoneid = \"z0\", dcid = \"d0\"},\n" \
    "  {processid = \"p1\", machineid = \"m1\", zoneid = \"z0\", dcid = \"d0\"},\n" \
    "  {processid = \"p2\", machineid = \"m2\", zoneid = \"z1\", dcid = \"d0\"},\n" \
    "  {processid = \"p3\", machineid = \"m3\", zoneid = \"z1\", dcid = \"d0\"},\n" \
    "  {processid = \"p4\", machineid = \"m4\", zoneid = \"z2\", dcid = \"d0\"},\n" \
    "  {processid = \"p5\", machineid = \"m5\", zoneid = \"z2\", dcid = \"d0\"},\n" \
    "]\n"                                                                           \
    "actor = [\n"                                                                   \
    "  {role = \"storage\"},\n"                                                     \
    "  {role = \"fault\", grants = [{kinds = [\"RebootProcess\", "                  \
    "\"Reboot\", \"RebootAndDelete\", \"KillInstantly\", \"Clog\"]}]},\n"           \
    "  {role = \"fault\", grants = [{kinds = [\"KillInstantly\", \"Reboot\"]}]},\n" \
    "  {role = \"fault\"},\n"                                                       \
    "  {role = \"operator\"},\n"                                                    \
    "]\n"

static const char *const SIX = SIX_WITH("1000");
static const char *const TWO_PLACES = SIX_WITH("2");
static const char *const THREE =
    "journal_limit = 9\n"
    "policies = [\"Across(3,zoneid,One())\"]\n"
    "process = [{processid = \"p0\", machineid = \"m0\", zoneid = \"z0\"},\n"
    "  {processid = \"p1\", machineid = \"m1\", zoneid = \"z1\"},\n"
    "  {processid = \"p2\", machineid = \"m2\", zoneid = \"z2\"}]\n"
    "actor = [{role = \"fault\", grants = [{kinds = [\"KillInstantly\"]}]}]\n";

static inline fy_guard open_guard(const char *config)
{
    fy_guard guard;
    EQUAL(fy_guard_open(config, strlen(config), &guard), FY_DONE);
    if (!fy_guard_is_open(&guard))
        exit(1);
    (void)struck, (void)rule, (void)named;
    return guard;
}

static inline int ended(const char *name)
{
    if (wrong == 0)
        printf("%s: %lu checks\n", name, checked);
    else
        printf("%s: %lu of %lu checks FAILED\n", name, wrong, checked);
    return wrong != 0;
}
