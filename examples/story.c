/* A record is written to two processes and outlives two kills, by calls alone:
 *
 *     cc -Iinclude examples/story.c bin/libfaultyard.a -o story && ./story < examples/c6.toml
 */
#include "faultyard.h"
#include <stdio.h>
#include <stdlib.h>

enum { STORAGE = 0, FAULT = 1 }; /* Two actors of the cluster file. */

static fy_guard guard;
static fy_reply reply;

static void must(fy_status status)
{
    if (status == FY_DONE)
        return;
    fprintf(stderr, "status %d, refusal %u\n", (int)status, (unsigned)reply.refusal);
    exit(1);
}

/* Delivers a store message to a process, which then has the record on its disk. */
static void store(uint64_t message, uint32_t process)
{
    must(fy_guard_deliver(&guard, STORAGE, message, &reply));
    must(fy_guard_sync(&guard, STORAGE, process, &reply));
}

static void empty_zone(const char *zone)
{
    static const char *const KINDS[] = {"nothing", "RebootProcess", "Reboot", "RebootAndDelete",
                                        "KillInstantly"};
    uint32_t struck, rule;
    uint64_t policy;
    must(fy_guard_kill(&guard, FAULT, FY_ZONE, zone, FY_REBOOT_AND_DELETE, FY_REBOOT, 0, &struck,
                       &rule, &policy));
    printf("zone %s: %s%s\n", zone, KINDS[struck],
           rule == FY_TOO_MANY_DESTROYED ? ", or no copy would be left" : "");
}

int main(void)
{
    char config[4096];
    const uint32_t members[] = {0, 2};
    uint32_t refusal;
    must(fy_guard_open(config, fread(config, 1, sizeof config, stdin), &guard));
    must(fy_guard_form(&guard, STORAGE, members, 2, 0, &reply));
    must(fy_guard_begin(&guard, STORAGE, reply.team, "hi", 2, &reply));
    const uint32_t record = reply.record;
    const uint64_t first = reply.message;
    for (uint32_t at = 0; at < 2; at++) {
        store(first + at, members[at]);
        must(fy_guard_deliver(&guard, STORAGE, reply.message, &reply));
        printf("process %u: %s\n", (unsigned)members[at], reply.acked ? "acknowledged" : "written");
    }
    empty_zone("z0");
    empty_zone("z1");
    must(fy_guard_up(&guard, STORAGE, 0, &refusal));
    must(fy_guard_up(&guard, STORAGE, 2, &refusal));
    must(fy_guard_copy(&guard, STORAGE, 2, record, 0, &reply));
    store(reply.message, 0);
    must(fy_guard_heal(&guard, STORAGE, 0, &refusal));
    uint32_t keeper;
    must(fy_guard_keeper(&guard, record, &keeper));
    printf("process 0: healed; process %u keeps the record\n", (unsigned)keeper);
    fy_guard_close(&guard);
    return 0;
}
