/* Two zones of three are ordered dead; the second order has to strike as a reboot. */
#include "faultyard.h"
#include <stdio.h>

int main(void)
{
    char config[4096];
    uint32_t struck, rule;
    uint64_t named;
    fy_guard guard;
    size_t length = fread(config, 1, sizeof config, stdin);

    if (fy_guard_open(config, length, &guard) != FY_DONE)
        return 1;
    if (fy_guard_kill(&guard, 1, FY_ZONE, "z0", FY_KILL_INSTANTLY, FY_REBOOT, 0, &struck, &rule,
                      &named) != FY_DONE ||
        struck != FY_KILL_INSTANTLY)
        return 2;
    if (fy_guard_kill(&guard, 1, FY_ZONE, "z1", FY_KILL_INSTANTLY, FY_REBOOT, 0, &struck, &rule,
                      &named) != FY_DONE ||
        struck != FY_REBOOT || rule != FY_TOO_MANY_DESTROYED || named != 0)
        return 3;
    fy_guard_close(&guard);
    puts("a reboot, by policy 0");
    return 0;
}
