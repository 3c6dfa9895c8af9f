/* Random acts, written out for the program to judge: the script to the file of the first word, the
 * journal to that of the second. Half of the kills and of the starts are calls of their own. */
#include "faultyard.h"
#include "told.h"

enum { ACTS = 10000 };

static uint64_t state = 20240229;

static uint32_t below(uint32_t most)
{
    state = state * 6364136223846793005u + 1442695040888963407u;
    return (uint32_t)(state >> 33) % most;
}

static const char *const KEYS[] = {"processid", "machineid", "zoneid", "data_hall", "dcid"};
static const char *const KINDS[] = {"RebootProcess", "Reboot", "RebootAndDelete", "KillInstantly"};
static const char LETTERS[] = "pmzhd";

/* The line of a random act; of a kill or a start also what it is by a call of its own. */
static int line_of(char *line, uint32_t *actor, uint32_t *key, char *value, uint32_t *kind,
                   uint32_t *floor, uint32_t *process)
{
    uint32_t act = below(20);
    *actor = below(6);
    *key = below(5);
    *kind = below(3);
    *floor = below(*kind + 1);
    if (below(200) == 0)
        *kind = 3;
    *process = below(7);
    sprintf(value, "%c%u", LETTERS[*key], (unsigned)below(7));
    int at = sprintf(line, "{\"by\":%u,\"act\":", (unsigned)*actor);
    line += at;
    if (act < 4)
        sprintf(line,
                "{\"kill\":{\"floor\":\"%s\",\"key\":\"%s\",\"kind\":\"%s\",\"tear\":5,"
                "\"value\":\"%s\"}}}",
                KINDS[*floor], KEYS[*key], KINDS[*kind], value);
    else if (act < 9)
        sprintf(line, "{\"up\":{\"process\":%u}}}", (unsigned)*process);
    else if (act < 10)
        sprintf(line, "{\"heal\":{\"process\":%u}}}", (unsigned)*process);
    else if (act < 11)
        sprintf(line, "{\"form\":{\"members\":[%u,%u],\"policy\":%u}}}", (unsigned)below(3),
                (unsigned)(3 + below(3)), (unsigned)below(2));
    else if (act < 13)
        sprintf(line, "{\"begin\":{\"payload\":\"%02x\",\"team\":%u}}}", (unsigned)below(256),
                (unsigned)below(9));
    else if (act < 16)
        sprintf(line, "{\"deliver\":{\"message\":%u}}}", (unsigned)below(2000));
    else if (act < 18)
        sprintf(line, "{\"sync\":{\"process\":%u}}}", (unsigned)*process);
    else if (act < 19)
        sprintf(line, "{\"tick\":{\"ticks\":%u}}}", (unsigned)below(9));
    else
        sprintf(line, "{ \"clog\" : {\"key\":\"%s\",\"value\":\"%s\",\"ticks\":3}}}", KEYS[*key],
                value);
    return act < 4 ? 1 : act < 9 ? 2 : 0;
}

int main(int count, char **words)
{
    if (count != 3)
        return 2;
    FILE *script = fopen(words[1], "w"), *audit = fopen(words[2], "w");
    if (script == NULL || audit == NULL)
        return 2;
    fy_guard guard = open_guard(SIX_WITH("10000"));
    char line[256], value[16], buffer[512];
    uint32_t actor, key, kind, floor, process, refusal;
    size_t told;
    for (int i = 0; i < ACTS; i++) {
        int own = line_of(line, &actor, &key, value, &kind, &floor, &process);
        fprintf(script, "%s\n", line);
        fy_status status;
        if (own == 1 && below(2) == 0)
            status = fy_guard_kill(&guard, actor, (fy_key)(key + 1), value, (fy_kind)(kind + 1),
                                   (fy_kind)(floor + 1), 5, &struck, &rule, &named);
        else if (own == 2 && below(2) == 0)
            status = fy_guard_up(&guard, actor, process, &refusal);
        else
            status = fy_guard_act(&guard, line, strlen(line), buffer, strlen(line) + FY_MOST_REPLY,
                                  &told);
        EQUAL(status == FY_DONE || status == FY_REFUSED, 1);
    }
    fputs(FY_AUDIT_HEADER, audit);
    for (size_t at = 0; at < ACTS; at++) {
        EQUAL(fy_guard_audit(&guard, at, buffer, sizeof buffer, &told), FY_DONE);
        fwrite(buffer, 1, told, audit);
    }
    fy_guard_close(&guard);
    EQUAL(fclose(script), 0);
    EQUAL(fclose(audit), 0);
    return ended("acts");
}
