/* Audits that are checked line by line, by the words of docs/FORMATS.md. checks.py compares what is
 * found with `faultyard check`. */
#include "faultyard.h"
#include "told.h"

#define FIRST_HEADER "{\"audit\":1}\n"
#define TICK(at, now) \
    "{\"act\":{\"tick\":{\"ticks\":1}},\"at\":" at ",\"by\":0,\"reply\":{\"time\":" now "}}\n"
#define HEAL(at)                                     \
    "{\"act\":{\"heal\":{\"process\":0}},\"at\":" at \
    ",\"by\":0,\"reply\":{\"no\":[\"NotDestroyed\"]}}\n"

static const char *const KILLED =
    "{\"act\":{\"kill\":{\"floor\":\"Reboot\",\"key\":\"zoneid\",\"kind\":\"KillInstantly\","
    "\"tear\":0,\"value\":\"z0\"}},"
    "\"at\":0,\"by\":1,\"reply\":{\"verdict\":{\"rule\":null,\"struck\":\"KillInstantly\"}}}\n";
static const char *const REBOOTED =
    "{\"act\":{\"kill\":{\"floor\":\"Reboot\",\"key\":\"zoneid\",\"kind\":\"KillInstantly\","
    "\"tear\":0,\"value\":\"z1\"}},"
    "\"at\":1,\"by\":1,\"reply\":{\"verdict\":{\"rule\":[\"TooManyDestroyed\",0],"
    "\"struck\":\"Reboot\"}}}\n";
/* What would destroy the last copy: no rule allows it. */
static const char *const KILLED_TOO =
    "{\"act\":{\"kill\":{\"floor\":\"Reboot\",\"key\":\"zoneid\",\"kind\":\"KillInstantly\","
    "\"tear\":0,\"value\":\"z1\"}},"
    "\"at\":1,\"by\":1,\"reply\":{\"verdict\":{\"rule\":null,\"struck\":\"KillInstantly\"}}}\n";

static fy_check begin(const char *config)
{
    fy_check check;
    memset(&check, 0x55, sizeof check);
    EQUAL(fy_check_begin(config, strlen(config), &check), FY_DONE);
    EQUAL(fy_check_is_open(&check), 1);
    return check;
}

/* What a line is answered, and the first bad entry then. */
static void line_is(fy_check *check, const char *line, fy_status status, uint32_t bad)
{
    uint32_t first_bad = 77;
    EQUAL(fy_check_line(check, line, strlen(line), &first_bad), status);
    EQUAL(first_bad, bad);
}

static void finding_is(const fy_check *check, fy_status status, uint32_t entries, uint32_t bad)
{
    uint32_t count = 77, first_bad = 77;
    EQUAL(fy_check_finding(check, &count, &first_bad), status);
    EQUAL(count, entries);
    EQUAL(first_bad, bad);
}

/* The audit that is worked out in docs/FORMATS.md, and one whose second kill goes too far. */
static void worked(void)
{
    fy_check check = begin(SIX);
    finding_is(&check, FY_NO_HEADER, 0, FY_NO_BAD_ENTRY);
    line_is(&check, FY_AUDIT_HEADER, FY_DONE, FY_NO_BAD_ENTRY);
    finding_is(&check, FY_DONE, 0, FY_NO_BAD_ENTRY);
    line_is(&check, KILLED, FY_DONE, FY_NO_BAD_ENTRY);
    line_is(&check, REBOOTED, FY_DONE, FY_NO_BAD_ENTRY);
    finding_is(&check, FY_DONE, 2, FY_NO_BAD_ENTRY);
    fy_check_end(&check);
    EQUAL(fy_check_is_open(&check), 0);
    check = begin(SIX);
    line_is(&check, FY_AUDIT_HEADER, FY_DONE, FY_NO_BAD_ENTRY);
    line_is(&check, KILLED, FY_DONE, FY_NO_BAD_ENTRY);
    line_is(&check, KILLED_TOO, FY_DONE, 1);
    /* Behind a bad entry lines are still read, for their faults alone. */
    line_is(&check, TICK("2", "1"), FY_DONE, 1);
    line_is(&check, TICK("2", "1"), FY_LINE_SYNTAX, 1);
    line_is(&check, TICK("3", "99"), FY_DONE, 1);
    finding_is(&check, FY_DONE, 4, 1);
    fy_check_end(&check);
    /* The journal of this cluster has two places, so a third entry is bad. */
    check = begin(TWO_PLACES);
    line_is(&check, FY_AUDIT_HEADER, FY_DONE, FY_NO_BAD_ENTRY);
    line_is(&check, TICK("0", "1"), FY_DONE, FY_NO_BAD_ENTRY);
    line_is(&check, TICK("1", "2"), FY_DONE, FY_NO_BAD_ENTRY);
    line_is(&check, TICK("2", "3"), FY_DONE, 2);
    fy_check_end(&check);
}

/* Audits of the first version have no heal, nor the refusals that came with it. */
static void versions(void)
{
    fy_check check = begin(SIX);
    line_is(&check, FIRST_HEADER, FY_DONE, FY_NO_BAD_ENTRY);
    line_is(&check, TICK("0", "1"), FY_DONE, FY_NO_BAD_ENTRY);
    line_is(&check, HEAL("1"), FY_LINE_SYNTAX, FY_NO_BAD_ENTRY);
    line_is(&check, TICK("1", "2"), FY_DONE, FY_NO_BAD_ENTRY);
    finding_is(&check, FY_DONE, 2, FY_NO_BAD_ENTRY);
    fy_check_end(&check);
    check = begin(SIX);
    line_is(&check, FY_AUDIT_HEADER, FY_DONE, FY_NO_BAD_ENTRY);
    line_is(&check, HEAL("0"), FY_DONE, FY_NO_BAD_ENTRY);
    fy_check_end(&check);
}

/* Each fault of a line: it counts as not read, so the next one may stand in its place. */
static void faults(void)
{
    static const char *const HEADERS[] = {
        "",
        "\n",
        "{\"audit\":2}",
        "{\"audit\":3}\n",
        "{\"audit\": 2}\n",
        "{\"audit\":2}\r\n",
        "\xef\xbb\xbf{\"audit\":2}\n",
        TICK("0", "1"),
    };
    static const char *const LINES[] = {
        "",
        "\n",
        "{}\n",
        TICK("1", "1"),
        TICK("0", "01"),
        FY_AUDIT_HEADER,
        TICK("0", "1") "\n",
        TICK("0", "1") TICK("1", "2"),
        "{\"act\": {\"tick\":{\"ticks\":1}},\"at\":0,\"by\":0,\"reply\":{\"time\":1}}\n",
        "{\"act\":{\"tick\":{\"ticks\":1}},\"at\":0,\"by\":0,\"reply\":{\"time\":1}}\r\n",
        "{\"act\":{\"tick\":{\"ticks\":1}},\"at\":0,\"by\":0,\"reply\":{\"time\":1}}",
    };
    static char longest[65538];
    uint32_t first_bad = 77;
    fy_check check = begin(SIX);
    for (size_t i = 0; i < sizeof HEADERS / sizeof *HEADERS; i++)
        line_is(&check, HEADERS[i], FY_NO_HEADER, FY_NO_BAD_ENTRY);
    line_is(&check, FY_AUDIT_HEADER TICK("0", "1"), FY_LINE_SYNTAX, FY_NO_BAD_ENTRY);
    finding_is(&check, FY_NO_HEADER, 0, FY_NO_BAD_ENTRY);
    line_is(&check, FY_AUDIT_HEADER, FY_DONE, FY_NO_BAD_ENTRY);
    for (size_t i = 0; i < sizeof LINES / sizeof *LINES; i++)
        line_is(&check, LINES[i], FY_LINE_SYNTAX, FY_NO_BAD_ENTRY);
    memset(longest, ' ', sizeof longest);
    EQUAL(fy_check_line(&check, longest, 65536, &first_bad), FY_LINE_SYNTAX);
    EQUAL(fy_check_line(&check, longest, 65537, &first_bad), FY_LINE_TOO_LONG);
    longest[65536] = '\n';
    EQUAL(fy_check_line(&check, longest, 65537, &first_bad), FY_LINE_SYNTAX);
    longest[65536] = ' ';
    longest[65537] = '\n';
    EQUAL(fy_check_line(&check, longest, 65538, &first_bad), FY_LINE_TOO_LONG);
    EQUAL(first_bad, FY_NO_BAD_ENTRY);
    finding_is(&check, FY_DONE, 0, FY_NO_BAD_ENTRY);
    line_is(&check, TICK("0", "1"), FY_DONE, FY_NO_BAD_ENTRY);
    fy_check_end(&check);
}

/* The journal of a guard is found legal, each line as it was entered. */
static void of_a_guard(void)
{
    fy_guard guard = open_guard(SIX);
    fy_check check = begin(SIX);
    char line[512], name[8];
    size_t told;
    line_is(&check, FY_AUDIT_HEADER, FY_DONE, FY_NO_BAD_ENTRY);
    for (uint32_t i = 0; i < 200; i++) {
        uint32_t refusal;
        snprintf(name, sizeof name, "p%u", (unsigned)(i * 7 % 6));
        fy_guard_kill(&guard, i % 6, FY_PROCESS, name, (fy_kind)(i % 3 + 1), FY_REBOOT_PROCESS, i,
                      &struck, &rule, &named);
        fy_guard_up(&guard, 0, i % 7, &refusal);
    }
    for (size_t at = 0; fy_guard_audit(&guard, at, line, sizeof line, &told) == FY_DONE; at++) {
        uint32_t first_bad = 77;
        EQUAL(fy_check_line(&check, line, told, &first_bad), FY_DONE);
        EQUAL(first_bad, FY_NO_BAD_ENTRY);
    }
    finding_is(&check, FY_DONE, 400, FY_NO_BAD_ENTRY);
    fy_check_end(&check);
    fy_guard_close(&guard);
}

/* A cluster file that is none. */
static void cluster_files(void)
{
    fy_check check;
    memset(&check, 0xff, sizeof check);
    EQUAL(fy_check_begin("=", 1, &check), FY_CONFIG_TOML);
    EQUAL(fy_check_is_open(&check), 0);
    EQUAL(fy_check_begin("", 0, &check), FY_CONFIG_FIELD);
    static char longest[1048577];
    memset(longest, '\n', sizeof longest);
    EQUAL(fy_check_begin(longest, sizeof longest, &check), FY_CONFIG_TOO_LONG);
}

static void closed(void)
{
    fy_check check = {0};
    uint32_t first_bad, count;
    fy_check_end(&check);
    fy_check_end(NULL);
    EQUAL(fy_check_begin(NULL, 0, &check), FY_CLOSED);
    EQUAL(fy_check_begin(SIX, strlen(SIX), NULL), FY_CLOSED);
    for (int round = 0; round < 2; round++) {
        fy_check *none = round == 0 ? &check : NULL;
        EQUAL(fy_check_line(none, "\n", 1, &first_bad), FY_CLOSED);
        EQUAL(fy_check_finding(none, &count, &first_bad), FY_CLOSED);
    }
    check = begin(SIX);
    EQUAL(fy_check_line(&check, NULL, 0, &first_bad), FY_CLOSED);
    EQUAL(fy_check_line(&check, "\n", 1, NULL), FY_CLOSED);
    EQUAL(fy_check_finding(&check, NULL, &first_bad), FY_CLOSED);
    EQUAL(fy_check_finding(&check, &count, NULL), FY_CLOSED);
    fy_check_end(&check);
    fy_check_end(&check);
}

/* Lines of 65,536 bytes, until there are more bytes than an audit may have. The first is a
 * stranger's and isn't told so, thus bad: no act is made once more. Under valgrind this takes
 * minutes: the word `long` asks for it. */
static void longest_audit(void)
{
    static char line[65600];
    const size_t most = 268435456;
    fy_check check = begin(SIX);
    size_t bytes = strlen(FY_AUDIT_HEADER);
    uint32_t first_bad = 77;
    line_is(&check, FY_AUDIT_HEADER, FY_DONE, FY_NO_BAD_ENTRY);
    for (uint32_t at = 0;; at++) {
        char tail[128];
        int behind = snprintf(
            tail, sizeof tail,
            "\",\"team\":0}},\"at\":%u,\"by\":9,\"reply\":{\"no\":[\"NoTeam\"]}}\n", (unsigned)at);
        int front = snprintf(line, sizeof line, "{\"act\":{\"begin\":{\"payload\":\"");
        size_t digits = (65537 - (size_t)behind - (size_t)front) / 2 * 2,
               length = (size_t)front + digits + (size_t)behind;
        memset(line + front, 'a', digits);
        memcpy(line + front + digits, tail, (size_t)behind);
        fy_status status = fy_check_line(&check, line, length, &first_bad);
        EQUAL(status, bytes + length > most ? FY_AUDIT_TOO_LONG : FY_DONE);
        if (status != FY_DONE) {
            finding_is(&check, FY_DONE, at, 0);
            break;
        }
        bytes += length;
    }
    EQUAL(first_bad, 0);
    EQUAL(most - bytes < 65537, 1);
    /* A line that still fits is read. */
    EQUAL(fy_check_line(&check, line, most - bytes + 1, &first_bad), FY_AUDIT_TOO_LONG);
    EQUAL(fy_check_line(&check, line, most - bytes, &first_bad), FY_LINE_SYNTAX);
    fy_check_end(&check);
}

int main(int count, char **words)
{
    if (count == 2 && strcmp(words[1], "long") == 0) {
        longest_audit();
        return ended("checks long");
    }
    worked();
    versions();
    faults();
    of_a_guard();
    cluster_files();
    closed();
    return ended("checks");
}
