/* faultyard: which faults a cluster bears, decided within your own program.
 *
 * A guard is opened with a cluster file, and then asked before each fault. It answers the hardest
 * kill that replication bears, and keeps a journal of all that was asked and answered.
 *
 *     fy_guard guard;
 *     uint32_t struck, rule;
 *     uint64_t named;
 *     if (fy_guard_open(config, strlen(config), &guard) != FY_DONE) ...
 *     fy_guard_kill(&guard, 1, FY_ZONE, "z0", FY_KILL_INSTANTLY, FY_REBOOT, 0, &struck, &rule,
 *                   &named);
 *     if (struck == FY_KILL_INSTANTLY) ...
 *     fy_guard_close(&guard);
 *
 * Link with libfaultyard.a, or with -lfaultyard. The library asks malloc, realloc and free for its
 * memory, and nothing else of the system: it opens no file and starts no thread.
 *
 * Every call answers a fy_status. But for FY_DONE, FY_REFUSED and FY_UNWRITTEN the guard is as it
 * was; what pointers for answers point to may be written all the same, as the call says.
 *
 * A guard may be moved to another thread, and one call at a time is made with it: threads that
 * share one take turns, by a mutex. Guards of different threads have nothing in common. Calls that
 * take a `const fy_guard *` write neither the struct nor what it points to, so they may be made at
 * once while no other call is.
 *
 * The struct may be moved in memory. Of a guard there is one copy that is used: a copy of the
 * struct is no second guard, which fy_guard_try_copy opens.
 *
 * What no call can notice is undefined: a second copy of a struct that is used, or closed, beside
 * the first or after it; fy_close twice (fy_guard_close closes the struct, so a second call does
 * nothing); a struct that was never opened and isn't all zeros; two calls at once, but for those
 * above; a buffer for an answer that overlaps the struct, a text of the call or another answer; a
 * text without its zero, or a length beyond its buffer; a call from a signal handler, or in a child
 * that a process with threads forked. In the child of a process without threads a guard is a second
 * one, whose journal goes its own way. All of it goes for a check too.
 */
#ifndef FAULTYARD_H
#define FAULTYARD_H

#include <stddef.h>
#include <stdint.h>
#include <string.h>

#ifdef __cplusplus
extern "C" {
#endif

/* The version of this header: 10,000 times its first number, 100 times the second, and the third.
 * fy_version answers that of the library. */
#define FAULTYARD_VERSION 20000
#define FAULTYARD_VERSION_TEXT "2.0.0"

/* A guard. Only the calls below write it; all zeros, it is closed. */
typedef struct fy_guard {
    void *at;
} fy_guard;

/* How a call ended. */
typedef enum fy_status {
    FY_DONE = 0,            /* It did what it says. */
    FY_NO_MEMORY = 1,       /* An allocation failed. */
    FY_JOURNAL_FULL = 2,    /* The journal has as many entries as the cluster file allows. */
    FY_REFUSED = 3,         /* The act is refused, and stands in the journal with its refusal. */
    FY_SHORT = 4,           /* The buffer is too short; how long it has to be is told. */
    FY_UNWRITTEN = 5,       /* The act is made and stands in the journal, but its line could not be
                               written, as it has over FY_MOST_REPLY bytes more than the line that
                               asked for it: fy_guard_audit reads it. No test has met it. */
    FY_NO_ENTRY = 6,        /* The journal has no entry at this place. */
    FY_ARGUMENT = 7,        /* A number for a key, a kind or a floor is that of none, or a bit of a
                               set of kinds is; members don't rise, or are too many; a payload is
                               too long; there is no such process to kill. Each call says which it
                               means. */
    FY_NAME = 8,            /* The value of the target is no name: 1 to 32 of A-Z a-z 0-9 _ -, the
                               first not -. */
    FY_FLOOR = 9,           /* The floor of the kill is above its kind. */
    FY_LINE_TOO_LONG = 10,  /* The line has more than 65,536 bytes. */
    FY_LINE_SYNTAX = 11,    /* The line is no command of a script, or no entry of an audit. */
    FY_CONFIG_TOO_LONG = 12, /* The cluster file has more than 1,048,576 bytes. */
    FY_CONFIG_TOML = 13,    /* The cluster file is no TOML document in UTF-8. */
    FY_CONFIG_FIELD = 14,   /* A key of it is missing, unknown or of another type, or a word is none
                               of those that may stand there. */
    FY_CONFIG_LIMIT = 15,   /* A number or a length of it is outside its range. */
    FY_CONFIG_NAME = 16,    /* A text of it is no name, or names what is taken or isn't there. */
    FY_CONFIG_POLICY = 17,  /* A text of it is no policy. */
    FY_CONFIG_UNMET = 18,   /* All its processes together don't satisfy one of its policies. */
    FY_CLOSED = 19,         /* The guard is closed, or a pointer is null. Only the inline calls of
                               this header answer it: the library itself asks for an open guard. */
    FY_NO_HEADER = 20,      /* The first line of the audit is no header of a version. */
    FY_AUDIT_TOO_LONG = 21, /* The lines of the audit have more than 268,435,456 bytes together. */
    FY_REFUTED = 22,        /* An entry of the audit isn't what the rules give. */
} fy_status;

/* The parts of a cluster file, in the order in which they are looked at. */
typedef enum fy_part {
    FY_WHOLE_FILE = 0,         /* No one part: the file is too long, or no TOML document. */
    FY_PART_JOURNAL_LIMIT = 1, /* journal_limit */
    FY_PART_POLICIES = 2,      /* policies */
    FY_PART_PROCESS = 3,       /* process */
    FY_PART_ACTOR = 4,         /* actor */
    FY_PART_PROTECT = 5,       /* protect */
    FY_PART_UNKNOWN = 6,       /* A key at the top that is none of these. */
} fy_part;

/* By which part of its place a process is meant. */
typedef enum fy_key {
    FY_EVERYONE = 0,    /* No part: every process, in a grant. No order may be of this key. */
    FY_PROCESS = 1,     /* processid */
    FY_MACHINE = 2,     /* machineid */
    FY_ZONE = 3,        /* zoneid */
    FY_DATA_HALL = 4,   /* data_hall */
    FY_DATA_CENTER = 5, /* dcid */
} fy_key;

/* What a kill does to a process, from the mildest to the hardest. */
typedef enum fy_kind {
    FY_NONE = 0,              /* Nothing struck; no order may be of this kind. */
    FY_REBOOT_PROCESS = 1,    /* Down; nothing on its disk is lost. */
    FY_REBOOT = 2,            /* Down; what its disk hasn't synced may be lost. */
    FY_REBOOT_AND_DELETE = 3, /* Down, and its disk is emptied. */
    FY_KILL_INSTANTLY = 4,    /* Gone for good, and its disk is emptied. */
} fy_kind;

/* A set of kinds: the sum of those that are in it. */
#define FY_KINDS_REBOOT_PROCESS 1u
#define FY_KINDS_REBOOT 2u
#define FY_KINDS_REBOOT_AND_DELETE 4u
#define FY_KINDS_KILL_INSTANTLY 8u
#define FY_KINDS_CLOG 16u /* Clogging, which is no kill. */
#define FY_KINDS_ALL 31u

/* Why the kind that was ordered is barred, the first that holds. */
typedef enum fy_rule {
    FY_NO_RULE = 0,            /* It isn't: it struck. */
    FY_NO_TARGET = 1,          /* No process that is left has the value. */
    FY_NO_GRANT = 2,           /* No grant of the actor covers the process that is named. */
    FY_PROTECTED = 3,          /* The process that is named is protected. */
    FY_TOO_MANY_DESTROYED = 4, /* The destroyed would satisfy the policy that is named. */
    FY_TOO_FEW_LEFT = 5,       /* Those left would be short of the policy that is named. */
} fy_rule;

/* Why an act is refused. */
typedef enum fy_refusal {
    FY_NOT_REFUSED = 0,
    FY_STRANGER = 1,       /* There is no actor with the number of whoever acts. */
    FY_WRONG_ROLE = 2,     /* The actor's role may not make this act. */
    FY_TOO_MANY = 3,       /* There are as many teams, or records, as there may be. */
    FY_NO_POLICY = 4,      /* There is no policy with this number. */
    FY_NO_PROCESS = 5,     /* There is no process with this number. */
    FY_GONE = 6,           /* The process is gone for good. */
    FY_TEAM_SHORT = 7,     /* The members don't satisfy the policy. */
    FY_NO_TEAM = 8,        /* There is no team with this number. */
    FY_PAYLOAD = 9,        /* The payload has more than 256 bytes. */
    FY_NET_FULL = 10,      /* There would be too many messages in flight. */
    FY_NO_MESSAGE = 11,    /* No message in flight has this number. */
    FY_CLOGGED = 12,       /* The message's process is clogged. */
    FY_NOT_UP = 13,        /* The process isn't up. */
    FY_NO_RECORD = 14,     /* There is no record with this number. */
    FY_NOT_MEMBER = 15,    /* The process is no member of the record's team. */
    FY_ACKED = 16,         /* The record is acknowledged. */
    FY_IS_UP = 17,         /* The process is up already. */
    FY_CLOCK_END = 18,     /* The time would be past its end. */
    FY_NO_ACTOR = 19,      /* There is no actor with the number that the act names. */
    FY_FULL = 20,          /* There are as many grants as there may be. */
    FY_NO_SUCH = 21,       /* The actor has no grant at this place. */
    FY_NO_COPY = 22,       /* The process hasn't synced the record that is to be copied. */
    FY_IS_MEMBER = 23,     /* The process is a member of the team already. */
    FY_NOT_DESTROYED = 24, /* The process isn't destroyed. */
    FY_STILL_NEEDS = 25,   /* The process lacks an acknowledged record of its team. */
} fy_refusal;

/* An audit is this and then the line of each entry. */
#define FY_AUDIT_HEADER "{\"audit\":2}\n"

/* How many bytes more than the line a buffer for fy_guard_act has room for. */
#define FY_MOST_REPLY 128

/* The most members of a team, and the most bytes of a payload that fy_guard_begin takes: the line
 * of its entry would else be too long for an audit. One of more than 256 bytes is refused. */
#define FY_MOST_MEMBERS 1024
#define FY_MOST_PAYLOAD 32000

/* How many words of 64 bits have a bit for each process, the first process lowest in the first. */
#define FY_SET_WORDS 16

/* What stands for a process or a record, and for a message, where there is none. */
#define FY_NOBODY UINT32_MAX
#define FY_NO_SUCH_RECORD UINT32_MAX
#define FY_NOTHING UINT64_MAX

/* The state of a process: the sum of those that hold. */
#define FY_STATE_UP 1u        /* It runs. */
#define FY_STATE_CLOGGED 2u   /* Its messages are held back. */
#define FY_STATE_DESTROYED 4u /* Struck by a kind that empties its disk, and not healed since. */
#define FY_STATE_GONE 8u      /* It was killed for good. */

/* The time, and what there is to do next. */
typedef struct fy_seen {
    uint64_t now;         /* The time, in ticks. */
    uint64_t deliverable; /* The least message that a deliver would accept now, or FY_NOTHING. */
    uint32_t unsynced;    /* The least process that is up and has unsynced writes, or FY_NOBODY. */
    uint32_t sleeping;    /* The least process that is neither up nor gone, or FY_NOBODY. */
} fy_seen;

/* How much of the cluster may still be lost: any so many processes together, whichever they are. */
typedef struct fy_borne {
    uint32_t emptied;       /* So many may be emptied, as by FY_REBOOT_AND_DELETE. */
    uint32_t gone;          /* So many may be killed for good, as by FY_KILL_INSTANTLY. */
    uint32_t emptied_exact; /* 1 where some set of one more may not be emptied; 0 where the search,
                               which is bounded, found none: more may be borne then. */
    uint32_t gone_exact;    /* The same of those killed for good. */
} fy_borne;

/* What became of an act that is made by numbers. The call says which fields it sets; all others are
 * 0. */
typedef struct fy_reply {
    uint32_t refusal; /* The fy_refusal; FY_NOT_REFUSED where the act isn't refused. */
    uint32_t rule;    /* The fy_rule that bars a clog or its end; FY_NO_RULE where none does. */
    uint64_t named;   /* The process that the rule names (FY_NO_GRANT, FY_PROTECTED); the policy
                         (FY_TEAM_SHORT) or the record (FY_STILL_NEEDS) that the refusal names. */
    uint32_t team;    /* The team that was formed. */
    uint32_t record;  /* The record that was begun. */
    uint64_t message; /* The first message that was sent. */
    uint64_t synced;  /* How many writes were synced. */
    uint64_t now;     /* The time, in ticks. */
    uint32_t marked;  /* 1 where an acknowledgement was delivered. */
    uint32_t acked;   /* 1 where the record of that acknowledgement is acknowledged now. */
} fy_reply;

/* ---- Plans and checks: their types */

/* The plans by which fault actors of `faultyard simulate` draw their orders (docs/COMMANDS.md). */
typedef enum fy_plan {
    FY_PLAN_MIXED = 1,
    FY_PLAN_ATTRITION = 2,
    FY_PLAN_SWIZZLE = 3,
    FY_PLAN_ROLLING = 4,
} fy_plan;

/* What an order of a plan asks for. */
typedef enum fy_order_act {
    FY_ORDER_NONE = 0,   /* Nothing: only fy_guard_plan_orders writes it. */
    FY_ORDER_KILL = 1,   /* fy_guard_kill */
    FY_ORDER_CLOG = 2,   /* the act clog */
    FY_ORDER_UNCLOG = 3, /* the act unclog */
} fy_order_act;

/* How many bytes the value of an order has: a name of 32 characters, and a zero behind it. */
#define FY_VALUE_BYTES 33

/* An order of a plan. A number that its act has no use for is 0. */
typedef struct fy_order {
    uint64_t ticks;             /* For how many ticks a clog lasts. */
    uint64_t tear;              /* Which unsynced writes a reboot keeps, as fy_guard_kill has it. */
    uint32_t act;               /* The fy_order_act. */
    uint32_t key;               /* The fy_key of the target. */
    uint32_t kind;              /* The fy_kind of a kill. */
    uint32_t floor;             /* The fy_kind of its floor. */
    char value[FY_VALUE_BYTES]; /* The value of the target, a text that ends with a zero. */
} fy_order;

/* No plan has more orders. */
#define FY_MOST_ORDERS 2048

/* An audit that is being checked. Only the calls below write it; all zeros, it is closed. The
 * struct may be moved in memory. Of a check there is one copy that is used. It may be moved to
 * another thread, and one call at a time is made with it. */
typedef struct fy_check {
    void *at;
} fy_check;

/* What stands for an entry, where none is bad. */
#define FY_NO_BAD_ENTRY UINT32_MAX

/* ---- The library's own calls, for other languages and for the calls below
 *
 * Nothing in them asks whether a guard is open or a pointer null: whoever calls them sees to it.
 * Pointers are never null, also where a length is 0. fy_open and fy_open_after take a closed guard,
 * all zeros, and so does fy_try_copy as its `other`. The guard that fy_close took is not used
 * again. A `set` has FY_SET_WORDS words. What each answers stands at the call of the same name
 * below. The same goes for a check, fy_begin_check and fy_end_check; their calls below are
 * fy_check_begin, fy_check_line, fy_check_finding, fy_check_end.
 */
uint32_t fy_version(void);
uint32_t fy_config_fault(const uint8_t *config, size_t config_length, uint32_t *part,
                         uint64_t *place);
uint32_t fy_open(const uint8_t *config, size_t config_length, fy_guard *guard);
uint32_t fy_open_after(const uint8_t *config, size_t config_length, const uint8_t *audit,
                       size_t audit_length, fy_guard *guard, uint32_t *first_bad);
void fy_close(fy_guard guard);
uint32_t fy_reset(fy_guard *guard);
uint32_t fy_try_copy(const fy_guard *guard, fy_guard *other);
uint32_t fy_kill(fy_guard *guard, uint32_t actor, uint32_t key, const uint8_t *value,
                 size_t value_length, uint32_t kind, uint32_t floor, uint64_t tear,
                 uint32_t *struck, uint32_t *rule, uint64_t *named);
uint32_t fy_judge(const fy_guard *guard, uint32_t actor, uint32_t key, const uint8_t *value,
                  size_t value_length, uint32_t kind, uint32_t floor, uint32_t *struck,
                  uint32_t *rule, uint64_t *named);
uint32_t fy_kill_process(fy_guard *guard, uint32_t actor, uint32_t process, uint32_t kind,
                         uint32_t floor, uint64_t tear, uint32_t *struck, uint32_t *rule,
                         uint64_t *named);
uint32_t fy_judge_process(const fy_guard *guard, uint32_t actor, uint32_t process, uint32_t kind,
                          uint32_t floor, uint32_t *struck, uint32_t *rule, uint64_t *named);
uint32_t fy_killable(const fy_guard *guard, uint32_t actor, uint8_t *kinds, size_t room,
                     size_t *told);
uint32_t fy_up(fy_guard *guard, uint32_t actor, uint32_t process, uint32_t *refusal);
uint32_t fy_heal(fy_guard *guard, uint32_t actor, uint32_t process, uint32_t *refusal);
uint32_t fy_clog(fy_guard *guard, uint32_t actor, uint32_t key, const uint8_t *value,
                 size_t value_length, uint64_t ticks, fy_reply *reply);
uint32_t fy_unclog(fy_guard *guard, uint32_t actor, uint32_t key, const uint8_t *value,
                   size_t value_length, fy_reply *reply);
uint32_t fy_form(fy_guard *guard, uint32_t actor, const uint32_t *members, size_t count,
                 uint32_t policy, fy_reply *reply);
uint32_t fy_begin(fy_guard *guard, uint32_t actor, uint32_t team, const uint8_t *payload,
                  size_t payload_length, fy_reply *reply);
uint32_t fy_deliver(fy_guard *guard, uint32_t actor, uint64_t message, fy_reply *reply);
uint32_t fy_lose(fy_guard *guard, uint32_t actor, uint64_t message, fy_reply *reply);
uint32_t fy_resend(fy_guard *guard, uint32_t actor, uint32_t record, uint32_t process,
                   fy_reply *reply);
uint32_t fy_sync(fy_guard *guard, uint32_t actor, uint32_t process, fy_reply *reply);
uint32_t fy_tick(fy_guard *guard, uint32_t actor, uint64_t ticks, fy_reply *reply);
uint32_t fy_give(fy_guard *guard, uint32_t actor, uint32_t to, uint32_t kinds, uint32_t key,
                 const uint8_t *value, size_t value_length, fy_reply *reply);
uint32_t fy_take(fy_guard *guard, uint32_t actor, uint32_t from, uint32_t index, fy_reply *reply);
uint32_t fy_protect(fy_guard *guard, uint32_t actor, uint32_t process, uint32_t kinds,
                    fy_reply *reply);
uint32_t fy_unprotect(fy_guard *guard, uint32_t actor, uint32_t process, uint32_t kinds,
                      fy_reply *reply);
uint32_t fy_copy(fy_guard *guard, uint32_t actor, uint32_t from, uint32_t record, uint32_t to,
                 fy_reply *reply);
uint32_t fy_replace(fy_guard *guard, uint32_t actor, uint32_t team, uint32_t out, uint32_t into,
                    fy_reply *reply);
uint32_t fy_act(fy_guard *guard, const uint8_t *line, size_t line_length, uint8_t *buffer,
                size_t buffer_length, size_t *told);
uint32_t fy_ask(const fy_guard *guard, const uint8_t *line, size_t line_length, uint8_t *buffer,
                size_t buffer_length, size_t *told);
uint32_t fy_process(const fy_guard *guard, const uint8_t *name, size_t name_length);
uint32_t fy_process_count(const fy_guard *guard);
uint32_t fy_targets(const fy_guard *guard, uint32_t key, const uint8_t *value, size_t value_length,
                    uint64_t *set, size_t words);
uint32_t fy_is_destroyed(const fy_guard *guard, uint32_t process);
void fy_left(const fy_guard *guard, uint64_t *set, size_t words);
void fy_up_set(const fy_guard *guard, uint64_t *set, size_t words);
uint32_t fy_state(const fy_guard *guard, uint32_t process);
uint32_t fy_needed(const fy_guard *guard, uint32_t process);
void fy_destroyed_set(const fy_guard *guard, uint64_t *set, size_t words);
void fy_gone_set(const fy_guard *guard, uint64_t *set, size_t words);
uint32_t fy_is_acked(const fy_guard *guard, uint32_t record);
uint32_t fy_keeper(const fy_guard *guard, uint32_t record);
void fy_sight(const fy_guard *guard, fy_seen *seen);
uint32_t fy_bears(const fy_guard *guard, fy_borne *borne);
size_t fy_journal_len(const fy_guard *guard);
uint32_t fy_audit(const fy_guard *guard, size_t at, uint8_t *buffer, size_t buffer_length,
                  size_t *told);
uint32_t fy_words(uint64_t seed, uint64_t stream, uint32_t *words, size_t count);
uint32_t fy_swizzle_plan(const fy_guard *guard, uint64_t seed, uint64_t stream, uint64_t ticks,
                         fy_order *orders, size_t room, size_t *told);
uint32_t fy_attrition_plan(const fy_guard *guard, uint64_t seed, uint64_t stream, uint32_t to_kill,
                           uint32_t to_leave, uint32_t kind, uint32_t floor, uint64_t tear,
                           fy_order *orders, size_t room, size_t *told);
uint32_t fy_plan_orders(const fy_guard *guard, uint32_t plan, uint64_t seed, uint32_t actor,
                        fy_order *orders, size_t count);
uint32_t fy_begin_check(const uint8_t *config, size_t config_length, fy_check *check);
void fy_end_check(fy_check check);
uint32_t fy_read_line(fy_check *check, const uint8_t *line, size_t line_length,
                      uint32_t *first_bad);
uint32_t fy_finding(const fy_check *check, uint32_t *count, uint32_t *first_bad);

/* ---- The calls of a C program */

/* Opens a guard of a cluster in which nothing happened yet, by the text of a cluster file. What the
 * struct was is written over; where the guard isn't opened, it is closed.
 *
 * FY_CLOSED where a pointer is null; FY_NO_MEMORY; FY_CONFIG_TOO_LONG to FY_CONFIG_UNMET, the first
 * that holds, where the text is no cluster file. */
static inline fy_status fy_guard_open(const char *config, size_t length, fy_guard *guard)
{
    if (guard == NULL)
        return FY_CLOSED;
    guard->at = NULL;
    if (config == NULL)
        return FY_CLOSED;
    return (fy_status)fy_open((const uint8_t *)config, length, guard);
}

/* Opens a guard that goes on where an audit ends: its journal is that of the audit, whose acts are
 * made once more, and the next entry has the next number. So the lines that fy_guard_audit writes
 * from then on make one audit with it. The audit is its whole text, FY_AUDIT_HEADER and the lines
 * of entries. What the struct was is written over; where the guard isn't opened, it is closed.
 *
 * `*first_bad` is the place of the entry, from 0, that isn't what the rules give, after FY_REFUTED,
 * and else FY_NO_BAD_ENTRY. Half a last line, as a crash leaves one, is FY_LINE_SYNTAX: cut the
 * text behind its last line feed.
 *
 * In this order: FY_CLOSED where a pointer is null; the statuses of fy_guard_open for a text that
 * is no cluster file; FY_AUDIT_TOO_LONG; FY_NO_HEADER, also for an audit of the first version; then
 * of the first line that is at fault FY_LINE_TOO_LONG, FY_LINE_SYNTAX or FY_REFUTED. FY_NO_MEMORY
 * may take the place of any but FY_CLOSED, FY_AUDIT_TOO_LONG and FY_NO_HEADER. */
static inline fy_status fy_guard_open_after(const char *config, size_t length, const char *audit,
                                            size_t audit_length, fy_guard *guard,
                                            uint32_t *first_bad)
{
    if (guard == NULL)
        return FY_CLOSED;
    guard->at = NULL;
    if (config == NULL || audit == NULL || first_bad == NULL)
        return FY_CLOSED;
    return (fy_status)fy_open_after((const uint8_t *)config, length, (const uint8_t *)audit,
                                    audit_length, guard, first_bad);
}

/* The first fault of a text that is no cluster file. The status is the one with which fy_guard_open
 * refuses it; FY_DONE where it has no fault. `*part` is the fy_part that the fault is in. `*place`
 * is its place there, from 0: that of the process, actor or protection after FY_CONFIG_NAME, that
 * of the policy after FY_CONFIG_POLICY and FY_CONFIG_UNMET, and else 0. Both are 0 after FY_DONE
 * and FY_NO_MEMORY.
 *
 * FY_CLOSED where a pointer is null, else FY_DONE, FY_NO_MEMORY, or FY_CONFIG_TOO_LONG to
 * FY_CONFIG_UNMET. */
static inline fy_status fy_guard_config_fault(const char *config, size_t length, uint32_t *part,
                                              uint64_t *place)
{
    if (config == NULL || part == NULL || place == NULL)
        return FY_CLOSED;
    return (fy_status)fy_config_fault((const uint8_t *)config, length, part, place);
}

/* Frees what a guard holds, and closes it; of a guard that is closed, or of null, nothing. */
static inline void fy_guard_close(fy_guard *guard)
{
    fy_guard held;
    if (guard == NULL || guard->at == NULL)
        return;
    held = *guard;
    guard->at = NULL;
    fy_close(held);
}

static inline int fy_guard_is_open(const fy_guard *guard)
{
    return guard != NULL && guard->at != NULL;
}

/* Puts a guard back to where nothing happened yet, without its cluster file being read again.
 *
 * Before it frees anything it asks for the memory of a new guard, so after FY_NO_MEMORY nothing
 * changed. How much that is doesn't depend on the journal. Where it can't be had, close the guard
 * and open it again: closing frees first.
 *
 * In this order: FY_CLOSED, FY_NO_MEMORY. */
static inline fy_status fy_guard_reset(fy_guard *guard)
{
    if (!fy_guard_is_open(guard))
        return FY_CLOSED;
    return (fy_status)fy_reset(guard);
}

/* Opens a second guard with the journal of an open one, to look ahead: what is done with one
 * changes nothing of the other, and each is closed. The state is copied, and no act of the journal
 * is made again. What `*other` was is written over; where it isn't opened, it is closed.
 *
 * FY_CLOSED where the guard isn't open, or a pointer is null; and where both pointers are the same,
 * whose guard stays open. FY_NO_MEMORY. */
static inline fy_status fy_guard_try_copy(const fy_guard *guard, fy_guard *other)
{
    if (other == NULL || other == guard)
        return FY_CLOSED;
    other->at = NULL;
    if (!fy_guard_is_open(guard))
        return FY_CLOSED;
    return (fy_status)fy_try_copy(guard, other);
}

/* Orders a kill: by this actor, of the processes whose key has the value (a text that ends with a
 * zero), by the kind, or where it is barred by a milder one down to the floor. Bit i of `tear` is
 * 1 where a reboot keeps the unsynced write i of each process that it strikes; from write 64 on it
 * keeps none.
 *
 * `*struck` is the fy_kind that struck: do that to each process of the target that isn't gone, the
 * set of which fy_guard_targets writes before the kill.
 * `*rule` is the fy_rule that bars the kind that was ordered, and `*named` the number of the
 * process (FY_NO_GRANT, FY_PROTECTED) or of the policy (FY_TOO_MANY_DESTROYED, FY_TOO_FEW_LEFT)
 * that it names. All three are 0 after any status but FY_DONE and FY_CLOSED.
 *
 * A process that died without an order is told as a kill of it, with the floor FY_REBOOT_PROCESS:
 * by FY_REBOOT where its data is there, by FY_REBOOT_AND_DELETE where its data is gone. Where that
 * is answered with less than FY_REBOOT_AND_DELETE, more was destroyed than the policies bear, and
 * the guard doesn't know it: what it promises of records ends there. Open a new guard once every
 * process has every record. A process that others kill, or whose data others remove, is such a
 * death.
 *
 * In this order: FY_CLOSED; FY_ARGUMENT where the key, the kind or the floor is none; FY_NAME;
 * FY_FLOOR; FY_JOURNAL_FULL; FY_NO_MEMORY. FY_REFUSED where there is no actor with this number. */
static inline fy_status fy_guard_kill(fy_guard *guard, uint32_t actor, fy_key key,
                                      const char *value, fy_kind kind, fy_kind floor, uint64_t tear,
                                      uint32_t *struck, uint32_t *rule, uint64_t *named)
{
    if (!fy_guard_is_open(guard) || value == NULL || struck == NULL || rule == NULL ||
        named == NULL)
        return FY_CLOSED;
    return (fy_status)fy_kill(guard, actor, (uint32_t)key, (const uint8_t *)value, strlen(value),
                              (uint32_t)kind, (uint32_t)floor, tear, struck, rule, named);
}

/* What fy_guard_kill would answer now to the same order, if the journal had room. It enters
 * nothing, and doesn't allocate. `*struck`, `*rule` and `*named` are those of fy_guard_kill.
 *
 * In this order: FY_CLOSED; FY_ARGUMENT where the key, the kind or the floor is none; FY_NAME;
 * FY_FLOOR; FY_REFUSED where there is no actor with this number. */
static inline fy_status fy_guard_judge(const fy_guard *guard, uint32_t actor, fy_key key,
                                       const char *value, fy_kind kind, fy_kind floor,
                                       uint32_t *struck, uint32_t *rule, uint64_t *named)
{
    if (!fy_guard_is_open(guard) || value == NULL || struck == NULL || rule == NULL ||
        named == NULL)
        return FY_CLOSED;
    return (fy_status)fy_judge(guard, actor, (uint32_t)key, (const uint8_t *)value, strlen(value),
                               (uint32_t)kind, (uint32_t)floor, struck, rule, named);
}

/* Orders a kill of the process with this number: what fy_guard_kill does with FY_PROCESS and the
 * process's name, and the same entry in the journal. No name is read or looked up, so it is
 * quicker. `*struck`, `*rule` and `*named` are those of fy_guard_kill.
 *
 * In this order: FY_CLOSED; FY_ARGUMENT where the kind or the floor is none, or no process has this
 * number: there is no name to enter, so nothing is entered; FY_FLOOR; FY_JOURNAL_FULL;
 * FY_NO_MEMORY. FY_REFUSED where there is no actor with this number. */
static inline fy_status fy_guard_kill_process(fy_guard *guard, uint32_t actor, uint32_t process,
                                              fy_kind kind, fy_kind floor, uint64_t tear,
                                              uint32_t *struck, uint32_t *rule, uint64_t *named)
{
    if (!fy_guard_is_open(guard) || struck == NULL || rule == NULL || named == NULL)
        return FY_CLOSED;
    return (fy_status)fy_kill_process(guard, actor, process, (uint32_t)kind, (uint32_t)floor, tear,
                                      struck, rule, named);
}

/* What fy_guard_kill_process would answer now to the same order, if the journal had room. It enters
 * nothing, and doesn't allocate. `*struck`, `*rule` and `*named` are those of fy_guard_kill.
 *
 * In this order: FY_CLOSED; FY_ARGUMENT where the kind or the floor is none, or no process has this
 * number; FY_FLOOR; FY_REFUSED where there is no actor with this number. */
static inline fy_status fy_guard_judge_process(const fy_guard *guard, uint32_t actor,
                                               uint32_t process, fy_kind kind, fy_kind floor,
                                               uint32_t *struck, uint32_t *rule, uint64_t *named)
{
    if (!fy_guard_is_open(guard) || struck == NULL || rule == NULL || named == NULL)
        return FY_CLOSED;
    return (fy_status)fy_judge_process(guard, actor, process, (uint32_t)kind, (uint32_t)floor,
                                       struck, rule, named);
}

/* Which processes may still be killed, and how hard. Byte p of the buffer is the fy_kind by which a
 * kill of process p alone would strike now, ordered by this actor by FY_KILL_INSTANTLY with the
 * floor FY_REBOOT_PROCESS: FY_NONE where nothing would strike. It is what fy_guard_judge_process
 * tells of that order. Each process is judged by itself: once one is killed, fewer may be.
 *
 * `*told` is how many processes there are. The buffer has room for so many bytes, and what is
 * behind the processes in it stays as it was. It enters nothing, and doesn't allocate.
 *
 * In this order: FY_CLOSED; FY_REFUSED where there is no actor with this number; FY_SHORT where the
 * buffer has fewer bytes than there are processes. Nothing is written to the buffer then. */
static inline fy_status fy_guard_killable(const fy_guard *guard, uint32_t actor, uint8_t *kinds,
                                          size_t room, size_t *told)
{
    if (!fy_guard_is_open(guard) || kinds == NULL || told == NULL)
        return FY_CLOSED;
    return (fy_status)fy_killable(guard, actor, kinds, room, told);
}

/* Says that a process runs again, by an actor whose role is storage. `*refusal` is the fy_refusal.
 *
 * In this order: FY_CLOSED, FY_JOURNAL_FULL, FY_NO_MEMORY. FY_REFUSED where it is up, gone or not
 * there, or where the actor may not say so. */
static inline fy_status fy_guard_up(fy_guard *guard, uint32_t actor, uint32_t process,
                                    uint32_t *refusal)
{
    if (!fy_guard_is_open(guard) || refusal == NULL)
        return FY_CLOSED;
    return (fy_status)fy_up(guard, actor, process, refusal);
}

/* Says that a process that was destroyed has every acknowledged record on its disk again, by an
 * actor whose role is storage. `*refusal` is the fy_refusal. After FY_STILL_NEEDS fy_guard_needed
 * answers the record that the refusal names, until the next act. Statuses as of fy_guard_up. */
static inline fy_status fy_guard_heal(fy_guard *guard, uint32_t actor, uint32_t process,
                                      uint32_t *refusal)
{
    if (!fy_guard_is_open(guard) || refusal == NULL)
        return FY_CLOSED;
    return (fy_status)fy_heal(guard, actor, process, refusal);
}

/* ---- Acts by numbers
 *
 * Each of these fifteen makes one act by an actor, enters it into the journal, and writes all of
 * `*reply`. No text is made and read again. docs/FORMATS.md says what each act does.
 *
 * FY_DONE       The fields that the call names are set, and all others are 0.
 * FY_REFUSED    The act stands in the journal all the same. `refusal` is the first of FY_STRANGER,
 *               FY_WRONG_ROLE and those that the call names that holds. `named` is the policy after
 *               FY_TEAM_SHORT, and the record after FY_STILL_NEEDS. All other fields are 0.
 * any other     Nothing changed, and all fields are 0. But after FY_CLOSED nothing is written.
 *
 * In this order: FY_CLOSED, those that the call names, FY_JOURNAL_FULL, FY_NO_MEMORY. FY_CLOSED is
 * answered where a pointer is null, too.
 */

/* Holds back the messages of each process whose key has the value (a text that ends with a zero)
 * for so many ticks, at most up to the clock's end. By any actor.
 *
 * Sets `rule` and `named`: FY_NO_RULE where it is done, else the rule that bars it. Rules are no
 * refusals: the status is FY_DONE. FY_ARGUMENT where the key is none; FY_NAME. Refusals:
 * FY_STRANGER alone. */
static inline fy_status fy_guard_clog(fy_guard *guard, uint32_t actor, fy_key key,
                                      const char *value, uint64_t ticks, fy_reply *reply)
{
    if (!fy_guard_is_open(guard) || value == NULL || reply == NULL)
        return FY_CLOSED;
    return (fy_status)fy_clog(guard, actor, (uint32_t)key, (const uint8_t *)value, strlen(value),
                              ticks, reply);
}

/* Ends the clogs of each process whose key has the value. All else is as of fy_guard_clog. */
static inline fy_status fy_guard_unclog(fy_guard *guard, uint32_t actor, fy_key key,
                                        const char *value, fy_reply *reply)
{
    if (!fy_guard_is_open(guard) || value == NULL || reply == NULL)
        return FY_CLOSED;
    return (fy_status)fy_unclog(guard, actor, (uint32_t)key, (const uint8_t *)value, strlen(value),
                                reply);
}

/* Forms a team of so many processes, each number above the one before it, under a policy. By an
 * actor whose role is storage.
 *
 * Sets `team`. FY_ARGUMENT where the numbers don't rise, or are more than FY_MOST_MEMBERS.
 * Refusals: FY_TOO_MANY, FY_NO_POLICY, FY_NO_PROCESS, FY_GONE, FY_TEAM_SHORT. */
static inline fy_status fy_guard_form(fy_guard *guard, uint32_t actor, const uint32_t *members,
                                      size_t count, uint32_t policy, fy_reply *reply)
{
    if (!fy_guard_is_open(guard) || members == NULL || reply == NULL)
        return FY_CLOSED;
    return (fy_status)fy_form(guard, actor, members, count, policy, reply);
}

/* Begins a record for a team, and sends each member a store message. By an actor whose role is
 * storage.
 *
 * Sets `record`, and `message`: that of the first member. The messages of the others have the
 * numbers behind it. FY_ARGUMENT where the payload has more than FY_MOST_PAYLOAD bytes. Refusals:
 * FY_NO_TEAM, FY_PAYLOAD, FY_TOO_MANY, FY_NET_FULL. */
static inline fy_status fy_guard_begin(fy_guard *guard, uint32_t actor, uint32_t team,
                                       const void *payload, size_t length, fy_reply *reply)
{
    if (!fy_guard_is_open(guard) || payload == NULL || reply == NULL)
        return FY_CLOSED;
    return (fy_status)fy_begin(guard, actor, team, (const uint8_t *)payload, length, reply);
}

/* Delivers a message in flight. By an actor whose role is storage.
 *
 * Sets `marked` and `acked`: after a store message both are 0. Refusals: FY_NO_MESSAGE, FY_CLOGGED,
 * FY_NOT_UP. */
static inline fy_status fy_guard_deliver(fy_guard *guard, uint32_t actor, uint64_t message,
                                         fy_reply *reply)
{
    if (!fy_guard_is_open(guard) || reply == NULL)
        return FY_CLOSED;
    return (fy_status)fy_deliver(guard, actor, message, reply);
}

/* Drops a message in flight. By an actor whose role is storage.
 *
 * Sets no field. Refusal: FY_NO_MESSAGE. */
static inline fy_status fy_guard_lose(fy_guard *guard, uint32_t actor, uint64_t message,
                                      fy_reply *reply)
{
    if (!fy_guard_is_open(guard) || reply == NULL)
        return FY_CLOSED;
    return (fy_status)fy_lose(guard, actor, message, reply);
}

/* Sends a member of a record's team the store message of the record again. By an actor whose role
 * is storage.
 *
 * Sets `message`. Refusals: FY_NO_RECORD, FY_NOT_MEMBER, FY_ACKED, FY_NET_FULL. */
static inline fy_status fy_guard_resend(fy_guard *guard, uint32_t actor, uint32_t record,
                                        uint32_t process, fy_reply *reply)
{
    if (!fy_guard_is_open(guard) || reply == NULL)
        return FY_CLOSED;
    return (fy_status)fy_resend(guard, actor, record, process, reply);
}

/* Syncs what a process has written, and sends an acknowledgement of each write. By an actor whose
 * role is storage.
 *
 * Sets `synced`, and `message`: that of the first write. The messages of the others have the
 * numbers behind it. Where nothing was synced it is the number that the next message gets.
 * Refusals: FY_NO_PROCESS, FY_NOT_UP, FY_NET_FULL. */
static inline fy_status fy_guard_sync(fy_guard *guard, uint32_t actor, uint32_t process,
                                      fy_reply *reply)
{
    if (!fy_guard_is_open(guard) || reply == NULL)
        return FY_CLOSED;
    return (fy_status)fy_sync(guard, actor, process, reply);
}

/* Lets time pass. By an actor whose role is storage.
 *
 * Sets `now`. Refusal: FY_CLOCK_END. */
static inline fy_status fy_guard_tick(fy_guard *guard, uint32_t actor, uint64_t ticks,
                                      fy_reply *reply)
{
    if (!fy_guard_is_open(guard) || reply == NULL)
        return FY_CLOSED;
    return (fy_status)fy_tick(guard, actor, ticks, reply);
}

/* Gives the actor `to` a grant of a set of kinds: on the processes whose key has the value, or on
 * every process where the key is FY_EVERYONE; the value may be null then, and isn't looked at. By
 * an actor whose role is operator.
 *
 * Sets no field. FY_ARGUMENT where a bit is that of no kind, or the key none; FY_NAME. Refusals:
 * FY_NO_ACTOR, FY_FULL. */
static inline fy_status fy_guard_give(fy_guard *guard, uint32_t actor, uint32_t to, uint32_t kinds,
                                      fy_key key, const char *value, fy_reply *reply)
{
    if (key == FY_EVERYONE)
        value = "";
    if (!fy_guard_is_open(guard) || value == NULL || reply == NULL)
        return FY_CLOSED;
    return (fy_status)fy_give(guard, actor, to, kinds, (uint32_t)key, (const uint8_t *)value,
                              strlen(value), reply);
}

/* Takes away the grant at a place, from 0, of the list of the actor `from`. By an actor whose role
 * is operator.
 *
 * Sets no field. Refusals: FY_NO_ACTOR, FY_NO_SUCH. */
static inline fy_status fy_guard_take(fy_guard *guard, uint32_t actor, uint32_t from,
                                      uint32_t index, fy_reply *reply)
{
    if (!fy_guard_is_open(guard) || reply == NULL)
        return FY_CLOSED;
    return (fy_status)fy_take(guard, actor, from, index, reply);
}

/* Bars a set of kinds on a process, for every actor. By an actor whose role is operator.
 *
 * Sets no field. FY_ARGUMENT where a bit is that of no kind. Refusal: FY_NO_PROCESS. */
static inline fy_status fy_guard_protect(fy_guard *guard, uint32_t actor, uint32_t process,
                                         uint32_t kinds, fy_reply *reply)
{
    if (!fy_guard_is_open(guard) || reply == NULL)
        return FY_CLOSED;
    return (fy_status)fy_protect(guard, actor, process, kinds, reply);
}

/* Bars a set of kinds on a process no longer. All else is as of fy_guard_protect. */
static inline fy_status fy_guard_unprotect(fy_guard *guard, uint32_t actor, uint32_t process,
                                           uint32_t kinds, fy_reply *reply)
{
    if (!fy_guard_is_open(guard) || reply == NULL)
        return FY_CLOSED;
    return (fy_status)fy_unprotect(guard, actor, process, kinds, reply);
}

/* Sends the store message of a record from a process that has it synced to another, a member of its
 * team or not. By an actor whose role is storage.
 *
 * Sets `message`. Refusals: FY_NO_RECORD, FY_NO_PROCESS, FY_GONE (of `to`), FY_NOT_UP and
 * FY_NO_COPY (of `from`), FY_NET_FULL. */
static inline fy_status fy_guard_copy(fy_guard *guard, uint32_t actor, uint32_t from,
                                      uint32_t record, uint32_t to, fy_reply *reply)
{
    if (!fy_guard_is_open(guard) || reply == NULL)
        return FY_CLOSED;
    return (fy_status)fy_copy(guard, actor, from, record, to, reply);
}

/* Puts the process `into` into a team in place of the member `out`. By an actor whose role is
 * storage.
 *
 * Sets no field. Refusals: FY_NO_TEAM, FY_NO_PROCESS (of `into`), FY_NOT_MEMBER (of `out`),
 * FY_IS_MEMBER, FY_GONE, FY_TEAM_SHORT, FY_STILL_NEEDS (of `into`). */
static inline fy_status fy_guard_replace(fy_guard *guard, uint32_t actor, uint32_t team,
                                         uint32_t out, uint32_t into, fy_reply *reply)
{
    if (!fy_guard_is_open(guard) || reply == NULL)
        return FY_CLOSED;
    return (fy_status)fy_replace(guard, actor, team, out, into, reply);
}

/* Makes any act: `line` is a line of a script (docs/FORMATS.md). The line of its entry, which ends
 * with a line feed and has no zero behind it, is written to the front of the buffer, and `*told` is
 * how many bytes it has. What is behind it in the buffer stays as it was. It is what `faultyard
 * guard` answers to the same line.
 *
 * FY_SHORT where the buffer has fewer than `length` + FY_MOST_REPLY bytes: `*told` is that sum, or
 * SIZE_MAX where it is more, and nothing is done, whatever the line is. Then in this order:
 * FY_LINE_TOO_LONG, FY_LINE_SYNTAX, FY_FLOOR, FY_JOURNAL_FULL. FY_NO_MEMORY may take the place of
 * any of these. After each of them `*told` is that sum. An act that is refused is FY_DONE: its line
 * has the refusal. */
static inline fy_status fy_guard_act(fy_guard *guard, const char *line, size_t length, char *buffer,
                                     size_t buffer_length, size_t *told)
{
    if (!fy_guard_is_open(guard) || line == NULL || buffer == NULL || told == NULL)
        return FY_CLOSED;
    if (length > SIZE_MAX - FY_MOST_REPLY) {
        *told = SIZE_MAX;
        return FY_SHORT;
    }
    return (fy_status)fy_act(guard, (const uint8_t *)line, length, (uint8_t *)buffer, buffer_length,
                             told);
}

/* Asks a question: `line` is a line that asks, as `faultyard guard --questions` takes it
 * (docs/FORMATS.md). The line of what is told, which ends with a line feed and has no zero behind
 * it, is written to the front of the buffer, and `*told` is how many bytes it has. What is behind
 * it in the buffer stays as it was. It is what the guard answers to the same line. Nothing changes.
 *
 * In this order: FY_LINE_TOO_LONG, FY_LINE_SYNTAX, FY_FLOOR for a line that is no question;
 * FY_NO_MEMORY may take the place of any of these but the first. `*told` stays then. FY_SHORT where
 * the line of what is told is longer than the buffer: `*told` is its length. */
static inline fy_status fy_guard_ask(const fy_guard *guard, const char *line, size_t length,
                                     char *buffer, size_t buffer_length, size_t *told)
{
    if (!fy_guard_is_open(guard) || line == NULL || buffer == NULL || told == NULL)
        return FY_CLOSED;
    return (fy_status)fy_ask(guard, (const uint8_t *)line, length, (uint8_t *)buffer, buffer_length,
                             told);
}

/* The number of the process whose processid is a name (a text that ends with a zero), or FY_NOBODY.
 * FY_CLOSED, else FY_DONE. */
static inline fy_status fy_guard_process(const fy_guard *guard, const char *name, uint32_t *process)
{
    if (!fy_guard_is_open(guard) || name == NULL || process == NULL)
        return FY_CLOSED;
    *process = fy_process(guard, (const uint8_t *)name, strlen(name));
    return FY_DONE;
}

/* How many processes there are; they are numbered from 0. FY_CLOSED, else FY_DONE. */
static inline fy_status fy_guard_process_count(const fy_guard *guard, uint32_t *count)
{
    if (!fy_guard_is_open(guard) || count == NULL)
        return FY_CLOSED;
    *count = fy_process_count(guard);
    return FY_DONE;
}

/* Whom a kill of this key and value is about, as fy_guard_left writes a set: each process that has
 * the value and isn't gone for good, emptied or not.
 *
 * In this order: FY_CLOSED; FY_ARGUMENT where the key is none; FY_NAME. Nothing is written then. */
static inline fy_status fy_guard_targets(const fy_guard *guard, fy_key key, const char *value,
                                         uint64_t set[FY_SET_WORDS])
{
    if (!fy_guard_is_open(guard) || value == NULL || set == NULL)
        return FY_CLOSED;
    return (fy_status)fy_targets(guard, (uint32_t)key, (const uint8_t *)value, strlen(value), set,
                                 FY_SET_WORDS);
}

/* Whether a process is destroyed, 1 or 0: struck by a kind that empties its disk, and not healed
 * since. FY_CLOSED, else FY_DONE. */
static inline fy_status fy_guard_is_destroyed(const fy_guard *guard, uint32_t process,
                                              int *destroyed)
{
    if (!fy_guard_is_open(guard) || destroyed == NULL)
        return FY_CLOSED;
    *destroyed = fy_is_destroyed(guard, process) != 0;
    return FY_DONE;
}

/* Who is left: bit p % 64 of word p / 64 is 1 where there is a process p that isn't gone for good,
 * emptied or not. FY_CLOSED, else FY_DONE. */
static inline fy_status fy_guard_left(const fy_guard *guard, uint64_t set[FY_SET_WORDS])
{
    if (!fy_guard_is_open(guard) || set == NULL)
        return FY_CLOSED;
    fy_left(guard, set, FY_SET_WORDS);
    return FY_DONE;
}

/* Who is up; the set is written as fy_guard_left writes it. FY_CLOSED, else FY_DONE. */
static inline fy_status fy_guard_up_set(const fy_guard *guard, uint64_t set[FY_SET_WORDS])
{
    if (!fy_guard_is_open(guard) || set == NULL)
        return FY_CLOSED;
    fy_up_set(guard, set, FY_SET_WORDS);
    return FY_DONE;
}

/* The state of a process: the sum of FY_STATE_UP, FY_STATE_CLOGGED, FY_STATE_DESTROYED and
 * FY_STATE_GONE, each where it holds; FY_NOBODY where there is no process with this number.
 * FY_CLOSED, else FY_DONE. */
static inline fy_status fy_guard_state(const fy_guard *guard, uint32_t process, uint32_t *state)
{
    if (!fy_guard_is_open(guard) || state == NULL)
        return FY_CLOSED;
    *state = fy_state(guard, process);
    return FY_DONE;
}

/* The record that a process still needs before it may be healed, the one that FY_STILL_NEEDS of
 * fy_guard_heal is about: of its teams' records, the least acknowledged one that it hasn't synced.
 * FY_NO_SUCH_RECORD where there is none, or no process with this number. FY_CLOSED, else
 * FY_DONE. */
static inline fy_status fy_guard_needed(const fy_guard *guard, uint32_t process, uint32_t *record)
{
    if (!fy_guard_is_open(guard) || record == NULL)
        return FY_CLOSED;
    *record = fy_needed(guard, process);
    return FY_DONE;
}

/* Who is destroyed, gone for good or not; the set is written as fy_guard_left writes it. FY_CLOSED,
 * else FY_DONE. */
static inline fy_status fy_guard_destroyed_set(const fy_guard *guard, uint64_t set[FY_SET_WORDS])
{
    if (!fy_guard_is_open(guard) || set == NULL)
        return FY_CLOSED;
    fy_destroyed_set(guard, set, FY_SET_WORDS);
    return FY_DONE;
}

/* Who is gone for good; the set is written as fy_guard_left writes it. FY_CLOSED, else FY_DONE. */
static inline fy_status fy_guard_gone_set(const fy_guard *guard, uint64_t set[FY_SET_WORDS])
{
    if (!fy_guard_is_open(guard) || set == NULL)
        return FY_CLOSED;
    fy_gone_set(guard, set, FY_SET_WORDS);
    return FY_DONE;
}

/* Whether a record is acknowledged, 1 or 0. FY_CLOSED, else FY_DONE. */
static inline fy_status fy_guard_is_acked(const fy_guard *guard, uint32_t record, int *acked)
{
    if (!fy_guard_is_open(guard) || acked == NULL)
        return FY_CLOSED;
    *acked = fy_is_acked(guard, record) != 0;
    return FY_DONE;
}

/* Who keeps an acknowledged record: the least member of its team that isn't destroyed and has the
 * record synced. FY_NOBODY for any other record. FY_CLOSED, else FY_DONE. */
static inline fy_status fy_guard_keeper(const fy_guard *guard, uint32_t record, uint32_t *process)
{
    if (!fy_guard_is_open(guard) || process == NULL)
        return FY_CLOSED;
    *process = fy_keeper(guard, record);
    return FY_DONE;
}

/* The time, and what there is to do next. FY_CLOSED, else FY_DONE. */
static inline fy_status fy_guard_sight(const fy_guard *guard, fy_seen *seen)
{
    if (!fy_guard_is_open(guard) || seen == NULL)
        return FY_CLOSED;
    fy_sight(guard, seen);
    return FY_DONE;
}

/* How much of the cluster may still be lost, as the journal left it: the numbers that `faultyard
 * bears CONFIG --after AUDIT` tells first. By all policies any so many processes may be lost
 * together, those lost already among them. Grants and protections don't count. 0 is always exact:
 * some single process is too many then. It enters nothing.
 *
 * In this order: FY_CLOSED; FY_NO_MEMORY: nothing is written then. */
static inline fy_status fy_guard_bears(const fy_guard *guard, fy_borne *borne)
{
    if (!fy_guard_is_open(guard) || borne == NULL)
        return FY_CLOSED;
    return (fy_status)fy_bears(guard, borne);
}

/* How many entries the journal has. FY_CLOSED, else FY_DONE. */
static inline fy_status fy_guard_journal_len(const fy_guard *guard, size_t *count)
{
    if (!fy_guard_is_open(guard) || count == NULL)
        return FY_CLOSED;
    *count = fy_journal_len(guard);
    return FY_DONE;
}

/* Writes the line of the entry at a place of the journal, from 0, to the front of the buffer, and
 * to `*told` how many bytes it has. What is behind it in the buffer stays as it was.
 * FY_AUDIT_HEADER and these lines are the audit that `faultyard check` reads. It asks for memory
 * for this one line, at once for at most twice its bytes.
 *
 * In this order: FY_CLOSED; FY_NO_ENTRY; FY_NO_MEMORY; FY_SHORT where the buffer has fewer bytes
 * than the line, and `*told` is how many that has. After the first three nothing is written to
 * it. */
static inline fy_status fy_guard_audit(const fy_guard *guard, size_t at, char *buffer,
                                       size_t buffer_length, size_t *told)
{
    if (!fy_guard_is_open(guard) || buffer == NULL || told == NULL)
        return FY_CLOSED;
    return (fy_status)fy_audit(guard, at, (uint8_t *)buffer, buffer_length, told);
}

/* ---- Plans that are drawn from a seed */

/* Writes `count` words: the first of a stream of the seed, pseudo-random words of ChaCha with eight
 * rounds (docs/FORMATS.md). A swarm's actor a draws from the stream a.
 *
 * In this order: FY_CLOSED; FY_NO_MEMORY: nothing is written then. */
static inline fy_status fy_guard_words(uint64_t seed, uint64_t stream, uint32_t *words,
                                       size_t count)
{
    if (words == NULL)
        return FY_CLOSED;
    return (fy_status)fy_words(seed, stream, words, count);
}

/* Writes a swizzle to the front of a buffer with room for so many orders: clogs, each for so many
 * ticks, of processes that are drawn from a stream of the seed, and then the end of each clog, in
 * another order. `*told` is how many orders it has. What is behind them in the buffer stays as it
 * was. `faultyard swarm` gives it to the first, third, .. of its fault actors, for 10 ticks; the
 * stream is the actor's number. Nothing is entered.
 *
 * In this order: FY_CLOSED; FY_NO_MEMORY: `*told` is 0; FY_SHORT where there is room for fewer
 * orders, and `*told` is how many there are. Nothing is written to the buffer then. */
static inline fy_status fy_guard_swizzle_plan(const fy_guard *guard, uint64_t seed, uint64_t stream,
                                              uint64_t ticks, fy_order *orders, size_t room,
                                              size_t *told)
{
    if (!fy_guard_is_open(guard) || orders == NULL || told == NULL)
        return FY_CLOSED;
    return (fy_status)fy_swizzle_plan(guard, seed, stream, ticks, orders, room, told);
}

/* Writes an attrition to the front of a buffer, as fy_guard_swizzle_plan does: kills of `to_kill`
 * machines that are drawn from a stream of the seed, or of fewer, so that `to_leave` machines are
 * spared. Each is by the kind, with the floor and the tear. `faultyard swarm` gives it to the
 * second, fourth, .. of its fault actors, with 2, 1, FY_KILL_INSTANTLY, FY_REBOOT and 0.
 *
 * In this order: FY_CLOSED; FY_ARGUMENT where the kind or the floor is none; FY_FLOOR;
 * FY_NO_MEMORY; FY_SHORT. `*told` and the buffer are as fy_guard_swizzle_plan has them. */
static inline fy_status fy_guard_attrition_plan(const fy_guard *guard, uint64_t seed,
                                                uint64_t stream, uint32_t to_kill,
                                                uint32_t to_leave, fy_kind kind, fy_kind floor,
                                                uint64_t tear, fy_order *orders, size_t room,
                                                size_t *told)
{
    if (!fy_guard_is_open(guard) || orders == NULL || told == NULL)
        return FY_CLOSED;
    return (fy_status)fy_attrition_plan(guard, seed, stream, to_kill, to_leave, (uint32_t)kind,
                                        (uint32_t)floor, tear, orders, room, told);
}

/* Writes `count` orders: those of the first `count` turns of the fault actor with this number in
 * `faultyard simulate` with this plan and seed, on the cluster file of the guard. They depend on
 * nothing else. A call for more begins with the same orders, so it goes on where another one ended.
 *
 * A turn that does what a fault actor may not do orders nothing: its act is FY_ORDER_NONE, and all
 * else of it is 0. A target may be `nowhere`, which no process has, and a clog may last longer than
 * the clock does. Whether the actor is a fault actor isn't looked at. Nothing is entered.
 *
 * In this order: FY_CLOSED; FY_ARGUMENT where the plan is none; FY_NO_MEMORY. Nothing is written to
 * the buffer then. */
static inline fy_status fy_guard_plan_orders(const fy_guard *guard, fy_plan plan, uint64_t seed,
                                             uint32_t actor, fy_order *orders, size_t count)
{
    if (!fy_guard_is_open(guard) || orders == NULL)
        return FY_CLOSED;
    return (fy_status)fy_plan_orders(guard, (uint32_t)plan, seed, actor, orders, count);
}

/* ---- Audits that are checked line by line */

/* Begins to check an audit of a cluster that began with this cluster file, as `faultyard check`
 * does. What the struct was is written over; where the check isn't begun, it is closed. Statuses as
 * of fy_guard_open. */
static inline fy_status fy_check_begin(const char *config, size_t length, fy_check *check)
{
    if (check == NULL)
        return FY_CLOSED;
    check->at = NULL;
    if (config == NULL)
        return FY_CLOSED;
    return (fy_status)fy_begin_check((const uint8_t *)config, length, check);
}

/* Frees what a check holds, and closes it; of a check that is closed, or of null, nothing. */
static inline void fy_check_end(fy_check *check)
{
    fy_check held;
    if (check == NULL || check->at == NULL)
        return;
    held = *check;
    check->at = NULL;
    fy_end_check(held);
}

static inline int fy_check_is_open(const fy_check *check)
{
    return check != NULL && check->at != NULL;
}

/* Reads the next line of the audit with its line feed: its header, and then an entry each time.
 * `*first_bad` is the place of the first entry so far, from 0, that isn't what the rules give, or
 * FY_NO_BAD_ENTRY. A bad entry is FY_DONE: behind it lines are read for their faults alone.
 *
 * In this order: FY_CLOSED; FY_AUDIT_TOO_LONG; FY_NO_HEADER; FY_LINE_TOO_LONG; FY_LINE_SYNTAX,
 * where the line isn't the one text of an entry that may come next, lacks its line feed, is empty,
 * or has more behind its line feed. FY_NO_MEMORY may take the place of FY_LINE_SYNTAX. But for
 * FY_DONE the line counts as not read. */
static inline fy_status fy_check_line(fy_check *check, const char *line, size_t length,
                                      uint32_t *first_bad)
{
    if (!fy_check_is_open(check) || line == NULL || first_bad == NULL)
        return FY_CLOSED;
    return (fy_status)fy_read_line(check, (const uint8_t *)line, length, first_bad);
}

/* What `faultyard check` finds of the lines that were read: `*count` is how many entries there are,
 * and `*first_bad` as fy_check_line tells it. The check goes on.
 *
 * In this order: FY_CLOSED; FY_NO_HEADER where no line was read, and `*count` is 0. */
static inline fy_status fy_check_finding(const fy_check *check, uint32_t *count,
                                         uint32_t *first_bad)
{
    if (!fy_check_is_open(check) || count == NULL || first_bad == NULL)
        return FY_CLOSED;
    return (fy_status)fy_finding(check, count, first_bad);
}

#ifdef __cplusplus
}
#endif

#endif
