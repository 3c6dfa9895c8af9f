/* A library that has memory for its first guard only, whose journal has an entry, and that loses
 * the line of an act. Each cluster file but the empty one is refused, and there is no memory to say
 * where. A test can't bring that about with the library itself, since the program in which it runs
 * needs memory too. Two calls at once abort. It is of the version VERSION. */
#include "faultyard.h"

#include <sched.h>
#include <stdatomic.h>
#include <stdlib.h>

#ifndef VERSION
#define VERSION FAULTYARD_VERSION
#endif

static int opened;
static atomic_flag is_called = ATOMIC_FLAG_INIT;

/* Takes its time, so that another call would come meanwhile. */
static void require_turn(void)
{
    if (atomic_flag_test_and_set(&is_called))
        abort();
    for (int i = 0; i < 10; i++)
        sched_yield();
    atomic_flag_clear(&is_called);
}

uint32_t fy_version(void)
{
    return VERSION;
}

uint32_t fy_config_fault(const uint8_t *config, size_t config_length, uint32_t *part,
                         uint64_t *place)
{
    *part = FY_WHOLE_FILE;
    *place = 0;
    return FY_NO_MEMORY;
}

uint32_t fy_open(const uint8_t *config, size_t config_length, fy_guard *guard)
{
    if (config_length > 0)
        return FY_CONFIG_NAME;
    if (opened++ > 0)
        return FY_NO_MEMORY;
    guard->at = &opened;
    return FY_DONE;
}

uint32_t fy_open_after(const uint8_t *config, size_t config_length, const uint8_t *audit,
                       size_t audit_length, fy_guard *guard, uint32_t *first_bad)
{
    *first_bad = FY_NO_BAD_ENTRY;
    return fy_open(config, config_length, guard);
}

void fy_close(fy_guard guard)
{
    require_turn();
}

uint32_t fy_kill(fy_guard *guard, uint32_t actor, uint32_t key, const uint8_t *value,
                 size_t value_length, uint32_t kind, uint32_t floor, uint64_t tear,
                 uint32_t *struck, uint32_t *rule, uint64_t *named)
{
    require_turn();
    *struck = *rule = 0;
    *named = 0;
    return FY_NO_MEMORY;
}

uint32_t fy_reset(fy_guard *guard)
{
    require_turn();
    return FY_NO_MEMORY;
}

uint32_t fy_try_copy(const fy_guard *guard, fy_guard *other)
{
    require_turn();
    return FY_NO_MEMORY;
}

uint32_t fy_judge(const fy_guard *guard, uint32_t actor, uint32_t key, const uint8_t *value,
                  size_t value_length, uint32_t kind, uint32_t floor, uint32_t *struck,
                  uint32_t *rule, uint64_t *named)
{
    require_turn();
    *struck = *rule = 0;
    *named = 0;
    return FY_ARGUMENT;
}

uint32_t fy_kill_process(fy_guard *guard, uint32_t actor, uint32_t process, uint32_t kind,
                         uint32_t floor, uint64_t tear, uint32_t *struck, uint32_t *rule,
                         uint64_t *named)
{
    require_turn();
    *struck = *rule = 0;
    *named = 0;
    return FY_NO_MEMORY;
}

uint32_t fy_judge_process(const fy_guard *guard, uint32_t actor, uint32_t process, uint32_t kind,
                          uint32_t floor, uint32_t *struck, uint32_t *rule, uint64_t *named)
{
    require_turn();
    *struck = *rule = 0;
    *named = 0;
    return FY_ARGUMENT;
}

uint32_t fy_killable(const fy_guard *guard, uint32_t actor, uint8_t *kinds, size_t room,
                     size_t *told)
{
    require_turn();
    *told = 0;
    return FY_DONE;
}

uint32_t fy_up(fy_guard *guard, uint32_t actor, uint32_t process, uint32_t *refusal)
{
    require_turn();
    *refusal = 0;
    return FY_NO_MEMORY;
}

uint32_t fy_heal(fy_guard *guard, uint32_t actor, uint32_t process, uint32_t *refusal)
{
    return fy_up(guard, actor, process, refusal);
}

static uint32_t no_memory(fy_reply *reply)
{
    require_turn();
    memset(reply, 0, sizeof *reply);
    return FY_NO_MEMORY;
}

uint32_t fy_clog(fy_guard *guard, uint32_t actor, uint32_t key, const uint8_t *value,
                 size_t value_length, uint64_t ticks, fy_reply *reply)
{
    return no_memory(reply);
}

uint32_t fy_unclog(fy_guard *guard, uint32_t actor, uint32_t key, const uint8_t *value,
                   size_t value_length, fy_reply *reply)
{
    return no_memory(reply);
}

uint32_t fy_form(fy_guard *guard, uint32_t actor, const uint32_t *members, size_t count,
                 uint32_t policy, fy_reply *reply)
{
    return no_memory(reply);
}

uint32_t fy_begin(fy_guard *guard, uint32_t actor, uint32_t team, const uint8_t *payload,
                  size_t payload_length, fy_reply *reply)
{
    return no_memory(reply);
}

uint32_t fy_deliver(fy_guard *guard, uint32_t actor, uint64_t message, fy_reply *reply)
{
    return no_memory(reply);
}

uint32_t fy_lose(fy_guard *guard, uint32_t actor, uint64_t message, fy_reply *reply)
{
    return no_memory(reply);
}

uint32_t fy_resend(fy_guard *guard, uint32_t actor, uint32_t record, uint32_t process,
                   fy_reply *reply)
{
    return no_memory(reply);
}

uint32_t fy_sync(fy_guard *guard, uint32_t actor, uint32_t process, fy_reply *reply)
{
    return no_memory(reply);
}

uint32_t fy_tick(fy_guard *guard, uint32_t actor, uint64_t ticks, fy_reply *reply)
{
    return no_memory(reply);
}

uint32_t fy_give(fy_guard *guard, uint32_t actor, uint32_t to, uint32_t kinds, uint32_t key,
                 const uint8_t *value, size_t value_length, fy_reply *reply)
{
    return no_memory(reply);
}

uint32_t fy_take(fy_guard *guard, uint32_t actor, uint32_t from, uint32_t index, fy_reply *reply)
{
    return no_memory(reply);
}

uint32_t fy_protect(fy_guard *guard, uint32_t actor, uint32_t process, uint32_t kinds,
                    fy_reply *reply)
{
    return no_memory(reply);
}

uint32_t fy_unprotect(fy_guard *guard, uint32_t actor, uint32_t process, uint32_t kinds,
                      fy_reply *reply)
{
    return no_memory(reply);
}

uint32_t fy_copy(fy_guard *guard, uint32_t actor, uint32_t from, uint32_t record, uint32_t to,
                 fy_reply *reply)
{
    return no_memory(reply);
}

uint32_t fy_replace(fy_guard *guard, uint32_t actor, uint32_t team, uint32_t out, uint32_t into,
                    fy_reply *reply)
{
    return no_memory(reply);
}

uint32_t fy_act(fy_guard *guard, const uint8_t *line, size_t line_length, uint8_t *buffer,
                size_t buffer_length, size_t *told)
{
    require_turn();
    *told = line_length + FY_MOST_REPLY;
    return FY_UNWRITTEN;
}

uint32_t fy_is_destroyed(const fy_guard *guard, uint32_t process)
{
    require_turn();
    return 0;
}

void fy_left(const fy_guard *guard, uint64_t *set, size_t words)
{
    require_turn();
    memset(set, 0, words * sizeof *set);
}

void fy_up_set(const fy_guard *guard, uint64_t *set, size_t words)
{
    fy_left(guard, set, words);
}

uint32_t fy_state(const fy_guard *guard, uint32_t process)
{
    return fy_is_destroyed(guard, process);
}

uint32_t fy_needed(const fy_guard *guard, uint32_t process)
{
    require_turn();
    return FY_NO_SUCH_RECORD;
}

void fy_destroyed_set(const fy_guard *guard, uint64_t *set, size_t words)
{
    fy_left(guard, set, words);
}

void fy_gone_set(const fy_guard *guard, uint64_t *set, size_t words)
{
    fy_left(guard, set, words);
}

uint32_t fy_targets(const fy_guard *guard, uint32_t key, const uint8_t *value, size_t value_length,
                    uint64_t *set, size_t words)
{
    fy_left(guard, set, words);
    return FY_ARGUMENT;
}

uint32_t fy_process(const fy_guard *guard, const uint8_t *name, size_t name_length)
{
    require_turn();
    return FY_NOBODY;
}

uint32_t fy_process_count(const fy_guard *guard)
{
    require_turn();
    return 0;
}

uint32_t fy_is_acked(const fy_guard *guard, uint32_t record)
{
    return fy_is_destroyed(guard, record);
}

uint32_t fy_keeper(const fy_guard *guard, uint32_t record)
{
    require_turn();
    return FY_NOBODY;
}

void fy_sight(const fy_guard *guard, fy_seen *seen)
{
    require_turn();
    memset(seen, 0, sizeof *seen);
}

uint32_t fy_ask(const fy_guard *guard, const uint8_t *line, size_t line_length, uint8_t *buffer,
                size_t buffer_length, size_t *told)
{
    require_turn();
    return FY_NO_MEMORY;
}

uint32_t fy_bears(const fy_guard *guard, fy_borne *borne)
{
    require_turn();
    return FY_NO_MEMORY;
}

size_t fy_journal_len(const fy_guard *guard)
{
    require_turn();
    return 1;
}

uint32_t fy_audit(const fy_guard *guard, size_t at, uint8_t *buffer, size_t buffer_length,
                  size_t *told)
{
    require_turn();
    return FY_NO_MEMORY;
}

uint32_t fy_words(uint64_t seed, uint64_t stream, uint32_t *words, size_t count)
{
    return FY_NO_MEMORY;
}

uint32_t fy_swizzle_plan(const fy_guard *guard, uint64_t seed, uint64_t stream, uint64_t ticks,
                         fy_order *orders, size_t room, size_t *told)
{
    require_turn();
    *told = 0;
    return FY_NO_MEMORY;
}

uint32_t fy_attrition_plan(const fy_guard *guard, uint64_t seed, uint64_t stream, uint32_t to_kill,
                           uint32_t to_leave, uint32_t kind, uint32_t floor, uint64_t tear,
                           fy_order *orders, size_t room, size_t *told)
{
    return fy_swizzle_plan(guard, seed, stream, 0, orders, room, told);
}

uint32_t fy_plan_orders(const fy_guard *guard, uint32_t plan, uint64_t seed, uint32_t actor,
                        fy_order *orders, size_t count)
{
    require_turn();
    return FY_NO_MEMORY;
}

/* It has memory for a check, and none for its lines. */
uint32_t fy_begin_check(const uint8_t *config, size_t config_length, fy_check *check)
{
    if (config_length > 0)
        return FY_NO_MEMORY;
    check->at = &opened;
    return FY_DONE;
}

void fy_end_check(fy_check check)
{
}

uint32_t fy_read_line(fy_check *check, const uint8_t *line, size_t line_length, uint32_t *first_bad)
{
    *first_bad = FY_NO_BAD_ENTRY;
    return FY_NO_MEMORY;
}

uint32_t fy_finding(const fy_check *check, uint32_t *count, uint32_t *first_bad)
{
    *count = 0;
    *first_bad = FY_NO_BAD_ENTRY;
    return FY_NO_HEADER;
}
