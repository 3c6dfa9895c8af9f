/* Calls that take a `const fy_guard *` write neither the struct nor what it points to: they answer
 * while all of that can't be written. A kill then is no such call: its process dies of it. */
#define _GNU_SOURCE
#include "faultyard.h"
#include "told.h"
#include <signal.h>
#include <sys/mman.h>
#include <sys/wait.h>
#include <unistd.h>

enum { ARENA = 1 << 24, FRONT = 16 };

/* What is asked for goes to the front arena until it is frozen, and then to the back one. Nothing
 * is taken back. */
static char *arenas[2];
static size_t used[2];
static int now;

static void arena_of(int which)
{
    arenas[which] = mmap(NULL, ARENA, PROT_READ | PROT_WRITE, MAP_PRIVATE | MAP_ANONYMOUS, -1, 0);
    if (arenas[which] == MAP_FAILED)
        _exit(2);
}

void *malloc(size_t size)
{
    if (arenas[now] == NULL)
        arena_of(now);
    size_t whole = FRONT + (size + 15) / 16 * 16;
    if (whole > ARENA - used[now])
        return NULL;
    char *block = arenas[now] + used[now];
    used[now] += whole;
    memcpy(block, &size, sizeof size);
    return block + FRONT;
}

void *calloc(size_t count, size_t size)
{
    return malloc(count * size);
}

void *realloc(void *block, size_t size)
{
    void *moved = malloc(size);
    if (block != NULL && moved != NULL) {
        size_t was;
        memcpy(&was, (char *)block - FRONT, sizeof was);
        memcpy(moved, block, was < size ? was : size);
    }
    return moved;
}

void free(void *block)
{
    (void)block;
}

static void freeze(fy_guard *guard)
{
    now = 1;
    EQUAL(mprotect(arenas[0], ARENA, PROT_READ), 0);
    EQUAL(mprotect(guard, (size_t)sysconf(_SC_PAGESIZE), PROT_READ), 0);
}

static void ask_for_plans(const fy_guard *guard)
{
    fy_order orders[12];
    size_t told = 77;
    EQUAL(fy_guard_swizzle_plan(guard, 7, 1, 10, orders, 12, &told), FY_DONE);
    EQUAL(told <= 12, 1);
    EQUAL(fy_guard_attrition_plan(guard, 7, 1, 2, 1, FY_KILL_INSTANTLY, FY_REBOOT, 0, orders, 12,
                                  &told),
          FY_DONE);
    EQUAL(told, 2);
}

/* The copy lies elsewhere, and may be written. */
static void ask_for_a_copy(const fy_guard *guard)
{
    fy_guard other;
    size_t told = 77;
    EQUAL(fy_guard_try_copy(guard, &other), FY_DONE);
    EQUAL(fy_guard_kill(&other, 1, FY_ZONE, "z1", FY_REBOOT, FY_REBOOT, 0, &struck, &rule, &named),
          FY_DONE);
    EQUAL(fy_guard_journal_len(&other, &told), FY_DONE);
    EQUAL(told, 2);
    fy_guard_close(&other);
}

/* Each call that only asks. */
static void ask(const fy_guard *guard)
{
    uint64_t set[FY_SET_WORDS] = {77};
    uint32_t process = 77;
    int is = 77;
    fy_seen seen = {77, 77, 77, 77};
    fy_borne borne = {77, 77, 77, 77};
    char buffer[512];
    size_t told = 77;
    EQUAL(fy_guard_is_open(guard), 1);
    EQUAL(fy_guard_process(guard, "p3", &process), FY_DONE);
    EQUAL(process, 3);
    EQUAL(fy_guard_process_count(guard, &process), FY_DONE);
    EQUAL(process, 6);
    EQUAL(fy_guard_targets(guard, FY_ZONE, "z2", set), FY_DONE);
    EQUAL(set[0], 0x30);
    EQUAL(fy_guard_is_destroyed(guard, 0, &is), FY_DONE);
    EQUAL(is, 1);
    EQUAL(fy_guard_left(guard, set), FY_DONE);
    EQUAL(set[0], 0x3c);
    EQUAL(fy_guard_destroyed_set(guard, set), FY_DONE);
    EQUAL(set[0], 0x03);
    EQUAL(fy_guard_gone_set(guard, set), FY_DONE);
    EQUAL(set[0], 0x03);
    EQUAL(fy_guard_up_set(guard, set), FY_DONE);
    EQUAL(set[0], 0x3c);
    EQUAL(fy_guard_state(guard, 0, &process), FY_DONE);
    EQUAL(process, FY_STATE_DESTROYED | FY_STATE_GONE);
    EQUAL(fy_guard_needed(guard, 0, &process), FY_DONE);
    EQUAL(process, FY_NO_SUCH_RECORD);
    EQUAL(fy_guard_judge(guard, 1, FY_ZONE, "z1", FY_KILL_INSTANTLY, FY_REBOOT, &struck, &rule,
                         &named),
          FY_DONE);
    EQUAL(struck, FY_REBOOT);
    EQUAL(rule, FY_TOO_MANY_DESTROYED);
    EQUAL(fy_guard_judge_process(guard, 1, 2, FY_KILL_INSTANTLY, FY_REBOOT, &struck, &rule, &named),
          FY_DONE);
    EQUAL(struck, FY_REBOOT);
    EQUAL(rule, FY_TOO_MANY_DESTROYED);
    uint8_t kinds[6] = {77, 77, 77, 77, 77, 77};
    EQUAL(fy_guard_killable(guard, 1, kinds, 6, &told), FY_DONE);
    EQUAL(memcmp(kinds, "\0\0\2\2\2\2", 6), 0);
    EQUAL(fy_guard_is_acked(guard, 0, &is), FY_DONE);
    EQUAL(is, 0);
    EQUAL(fy_guard_keeper(guard, 0, &process), FY_DONE);
    EQUAL(process, FY_NOBODY);
    EQUAL(fy_guard_bears(guard, &borne), FY_DONE);
    EQUAL(borne.emptied | borne.gone, 0);
    EQUAL(borne.emptied_exact & borne.gone_exact, 1);
    EQUAL(fy_guard_sight(guard, &seen), FY_DONE);
    EQUAL(seen.sleeping, FY_NOBODY);
    EQUAL(fy_guard_journal_len(guard, &told), FY_DONE);
    EQUAL(told, 1);
    EQUAL(fy_guard_audit(guard, 0, buffer, sizeof buffer, &told), FY_DONE);
    EQUAL(told > 0, 1);
    ask_for_plans(guard);
    ask_for_a_copy(guard);
}

int main(void)
{
    fy_guard *guard = mmap(NULL, (size_t)sysconf(_SC_PAGESIZE), PROT_READ | PROT_WRITE,
                           MAP_PRIVATE | MAP_ANONYMOUS, -1, 0);
    if (guard == MAP_FAILED)
        return 2;
    *guard = open_guard(SIX);
    EQUAL(fy_guard_kill(guard, 1, FY_ZONE, "z0", FY_KILL_INSTANTLY, FY_REBOOT, 0, &struck, &rule,
                        &named),
          FY_DONE);
    freeze(guard);
    ask(guard);
    pid_t child = fork();
    if (child == 0) {
        fy_guard_kill(guard, 1, FY_ZONE, "z1", FY_REBOOT, FY_REBOOT, 0, &struck, &rule, &named);
        _exit(0);
    }
    int status = 0;
    EQUAL(waitpid(child, &status, 0), child);
    EQUAL(WIFSIGNALED(status) && WTERMSIG(status) == SIGSEGV, 1);
    return ended("readonly");
}
