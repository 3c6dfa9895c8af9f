/* Preloaded into `faultyard guard` below callgrind, where each entry is one write. Of two entries
 * in turn that refuse a stranger, and the entry behind them, the counts are dumped at the second
 * and the third: so a dump has the instructions of one line. Memory is taken piece by piece and
 * never given back: what a line costs then doesn't depend on where the C library's allocator finds
 * room after all the lines before. */
#define _GNU_SOURCE
#include <stddef.h>
#include <stdint.h>
#include <string.h>
#include <sys/mman.h>
#include <sys/syscall.h>
#include <unistd.h>
#include <valgrind/callgrind.h>

static const char refusal[] = "{\"no\":[\"Stranger\"]}}\n";

static int is_refusal(const char *entry, size_t length)
{
    const size_t size = sizeof refusal - 1;
    return length > size && memcmp(entry + length - size, refusal, size) == 0;
}

ssize_t write(int file, const void *bytes, size_t length)
{
    static int strangers;
    if (file == STDOUT_FILENO) {
        const int is_stranger = is_refusal(bytes, length);
        strangers += is_stranger;
        if (strangers == 1)
            CALLGRIND_ZERO_STATS;
        if (strangers == 2)
            CALLGRIND_DUMP_STATS;
        if (strangers == 2 && !is_stranger)
            strangers = 0;
    }
    return syscall(SYS_write, file, bytes, length);
}

enum { HEADER = 16 };
static const size_t MOST = (size_t)1 << 34;

/* A piece of memory behind a header with its size; all zeros, since none is given twice. */
static void *piece(size_t alignment, size_t size)
{
    static uintptr_t next, end;
    if (next == 0) {
        void *room = mmap(NULL, MOST, PROT_READ | PROT_WRITE,
                          MAP_PRIVATE | MAP_ANONYMOUS | MAP_NORESERVE, -1, 0);
        if (room == MAP_FAILED)
            return NULL;
        next = (uintptr_t)room;
        end = next + MOST;
    }
    const uintptr_t at = (next + HEADER + alignment - 1) / alignment * alignment;
    if (size > end - at)
        return NULL;
    next = at + size;
    memcpy((void *)(at - HEADER), &size, sizeof size);
    return (void *)at;
}

void *malloc(size_t size)
{
    return piece(HEADER, size);
}

void *calloc(size_t count, size_t size)
{
    return size != 0 && count > MOST / size ? NULL : piece(HEADER, count * size);
}

void *realloc(void *old, size_t size)
{
    size_t had = 0;
    if (old != NULL)
        memcpy(&had, (char *)old - HEADER, sizeof had);
    if (size <= had)
        return old;
    void *new = piece(HEADER, size);
    return new != NULL &&had != 0 ? memcpy(new, old, had) : new;
}

void *aligned_alloc(size_t alignment, size_t size)
{
    return piece(alignment > HEADER ? alignment : HEADER, size);
}

void free(void *old)
{
    (void)old;
}
