/* Times copies of a guard by the C library: copies CONFIG RECORDS ENTRIES PAYLOAD. So many records
 * of so many bytes are begun for a team of three, and each is acknowledged; ticks then fill the
 * journal up to ENTRIES. Beside each copy is one `memcpy` of as many bytes as it took, into memory
 * that is asked for too. The best of ROUNDS is told, in microseconds of the processor. */
#define _GNU_SOURCE
#include "faultyard.h"
#include <malloc.h>
#include <stdio.h>
#include <stdlib.h>
#include <string.h>
#include <time.h>

/* BATCH records are sent, synced and acknowledged at a time. */
enum { ROUNDS = 15, BATCH = 1000, MEMBERS = 3 };

static char config[1048576], payload[256];
static fy_reply reply;

static double now(void)
{
    struct timespec t;
    clock_gettime(CLOCK_PROCESS_CPUTIME_ID, &t);
    return (double)t.tv_sec * 1e6 + (double)t.tv_nsec * 1e-3;
}

/* The bytes that are allocated now. */
static size_t allocated(void)
{
    struct mallinfo2 all = mallinfo2();
    return all.uordblks + all.hblkhd;
}

/* Whether an act was done. */
static int done(fy_status status)
{
    return status == FY_DONE && reply.refusal == FY_NOT_REFUSED;
}

/* Begins so many records, and sees to it that each is acknowledged. */
static int keep(fy_guard *guard, long records, size_t length)
{
    uint64_t first = 0;
    for (long i = 0; i < records; i++) {
        if (!done(fy_guard_begin(guard, 0, 0, payload, length, &reply)))
            return 0;
        if (i == 0)
            first = reply.message;
    }
    for (long i = 0; i < records * MEMBERS; i++)
        if (!done(fy_guard_deliver(guard, 0, first + (uint64_t)i, &reply)))
            return 0;
    for (uint32_t p = 0; p < MEMBERS; p++) {
        if (!done(fy_guard_sync(guard, 0, p, &reply)))
            return 0;
        uint64_t word = reply.message;
        for (long i = 0; i < records; i++)
            if (!done(fy_guard_deliver(guard, 0, word + (uint64_t)i, &reply)) || !reply.marked)
                return 0;
    }
    return reply.acked == 1;
}

int main(int count, char **words)
{
    FILE *file = count == 5 ? fopen(words[1], "r") : NULL;
    if (file == NULL)
        return 2;
    size_t length = fread(config, 1, sizeof config, file);
    fclose(file);
    long records = atol(words[2]), entries = atol(words[3]);
    size_t size = (size_t)atol(words[4]);
    uint32_t members[MEMBERS] = {0, 1, 2};
    fy_guard guard, copy;
    if (size > sizeof payload || fy_guard_open(config, length, &guard) != FY_DONE)
        return 1;
    if (!done(fy_guard_form(&guard, 0, members, MEMBERS, 0, &reply)))
        return 1;
    for (long kept = 0; kept < records; kept += BATCH)
        if (!keep(&guard, records - kept < BATCH ? records - kept : BATCH, size))
            return 1;
    size_t held = 0;
    if (fy_guard_journal_len(&guard, &held) != FY_DONE)
        return 1;
    for (; held < (size_t)entries; held++)
        if (!done(fy_guard_tick(&guard, 0, 1, &reply)))
            return 1;

    size_t before = allocated();
    if (fy_guard_try_copy(&guard, &copy) != FY_DONE)
        return 1;
    size_t bytes = allocated() - before;
    fy_guard_close(&copy);
    char *from = malloc(bytes);
    if (from == NULL)
        return 1;
    memset(from, 1, bytes);
    double copied = 1e300, plain = 1e300;
    for (int round = 0; round < ROUNDS; round++) {
        double began = now();
        if (fy_guard_try_copy(&guard, &copy) != FY_DONE)
            return 1;
        double took = now() - began;
        copied = took < copied ? took : copied;
        fy_guard_close(&copy);
        began = now();
        char *volatile to = malloc(bytes);
        if (to == NULL)
            return 1;
        memcpy(to, from, bytes);
        took = now() - began;
        plain = took < plain ? took : plain;
        free(to);
    }
    printf("%8ld %9lu %5lu %11lu %12.1f %12.1f %6.2f\n", records, (unsigned long)held,
           (unsigned long)size, (unsigned long)bytes, copied, plain, copied / plain);
    free(from);
    fy_guard_close(&guard);
    return 0;
}
