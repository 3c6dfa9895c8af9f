#include "faults.h"

#include <errno.h>
#include <stdlib.h>
#include <time.h>

// A part of one sector of a file.
struct bad {
    struct bad *next;
    off_t place, end;
    enum reading reading;
};

// ---- slow ----

void disk_wait(const struct disk *disk, size_t bytes)
{
    double seconds = disk->pace.call + disk->pace.byte * (double)bytes;
    struct timespec left;
    if (seconds <= 0)
        return;
    left.tv_sec = (time_t)seconds;
    left.tv_nsec = (long)((seconds - (double)left.tv_sec) * 1e9);
    while (nanosleep(&left, &left) && errno == EINTR)
        continue;
}

// ---- full ----

void disk_bound(struct disk *disk, uint64_t bytes)
{
    disk->bound = bytes < NO_BOUND - disk->held ? disk->held + bytes : NO_BOUND;
}

uint64_t disk_room(const struct disk *disk)
{
    if (disk->bound == NO_BOUND)
        return NO_BOUND;
    return disk->bound > disk->held ? disk->bound - disk->held : 0;
}

int disk_check_size(const struct disk *disk, const struct node *node, off_t size)
{
    off_t more = size - node->st.st_size;
    return more > 0 && (uint64_t)more > disk_room(disk) ? ENOSPC : 0;
}

void disk_set_size(struct disk *disk, struct node *node, off_t size)
{
    disk->held += (uint64_t)size - (uint64_t)node->st.st_size;
    node->st.st_size = size;
}

void disk_let_go(struct disk *disk, const struct node *node)
{
    if (S_ISREG(node->st.st_mode) && !node->st.st_nlink && !node->opens)
        disk->held -= (uint64_t)node->st.st_size;
}

// ---- bad in places ----

// Where the sector begins that has a place.
static off_t sector_of(off_t place)
{
    return place - place % SECTOR;
}

static struct bad *bad_of(enum reading reading, off_t sector, off_t place, off_t end)
{
    struct bad *bad = malloc(sizeof *bad);
    off_t next = sector + SECTOR;
    if (!bad)
        return NULL;
    *bad = (struct bad){NULL, sector, next, reading};
    if (reading == LIES) {
        bad->place = place > sector ? place : sector;
        bad->end = end < next ? end : next;
    }
    return bad;
}

static void free_bad(struct bad *bad)
{
    while (bad) {
        struct bad *next = bad->next;
        free(bad);
        bad = next;
    }
}

int node_spoil(struct node *node, enum reading reading, off_t place, off_t length)
{
    struct bad *all = NULL, **last = &all;
    off_t end = place + length;
    if (place < 0 || length <= 0 || length > (off_t)MOST_SECTORS * SECTOR ||
        place > node->st.st_size - length)
        return EINVAL;
    for (off_t sector = sector_of(place); sector < end; sector += SECTOR) {
        *last = bad_of(reading, sector, place, end);
        if (!*last) {
            free_bad(all);
            return ENOMEM;
        }
        last = &(*last)->next;
    }
    *last = node->bad;
    node->bad = all;
    return 0;
}

void node_mend(struct node *node, off_t place, off_t length)
{
    off_t first = sector_of(place), end = sector_of(place + length + SECTOR - 1);
    struct bad **at = &node->bad;
    while (*at) {
        struct bad *bad = *at;
        if (bad->end <= first || bad->place >= end) {
            at = &bad->next;
            continue;
        }
        *at = bad->next;
        free(bad);
    }
}

void node_mend_all(struct node *node)
{
    free_bad(node->bad);
    node->bad = NULL;
}

int node_tell(const struct node *node, char *data, size_t length, off_t place)
{
    off_t end = place + (off_t)length;
    for (const struct bad *bad = node->bad; bad; bad = bad->next) {
        off_t from = bad->place > place ? bad->place : place;
        off_t to = bad->end < end ? bad->end : end;
        if (from < to && bad->reading == FAILS)
            return EIO;
        for (off_t at = from; at < to; at++)
            data[at - place] ^= 1;
    }
    return 0;
}
