#include "items.h"

#include <errno.h>
#include <fcntl.h>
#include <stdio.h>
#include <stdlib.h>
#include <string.h>
#include <time.h>
#include <unistd.h>

// Beyond so many unsynced bytes the oldest are written back, as a kernel short of memory does.
static const size_t MOST_UNSYNCED = (size_t)256 << 20;

static double now(void)
{
    struct timespec it;
    clock_gettime(CLOCK_MONOTONIC, &it);
    return (double)it.tv_sec + (double)it.tv_nsec / 1e9;
}

int items_begin(struct disk *disk)
{
    struct item *ring = calloc(1, sizeof *ring);
    if (!ring)
        return ENOMEM;
    ring->before = ring->after = ring;
    disk->ring = ring;
    disk->names.last = &disk->names.first;
    return 0;
}

struct item *item_of(enum deed deed, struct node *node, const void *data, size_t length)
{
    struct item *item = calloc(1, sizeof *item + length);
    if (!item)
        return NULL;
    item->deed = deed;
    item->node = node;
    item->length = length;
    if (length)
        memcpy(item->data, data, length);
    node->references++;
    return item;
}

struct item *item_of_name(enum deed deed, struct node *node, struct node *folder, const char *text)
{
    struct item *item = item_of(deed, node, NULL, 0);
    if (!item)
        return NULL;
    item->folder = folder;
    folder->references++;
    item->text = strdup(text);
    if (item->text)
        return item;
    item_free(item);
    return NULL;
}

void item_free(struct item *item)
{
    node_drop(item->node, 1);
    node_drop(item->folder, 1);
    node_drop(item->to, 1);
    node_drop(item->other, 1);
    free(item->text);
    free(item->to_text);
    free(item);
}

static struct chain *chain_of(struct disk *disk, const struct item *item)
{
    return item->deed <= ZERO ? &item->node->chain : &disk->names;
}

// ---- doing an item in the disk's folder ----

int put(int file, const char *data, size_t length, off_t place)
{
    while (length) {
        ssize_t done = pwrite(file, data, length, place);
        if (done < 0 && errno == EINTR)
            continue;
        if (done <= 0)
            return done ? errno : EIO;
        data += done;
        length -= (size_t)done;
        place += done;
    }
    return 0;
}

int zero(int file, off_t place, off_t length)
{
    static const char zeros[1 << 16];
    if (!fallocate(file, FALLOC_FL_PUNCH_HOLE | FALLOC_FL_KEEP_SIZE, place, length))
        return 0;
    if (errno != EOPNOTSUPP)
        return errno;
    while (length > 0) {
        size_t part = length < (off_t)sizeof zeros ? (size_t)length : sizeof zeros;
        int why = put(file, zeros, part, place);
        if (why)
            return why;
        place += (off_t)part;
        length -= (off_t)part;
    }
    return 0;
}

static int answer(int failed)
{
    return failed ? errno : 0;
}

static int make_folder(const struct item *item)
{
    struct node *node = item->node;
    int folder = item->folder->durable;
    if (mkdirat(folder, item->text, 0700))
        return errno;
    node->durable = openat(folder, item->text, O_RDONLY | O_DIRECTORY | O_NOFOLLOW | O_CLOEXEC);
    if (node->durable < 0)
        return errno;
    if (fchown(node->durable, node->st.st_uid, node->st.st_gid))
        return errno;
    return answer(fchmod(node->durable, node->st.st_mode & 07777));
}

// Gives a file a name, its first or one more. Sockets and pipes are in memory alone.
static int make_name(const struct item *item)
{
    const struct node *node = item->node;
    char path[64];
    if (S_ISLNK(node->st.st_mode))
        return answer(symlinkat(node->target, item->folder->durable, item->text));
    if (!S_ISREG(node->st.st_mode))
        return 0;
    snprintf(path, sizeof path, "/proc/self/fd/%d", node->durable);
    return answer(linkat(AT_FDCWD, path, item->folder->durable, item->text, AT_SYMLINK_FOLLOW));
}

static bool is_kept(const struct node *node)
{
    return S_ISREG(node->st.st_mode) || S_ISDIR(node->st.st_mode) || S_ISLNK(node->st.st_mode);
}

static int perform_on_names(const struct item *item)
{
    int folder = item->folder->durable, flags = S_ISDIR(item->node->st.st_mode) ? AT_REMOVEDIR : 0;
    unsigned exchange = item->deed == EXCHANGE ? RENAME_EXCHANGE : 0;
    if (item->deed == MAKE)
        return S_ISDIR(item->node->st.st_mode) ? make_folder(item) : make_name(item);
    if (item->deed == REMOVE)
        return is_kept(item->node) ? answer(unlinkat(folder, item->text, flags)) : 0;
    return answer(renameat2(folder, item->text, item->to->durable, item->to_text, exchange));
}

// What an item needs is there if all before it were done; after a torn cut it may not be.
static int perform(const struct item *item)
{
    int file = item->node->durable;
    if (item->deed == WRITE)
        return put(file, item->data, item->length, item->place);
    if (item->deed == RESIZE)
        return answer(ftruncate(file, item->place));
    if (item->deed == ZERO)
        return zero(file, item->place, (off_t)item->length);
    return perform_on_names(item);
}

// ---- when items become durable ----
// NOLINTBEGIN(clang-analyzer-unix.Malloc): it doesn't know that before and after close a ring

static void forget(struct disk *disk, struct item *item)
{
    struct chain *chain = chain_of(disk, item);
    chain->first = item->next;
    if (!item->next)
        chain->last = &chain->first;
    item->before->after = item->after;
    item->after->before = item->before;
    disk->unsynced_bytes -= item->deed == WRITE ? item->length : 0;
    item_free(item);
}

int fault_of(int why)
{
    bool is_told =
        why == ENOSPC || why == EDQUOT || why == EMFILE || why == ENFILE || why == ENOMEM;
    return is_told ? why : EIO;
}

// Makes an item durable, which is the first of its chain. If it can't be, it stays.
static int commit(struct disk *disk, struct item *item)
{
    struct node *node = item->node;
    int why = perform(item);
    if (why) {
        disk->failed = why;
        return fault_of(why);
    }
    node->references++;
    forget(disk, item);
    node_settle(node);
    node_drop(node, 1);
    return 0;
}

// What a kernel does by itself: what is old, or too much, is made durable, the oldest first.
static void write_back(struct disk *disk)
{
    double latest = disk->writeback > 0 ? now() - disk->writeback : -1;
    struct item *item;
    while ((item = disk->ring->after) != disk->ring) {
        if (item->at > latest && disk->unsynced_bytes <= MOST_UNSYNCED)
            return;
        if (commit(disk, item))
            return;
    }
}

void item_add(struct disk *disk, struct item *item)
{
    struct chain *chain = chain_of(disk, item);
    item->at = now();
    item->before = disk->ring->before;
    item->after = disk->ring;
    item->before->after = item->after->before = item;
    *chain->last = item;
    chain->last = &item->next;
    disk->unsynced_bytes += item->deed == WRITE ? item->length : 0;
    write_back(disk);
}

static bool concerns(const struct item *item, const struct node *node)
{
    return item->node == node || item->folder == node || item->to == node || item->other == node;
}

// A node's names are those up to the last one that concerns it, in order, as a journal has them.
static int sync_names(struct disk *disk, const struct node *node)
{
    size_t count = 0, place = 0;
    int why = 0;
    for (const struct item *item = disk->names.first; item; item = item->next) {
        place++;
        if (concerns(item, node))
            count = place;
    }
    for (; count && !why; count--)
        why = commit(disk, disk->names.first);
    return why;
}

int disk_sync(struct disk *disk, struct node *node)
{
    int why;
    if (disk->is_deaf)
        return 0;
    why = sync_names(disk, node);
    while (!why && node->chain.first)
        why = commit(disk, node->chain.first);
    return why;
}

int disk_sync_all(struct disk *disk)
{
    int why = 0;
    while (!why && disk->ring->after != disk->ring)
        why = commit(disk, disk->ring->after);
    return why;
}

void items_end(struct disk *disk)
{
    while (disk->ring->after != disk->ring)
        forget(disk, disk->ring->after);
    free(disk->ring);
}

// NOLINTEND(clang-analyzer-unix.Malloc)
// ---- a power cut ----

// Where a part of a write ends that begins at `done`: at a sector's end.
static size_t part_of(const struct item *item, size_t done)
{
    size_t part = SECTOR - (size_t)(item->place + (off_t)done) % SECTOR;
    return part < item->length - done ? part : item->length - done;
}

static int perform_part(const struct item *item, size_t done, size_t part)
{
    if (item->deed != WRITE)
        return perform(item);
    return put(item->node->durable, item->data + done, part, item->place + (off_t)done);
}

// Whether it is the disk that refused, and not that something before it was lost.
static bool is_full_or_broken(int why)
{
    return why == ENOSPC || why == EDQUOT || why == EIO || why == EROFS;
}

struct count disk_cut(struct disk *disk, uint64_t tear)
{
    struct count count = {0, 0};
    struct stat st;
    bool is_gone = fstat(disk->root->durable, &st) || st.st_nlink == 0;
    disk->failed = is_gone ? ENOENT : 0;
    for (const struct item *item = disk->ring->after; item != disk->ring; item = item->after) {
        size_t done = 0, part;
        do {
            part = item->deed == WRITE ? part_of(item, done) : 0;
            if (tear >> count.unsynced % 64 & 1) {
                int why = perform_part(item, done, part);
                if (is_full_or_broken(why))
                    disk->failed = why;
                count.survived += !is_gone && !is_full_or_broken(why);
            }
            count.unsynced++;
            done += part;
        } while (item->deed == WRITE && done < item->length);
    }
    return count;
}
