// The calls that change a disk. Each does in memory what users see from then on, and adds an item.
#include <errno.h>
#include <fcntl.h>
#include <stdio.h>
#include <stdlib.h>
#include <string.h>
#include <sys/mman.h>
#include <sys/statvfs.h>
#include <time.h>
#include <unistd.h>

#include "faults.h"
#include "items.h"
#include "nodes.h"

// ---- names ----

int disk_check_name(const struct disk *disk, const char *text)
{
    return strlen(text) > disk->longest_name ? ENAMETOOLONG : 0;
}

// The inode of a new file has no name in the disk's folder until its first name is durable.
static int open_nameless(const struct disk *disk, struct node *node)
{
    int file = openat(disk->root->durable, ".", O_TMPFILE | O_RDWR | O_CLOEXEC, 0600);
    if (file < 0)
        return fault_of(errno);
    node->durable = file;
    if (fchown(file, node->st.st_uid, node->st.st_gid))
        return errno;
    return fchmod(file, node->st.st_mode & 07777) ? errno : 0;
}

static int begin_node(const struct disk *disk, struct node *node, const char *target)
{
    if (S_ISREG(node->st.st_mode))
        return open_nameless(disk, node);
    if (!target)
        return 0;
    node->target = strdup(target);
    node->st.st_size = (off_t)strlen(target);
    return node->target ? 0 : ENOMEM;
}

// Takes what isn't NULL of a deed that failed for want of memory.
static int no_memory(struct name *name, struct item *item)
{
    free(name);
    if (item)
        item_free(item);
    return ENOMEM;
}

static int add_name(struct disk *disk, struct node *node, struct node *folder, const char *text)
{
    struct name *name = name_of(text);
    struct item *item = item_of_name(MAKE, node, folder, text);
    if (!name || !item)
        return no_memory(name, item);
    name_add(disk, folder, name, node);
    item_add(disk, item);
    return 0;
}

int disk_make(struct disk *disk, struct node *folder, const char *text, const struct inode *what,
              struct node **made)
{
    struct node *node = node_of(disk, what);
    int why = node ? disk_check_name(disk, text) : ENOMEM;
    if (!why)
        why = begin_node(disk, node, what->target);
    if (!why)
        why = add_name(disk, node, folder, text);
    if (!why)
        *made = node;
    node_drop(node, 1);
    return why;
}

int disk_link(struct disk *disk, struct node *node, struct node *folder, const char *text)
{
    int why = disk_check_name(disk, text);
    if (!why && !S_ISREG(node->st.st_mode))
        why = EPERM;
    return why ? why : add_name(disk, node, folder, text);
}

int disk_remove(struct disk *disk, struct node *folder, const char *text)
{
    struct name *name = disk_find(disk, folder, text);
    struct item *item;
    if (!name)
        return ENOENT;
    if (name->node->names)
        return ENOTEMPTY;
    item = item_of_name(REMOVE, name->node, folder, text);
    if (!item)
        return ENOMEM;
    name_take(disk, name);
    item_add(disk, item);
    return 0;
}

static struct item *item_of_rename(enum deed deed, struct name *from, struct node *to,
                                   const char *to_text)
{
    struct item *item = item_of_name(deed, from->node, from->folder, from->text);
    if (!item)
        return NULL;
    item->to = to;
    to->references++;
    item->to_text = strdup(to_text);
    if (item->to_text)
        return item;
    item_free(item);
    return NULL;
}

static void change_parent(struct node *node, struct node *old, struct node *parent)
{
    if (!S_ISDIR(node->st.st_mode))
        return;
    node->parent = parent;
    old->st.st_nlink--;
    parent->st.st_nlink++;
}

static int exchange(struct disk *disk, struct name *from, struct name *over)
{
    struct node *node = from->node;
    struct item *item = item_of_rename(EXCHANGE, from, over->folder, over->text);
    if (!item)
        return ENOMEM;
    item->other = over->node;
    over->node->references++;
    from->node = over->node;
    over->node = node;
    change_parent(node, from->folder, over->folder);
    change_parent(from->node, over->folder, from->folder);
    touch(from->folder);
    touch(over->folder);
    item_add(disk, item);
    return 0;
}

static int rename_over(struct disk *disk, struct name *from, struct node *to, const char *to_text,
                       struct name *over)
{
    struct name *name = name_of(to_text);
    struct item *item = item_of_rename(RENAME, from, to, to_text);
    if (!name || !item)
        return no_memory(name, item);
    if (over)
        name_take(disk, over);
    name_add(disk, to, name, from->node);
    name_take(disk, from);
    item_add(disk, item);
    return 0;
}

int disk_rename(struct disk *disk, struct node *folder, const char *text, struct node *to,
                const char *to_text, unsigned flags)
{
    struct name *from = disk_find(disk, folder, text), *over = disk_find(disk, to, to_text);
    int why = disk_check_name(disk, to_text);
    if (why)
        return why;
    if (flags != 0 && flags != RENAME_NOREPLACE && flags != RENAME_EXCHANGE)
        return EINVAL;
    if (!from || (!over && flags == RENAME_EXCHANGE))
        return ENOENT;
    if (over && flags == RENAME_NOREPLACE)
        return EEXIST;
    if (over && over->node == from->node)
        return 0;
    if (flags == RENAME_EXCHANGE)
        return exchange(disk, from, over);
    if (over && over->node->names)
        return ENOTEMPTY;
    return rename_over(disk, from, to, to_text, over);
}

// ---- what is durable at once ----

static int set_times(const struct node *node)
{
    const struct timespec times[] = {node->st.st_atim, node->st.st_mtim};
    return futimens(node->durable, times) ? errno : 0;
}

int disk_set(struct node *node, const struct stat *wanted, int what)
{
    struct stat *st = &node->st;
    uid_t user = what & SET_USER ? wanted->st_uid : st->st_uid;
    gid_t group = what & SET_GROUP ? wanted->st_gid : st->st_gid;
    mode_t mode = what & SET_MODE ? wanted->st_mode & 07777 : st->st_mode & 07777;
    bool is_there = node->durable >= 0;
    if (is_there && what & (SET_USER | SET_GROUP) && fchown(node->durable, user, group))
        return errno;
    if (is_there && what & (SET_USER | SET_GROUP | SET_MODE) && fchmod(node->durable, mode))
        return errno;
    st->st_uid = user;
    st->st_gid = group;
    st->st_mode = (st->st_mode & S_IFMT) | mode;
    clock_gettime(CLOCK_REALTIME, &st->st_ctim);
    if (!(what & SET_TIMES))
        return 0;
    st->st_atim = wanted->st_atim;
    st->st_mtim = wanted->st_mtim;
    return is_there ? set_times(node) : 0;
}

// ---- the contents of files ----

int node_contents(const struct node *node)
{
    return node->live >= 0 ? node->live : node->durable;
}

void node_settle(struct node *node)
{
    if (node->chain.first || !S_ISREG(node->st.st_mode))
        return;
    (void)set_times(node); // the folder's own are those of the sync
    if (node->opens || node->live < 0)
        return;
    close(node->live);
    node->live = -1;
}

static int copy(int from, int to)
{
    static char part[1 << 16];
    for (off_t place = 0, end; (place = lseek(from, place, SEEK_DATA)) >= 0; place = end) {
        ssize_t got = 1;
        end = lseek(from, place, SEEK_HOLE);
        for (; place < end && got > 0; place += got) {
            int why;
            got = pread(from, part, sizeof part, place);
            why = got < 0 ? errno : put(to, part, (size_t)got, place);
            if (why)
                return why;
        }
    }
    return errno == ENXIO ? 0 : errno;
}

// From a file's first change on its contents are in memory.
static int to_live(struct node *node)
{
    int file, why;
    if (node->live >= 0)
        return 0;
    file = memfd_create("lossy", MFD_CLOEXEC);
    if (file < 0)
        return errno;
    why = ftruncate(file, node->st.st_size) ? errno : copy(node->durable, file);
    if (why)
        close(file);
    else
        node->live = file;
    return why;
}

static bool has_room(const struct disk *disk, size_t length)
{
    struct statvfs space;
    if (fstatvfs(disk->root->durable, &space))
        return true; // a write will say why
    return space.f_bavail * space.f_frsize >= disk->unsynced_bytes + length;
}

// Where the disk's folder has no room for what is unsynced, a write is durable at once, and so it
// is told that there is none.
static int write_through(struct disk *disk, struct node *node, const void *data, size_t length,
                         off_t place)
{
    int why = disk_sync_all(disk);
    return why ? why : put(node->durable, data, length, place);
}

int disk_write(struct disk *disk, struct node *node, const void *data, size_t length, off_t place)
{
    off_t end = place + (off_t)length;
    bool is_unsynced = has_room(disk, length);
    struct item *item = is_unsynced ? item_of(WRITE, node, data, length) : NULL;
    int why = is_unsynced && !item ? ENOMEM : disk_check_size(disk, node, end);
    if (!why)
        why = to_live(node);
    if (!why && !is_unsynced)
        why = write_through(disk, node, data, length, place);
    if (!why)
        why = put(node->live, data, length, place);
    if (why) {
        if (item)
            item_free(item);
        return why;
    }
    if (node->st.st_size < end)
        disk_set_size(disk, node, end);
    node_mend(node, place, (off_t)length);
    touch(node);
    if (item) {
        item->place = place;
        item_add(disk, item);
    }
    return 0;
}

int disk_resize(struct disk *disk, struct node *node, off_t size)
{
    struct item *item = item_of(RESIZE, node, NULL, 0);
    int why = item ? disk_check_size(disk, node, size) : ENOMEM;
    if (!why)
        why = to_live(node);
    if (!why && ftruncate(node->live, size))
        why = errno;
    if (why) {
        if (item)
            item_free(item);
        return why;
    }
    if (size < node->st.st_size)
        node_mend(node, size, node->st.st_size - size);
    disk_set_size(disk, node, size);
    item->place = size;
    touch(node);
    item_add(disk, item);
    return 0;
}

static int disk_zero(struct disk *disk, struct node *node, off_t place, off_t length)
{
    struct item *item = item_of(ZERO, node, NULL, 0);
    int why = item ? to_live(node) : ENOMEM;
    if (!why)
        why = zero(node->live, place, length);
    if (why) {
        if (item)
            item_free(item);
        return why;
    }
    node_mend(node, place, length);
    item->place = place;
    item->length = (size_t)length;
    touch(node);
    item_add(disk, item);
    return 0;
}

int disk_allocate(struct disk *disk, struct node *node, int mode, off_t place, off_t length)
{
    const int zeroes = FALLOC_FL_PUNCH_HOLE | FALLOC_FL_ZERO_RANGE;
    off_t size = node->st.st_size, end = place + length;
    int why = 0;
    if (mode & ~(zeroes | FALLOC_FL_KEEP_SIZE))
        return EOPNOTSUPP;
    if (!(mode & FALLOC_FL_KEEP_SIZE) && size < end)
        why = disk_resize(disk, node, end);
    if (!why && mode & zeroes && place < size)
        why = disk_zero(disk, node, place, (end < size ? end : size) - place);
    return why;
}
