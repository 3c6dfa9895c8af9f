// What is in a disk's folder when it is opened.
#include <dirent.h>
#include <errno.h>
#include <fcntl.h>
#include <limits.h>
#include <stdlib.h>
#include <string.h>
#include <sys/file.h>
#include <unistd.h>

#include "faults.h"
#include "items.h"
#include "nodes.h"

// A file of several names is one node, which is found by its inode's number.
struct linked {
    struct linked *next;
    ino_t number;
    struct node *node;
};

static int load_folder(struct disk *disk, struct node *folder, struct linked **linked);

static struct node *find_linked(const struct linked *linked, ino_t number)
{
    while (linked && linked->number != number)
        linked = linked->next;
    return linked ? linked->node : NULL;
}

static int add_linked(struct linked **linked, ino_t number, struct node *node)
{
    struct linked *it = malloc(sizeof *it);
    if (!it)
        return ENOMEM;
    *it = (struct linked){*linked, number, node};
    *linked = it;
    return 0;
}

static int load_target(struct node *node, int in, const char *text, off_t size)
{
    node->target = calloc(1, (size_t)size + 1);
    if (!node->target)
        return ENOMEM;
    return readlinkat(in, text, node->target, (size_t)size) < 0 ? errno : 0;
}

static int load_contents(struct disk *disk, struct node *node, int in, const char *text,
                         struct linked **linked)
{
    bool is_folder = S_ISDIR(node->st.st_mode);
    int flags = O_CLOEXEC | O_NOFOLLOW | (is_folder ? O_RDONLY | O_DIRECTORY : O_RDWR);
    node->durable = openat(in, text, flags);
    if (node->durable < 0)
        return errno;
    return is_folder ? load_folder(disk, node, linked) : 0;
}

static struct node *node_as(struct disk *disk, const struct stat *st)
{
    const struct inode what = {st->st_mode, st->st_uid, st->st_gid, NULL};
    struct node *node = node_of(disk, &what);
    if (!node)
        return NULL;
    node->st.st_atim = st->st_atim;
    node->st.st_mtim = st->st_mtim;
    node->st.st_ctim = st->st_ctim;
    if (S_ISREG(st->st_mode))
        disk_set_size(disk, node, st->st_size);
    else if (S_ISLNK(st->st_mode))
        node->st.st_size = st->st_size;
    return node;
}

// A node with one reference, of which a name takes one more.
static int load(struct disk *disk, int in, const char *text, struct linked **linked,
                struct node **loaded)
{
    struct stat st;
    struct node *node;
    int why = 0;
    if (fstatat(in, text, &st, AT_SYMLINK_NOFOLLOW))
        return errno;
    node = S_ISREG(st.st_mode) ? find_linked(*linked, st.st_ino) : NULL;
    if (node) {
        node->references++;
        *loaded = node;
        return 0;
    }
    node = node_as(disk, &st);
    if (!node)
        return ENOMEM;
    if (S_ISREG(st.st_mode) && st.st_nlink > 1)
        why = add_linked(linked, st.st_ino, node);
    if (!why && S_ISLNK(st.st_mode))
        why = load_target(node, in, text, st.st_size);
    if (!why && (S_ISREG(st.st_mode) || S_ISDIR(st.st_mode)))
        why = load_contents(disk, node, in, text, linked);
    *loaded = node;
    return why;
}

static int load_name(struct disk *disk, struct node *folder, const char *text,
                     struct linked **linked)
{
    const struct timespec modified = folder->st.st_mtim, changed = folder->st.st_ctim;
    struct node *node = NULL;
    struct name *name = name_of(text);
    int why = name ? load(disk, folder->durable, text, linked, &node) : ENOMEM;
    if (node && name) {
        name_add(disk, folder, name, node);
        folder->st.st_mtim = modified;
        folder->st.st_ctim = changed;
        node_drop(node, 1);
    } else {
        free(name);
    }
    return why;
}

static int load_folder(struct disk *disk, struct node *folder, struct linked **linked)
{
    int file = openat(folder->durable, ".", O_RDONLY | O_DIRECTORY | O_CLOEXEC), why = 0;
    DIR *entries = file < 0 ? NULL : fdopendir(file);
    const struct dirent *entry;
    if (!entries)
        return errno;
    while (!why && (errno = 0, entry = readdir(entries)))
        if (strcmp(entry->d_name, ".") != 0 && strcmp(entry->d_name, "..") != 0)
            why = load_name(disk, folder, entry->d_name, linked);
    if (!why)
        why = errno;
    closedir(entries);
    return why;
}

// New files need inodes without a name, which some file systems don't have.
static int check_folder(const struct disk *disk)
{
    int file;
    if (flock(disk->root->durable, LOCK_EX | LOCK_NB))
        return errno == EWOULDBLOCK ? EBUSY : errno;
    file = openat(disk->root->durable, ".", O_TMPFILE | O_RDWR | O_CLOEXEC, 0600);
    if (file < 0)
        return errno;
    close(file);
    return 0;
}

static size_t longest_name_in(int folder)
{
    long found = fpathconf(folder, _PC_NAME_MAX);
    return found > 0 ? (size_t)found : NAME_MAX;
}

static int load_root(struct disk *disk, const char *folder)
{
    struct linked *linked = NULL;
    struct stat st;
    int why;
    if (stat(folder, &st))
        return errno;
    if (!S_ISDIR(st.st_mode))
        return ENOTDIR;
    disk->root = node_as(disk, &st);
    if (!disk->root)
        return ENOMEM;
    disk->root->durable = open(folder, O_RDONLY | O_DIRECTORY | O_CLOEXEC);
    if (disk->root->durable < 0)
        return errno;
    disk->longest_name = longest_name_in(disk->root->durable);
    why = check_folder(disk);
    if (!why)
        why = load_folder(disk, disk->root, &linked);
    while (linked) {
        struct linked *next = linked->next;
        free(linked);
        linked = next;
    }
    return why;
}

int disk_open(struct disk *disk, const char *folder)
{
    int why = names_begin(disk);
    disk->bound = NO_BOUND;
    if (!why)
        why = items_begin(disk);
    if (!why)
        why = load_root(disk, folder);
    return why;
}

int disk_close(struct disk *disk)
{
    int why = disk_sync_all(disk);
    items_end(disk);
    names_end(disk);
    node_drop(disk->root, 1);
    return why;
}
