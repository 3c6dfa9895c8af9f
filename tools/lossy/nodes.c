#include "nodes.h"

#include <errno.h>
#include <stdlib.h>
#include <string.h>
#include <time.h>
#include <unistd.h>

#include "faults.h"

enum { FIRST_SIZE = 64 };

void touch(struct node *node)
{
    clock_gettime(CLOCK_REALTIME, &node->st.st_mtim);
    node->st.st_ctim = node->st.st_mtim;
}

struct node *node_of(struct disk *disk, const struct inode *what)
{
    struct node *node = calloc(1, sizeof *node);
    if (!node)
        return NULL;
    node->st.st_ino = ++disk->numbers;
    node->st.st_mode = what->mode;
    node->st.st_uid = what->user;
    node->st.st_gid = what->group;
    node->st.st_nlink = S_ISDIR(what->mode) ? 2 : 0;
    node->st.st_size = S_ISDIR(what->mode) ? SECTOR : 0;
    node->st.st_blksize = SECTOR;
    touch(node);
    node->st.st_atim = node->st.st_mtim;
    node->durable = node->live = -1;
    node->chain.last = &node->chain.first;
    node->references = 1;
    return node;
}

void node_drop(struct node *node, unsigned long references)
{
    if (!node || (node->references -= references) > 0)
        return;
    if (node->durable >= 0)
        close(node->durable);
    if (node->live >= 0)
        close(node->live);
    node_mend_all(node);
    free(node->target);
    free(node);
}

// ---- names ----

struct name *name_of(const char *text)
{
    size_t size = strlen(text) + 1;
    struct name *name = calloc(1, sizeof *name + size);
    if (name)
        memcpy(name->text, text, size);
    return name;
}

static struct name **bucket_of(const struct disk *disk, const struct node *folder, const char *text)
{
    uint64_t hash = 14695981039346656037U ^ folder->st.st_ino; // FNV-1a
    for (; *text; text++)
        hash = (hash ^ (unsigned char)*text) * 1099511628211U;
    return &disk->table[(hash ^ hash >> 32) % disk->table_size];
}

static void into_table(struct disk *disk, struct name *name)
{
    struct name **bucket = bucket_of(disk, name->folder, name->text);
    name->after = *bucket;
    *bucket = name;
}

// A table that can't grow is slower, and right.
static void grow(struct disk *disk)
{
    struct name **old = disk->table;
    size_t size = disk->table_size;
    struct name **larger = calloc(size * 4, sizeof *larger);
    if (!larger)
        return;
    disk->table = larger;
    disk->table_size = size * 4;
    for (size_t place = 0; place < size; place++) {
        while (old[place]) {
            struct name *name = old[place];
            old[place] = name->after;
            into_table(disk, name);
        }
    }
    free(old);
}

int names_begin(struct disk *disk)
{
    disk->table_size = FIRST_SIZE;
    disk->table = calloc(FIRST_SIZE, sizeof *disk->table);
    return disk->table ? 0 : ENOMEM;
}

struct name *disk_find(const struct disk *disk, const struct node *folder, const char *text)
{
    struct name *name = *bucket_of(disk, folder, text);
    while (name && (name->folder != folder || strcmp(name->text, text) != 0))
        name = name->after;
    return name;
}

void name_add(struct disk *disk, struct node *folder, struct name *name, struct node *node)
{
    if (++disk->name_count > disk->table_size)
        grow(disk);
    name->folder = folder;
    name->node = node;
    name->next = folder->names;
    if (name->next)
        name->next->previous = name;
    folder->names = name;
    into_table(disk, name);
    node->references++;
    if (S_ISDIR(node->st.st_mode)) {
        node->parent = folder;
        folder->st.st_nlink++;
    } else {
        node->st.st_nlink++;
    }
    touch(folder);
}

void name_take(struct disk *disk, struct name *name)
{
    struct node *folder = name->folder, *node = name->node;
    struct name **at = bucket_of(disk, folder, name->text);
    while (*at != name)
        at = &(*at)->after;
    *at = name->after;
    if (name->next)
        name->next->previous = name->previous;
    *(name->previous ? &name->previous->next : &folder->names) = name->next;
    disk->name_count--;
    if (S_ISDIR(node->st.st_mode))
        folder->st.st_nlink--;
    else
        node->st.st_nlink--;
    disk_let_go(disk, node);
    touch(folder);
    node_drop(node, 1);
    free(name);
}

void names_end(struct disk *disk)
{
    for (size_t place = 0; place < disk->table_size; place++) {
        while (disk->table[place]) {
            struct name *name = disk->table[place];
            disk->table[place] = name->after;
            node_drop(name->node, 1);
            free(name);
        }
    }
    free(disk->table);
}
