// A disk that forgets what was not synced once its power is cut: the disk itself, without FUSE.
//
// The folder of a disk has what is durable, as plain files, and nothing else. What isn't is in the
// memory of this process: the contents of changed files, all names, and a list of what was done,
// in order. A sync does the items of a file or folder in the disk's folder. The end of the process
// is a power cut of which nothing survives.
//
// A file has a chain of its unsynced items, and all names together have one. So a sync of a file
// or folder makes the whole chain of that file durable; and of the names those up to the last one
// that concerns it. That is the least that ext4, xfs and btrfs promise.
//
// One thread at a time may call. A call answers 0, or the errno of why it did nothing.
#ifndef LOSSY_DISK_H
#define LOSSY_DISK_H

#include <stdbool.h>
#include <stddef.h>
#include <stdint.h>
#include <sys/stat.h>
#include <sys/types.h>

// A write counts as its sectors: a cut keeps each or loses it.
enum { SECTOR = 4096 };

struct bad;
struct item;
struct name;

struct chain {
    struct item *first, **last;
};

struct node {
    struct stat st;      // as users see it
    int durable;         // the inode in the disk's folder, or -1
    int live;            // the contents as users see them, or -1 if those are the durable ones
    char *target;        // of a symbolic link
    struct name *names;  // of a folder
    struct node *parent; // of a folder
    struct chain chain;  // of a file: its unsynced items
    struct bad *bad;     // of a file: what can't be read, or is told wrong
    unsigned long references, opens;
};

struct name {
    struct name *next, *previous; // in the folder
    struct name *after;           // in the bucket of the table
    struct node *folder, *node;
    char text[];
};

// How slow a disk is: in seconds, a call and each byte of it.
struct pace {
    double call, byte;
};

#define NO_BOUND UINT64_MAX

struct disk {
    struct node *root;
    struct item *ring;  // all unsynced items in order, between its `after` and its `before`
    struct chain names; // those of names
    struct name **table;
    size_t table_size, name_count, unsynced_bytes;
    size_t longest_name; // that the disk's folder can have
    ino_t numbers;
    bool is_deaf;     // a sync does nothing
    double writeback; // after so many seconds what was done is durable by itself; 0 for never
    int failed;       // why something couldn't be made durable, or 0
    struct pace pace;
    uint64_t held;  // the sizes of all files, as users see them
    uint64_t bound; // of what is held, or NO_BOUND
};

struct count {
    uint64_t survived, unsynced;
};

struct inode {
    mode_t mode;
    uid_t user;
    gid_t group;
    const char *target; // of a symbolic link
};

// The disk that is in a folder, which no other process may have open.
int disk_open(struct disk *disk, const char *folder);
// An orderly end: all is made durable. The answer says whether it could be.
int disk_close(struct disk *disk);

// A reference is held by each name, by each item, and by whom took one.
void node_drop(struct node *node, unsigned long references);

// Whether the disk's folder can have a name: 0, or ENAMETOOLONG. All calls ask first.
int disk_check_name(const struct disk *disk, const char *text);
struct name *disk_find(const struct disk *disk, const struct node *folder, const char *text);
int disk_make(struct disk *disk, struct node *folder, const char *text, const struct inode *what,
              struct node **made);
// Only a file may have several names.
int disk_link(struct disk *disk, struct node *node, struct node *folder, const char *text);
int disk_remove(struct disk *disk, struct node *folder, const char *text);
// The flags are those of renameat2.
int disk_rename(struct disk *disk, struct node *folder, const char *text, struct node *to,
                const char *to_text, unsigned flags);

// Owners, modes and times are durable at once. `wanted` has those that are to be set.
enum { SET_MODE = 1, SET_USER = 2, SET_GROUP = 4, SET_TIMES = 8 };
int disk_set(struct node *node, const struct stat *wanted, int what);

// The descriptor that has the contents of a file.
int node_contents(const struct node *node);
// A file that isn't open and has nothing unsynced isn't kept in memory.
void node_settle(struct node *node);
int disk_write(struct disk *disk, struct node *node, const void *data, size_t length, off_t place);
int disk_resize(struct disk *disk, struct node *node, off_t size);
// The mode is that of fallocate; it preallocates, punches holes and writes zeros.
int disk_allocate(struct disk *disk, struct node *node, int mode, off_t place, off_t length);

int disk_sync(struct disk *disk, struct node *node);
int disk_sync_all(struct disk *disk);
// The power is cut: of the unsynced items in order those survive whose bit of the tear is 1; the
// mask repeats after 64 places. Nothing may be done with the disk afterwards.
struct count disk_cut(struct disk *disk, uint64_t tear);

#endif
