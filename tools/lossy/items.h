// What was done and isn't durable yet: the items of a disk, in order.
#ifndef LOSSY_ITEMS_H
#define LOSSY_ITEMS_H

#include "disk.h"

enum deed { WRITE, RESIZE, ZERO, MAKE, REMOVE, RENAME, EXCHANGE };

struct item {
    struct item *before, *after; // of all items, in order
    struct item *next;           // in its chain
    enum deed deed;
    double at;                // when it was done
    struct node *node;        // what it was done to
    struct node *folder, *to; // of a name: where; of a rename: where to as well
    struct node *other;       // of an exchange: what it was exchanged for
    char *text, *to_text;
    off_t place; // of what was written or zeroed; or the size
    size_t length;
    char data[];
};

int items_begin(struct disk *disk);
void items_end(struct disk *disk);

// An item that isn't added yet; NULL where there is no memory. A failed deed frees it.
struct item *item_of(enum deed deed, struct node *node, const void *data, size_t length);
struct item *item_of_name(enum deed deed, struct node *node, struct node *folder, const char *text);
void item_free(struct item *item);
void item_add(struct disk *disk, struct item *item);

// What a user is told of a fault of the disk's folder.
int fault_of(int why);
// Writes all of it: 0, or an errno.
int put(int file, const char *data, size_t length, off_t place);
// Zeros a part of a file, as a hole where that can be.
int zero(int file, off_t place, off_t length);

#endif
