// The nodes of a disk and their names, as users see them.
#ifndef LOSSY_NODES_H
#define LOSSY_NODES_H

#include "disk.h"

// A node with no name yet, and one reference; NULL where there is no memory.
struct node *node_of(struct disk *disk, const struct inode *what);
void touch(struct node *node);

// A name that has no place yet; NULL where there is no memory.
struct name *name_of(const char *text);
void name_add(struct disk *disk, struct node *folder, struct name *name, struct node *node);
void name_take(struct disk *disk, struct name *name);
int names_begin(struct disk *disk);
// Takes all names, and the table with them.
void names_end(struct disk *disk);

#endif
