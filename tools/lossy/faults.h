// Faults that a disk is told to have while it runs: it is slow, or full, or bad in places.
#ifndef LOSSY_FAULTS_H
#define LOSSY_FAULTS_H

#include "disk.h"

// A call that reads, writes or syncs so many bytes takes its time.
void disk_wait(const struct disk *disk, size_t bytes);

// From now on its files may grow by so many bytes, to which what is removed comes; or without end.
void disk_bound(struct disk *disk, uint64_t bytes);
// How many bytes that are, or NO_BOUND.
uint64_t disk_room(const struct disk *disk);
// Whether a file may have a size: 0, or ENOSPC.
int disk_check_size(const struct disk *disk, const struct node *node, off_t size);
void disk_set_size(struct disk *disk, struct node *node, off_t size);
// What has no name and isn't open holds nothing.
void disk_let_go(struct disk *disk, const struct node *node);

// A part of a file is bad until its sector is written. One that can't be read is so in whole
// sectors; one that is told wrong has the lowest bit of each byte turned. EINVAL where it isn't in
// the file, or has more sectors than MOST_SECTORS.
enum { MOST_SECTORS = 4096 };
enum reading { FAILS, LIES };
int node_spoil(struct node *node, enum reading reading, off_t place, off_t length);
void node_mend(struct node *node, off_t place, off_t length);
void node_mend_all(struct node *node);
// Does to what was read of a file what its bad parts do: 0, or EIO.
int node_tell(const struct node *node, char *data, size_t length, off_t place);

#endif
