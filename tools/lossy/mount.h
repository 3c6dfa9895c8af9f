// A disk mounted by FUSE, and the orders that a mounted disk takes: ioctls on its top folder, or on
// a file.
#ifndef LOSSY_MOUNT_H
#define LOSSY_MOUNT_H

#include <sys/ioctl.h>

#include "disk.h"

#define LOSSY_TYPE "faultyard-lossy"

struct order {
    uint64_t tear;      // of a cut
    struct count count; // the answer: what was unsynced, and what of it survived
};

struct part {
    int64_t place, length; // of a file
};

#define LOSSY_SYNC _IOWR('y', 1, struct order)
#define LOSSY_CUT _IOWR('y', 2, struct order)
#define LOSSY_SLOW _IOW('y', 3, struct pace)
#define LOSSY_ROOM _IOW('y', 4, uint64_t)
#define LOSSY_FAIL _IOW('y', 5, struct part) // on a file, as the next one
#define LOSSY_LIE _IOW('y', 6, struct part)

// Serves a disk until it is unmounted, cut or ended by a signal. The answer is the program's
// status: 0 if all was made durable.
int disk_serve(struct disk *disk, const char *folder, const char *mount, bool is_foreground);

#endif
