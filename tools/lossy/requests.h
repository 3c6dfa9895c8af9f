// What a request of FUSE is about.
#ifndef LOSSY_REQUESTS_H
#define LOSSY_REQUESTS_H

#define FUSE_USE_VERSION 35
#include <fuse_lowlevel.h>

#include "disk.h"

static inline struct disk *disk_of(fuse_req_t request)
{
    return fuse_req_userdata(request);
}

static inline struct node *node_at(fuse_req_t request, fuse_ino_t number)
{
    return number == FUSE_ROOT_ID ? disk_of(request)->root : (struct node *)number;
}

// Says on standard error what of a disk couldn't be made durable.
void disk_say_failed(const struct disk *disk, const char *what);

// An order by ioctl.
void disk_obey(fuse_req_t request, fuse_ino_t number, unsigned command, void *argument,
               struct fuse_file_info *file, unsigned flags, const void *in, size_t in_size,
               size_t out_size);

#endif
