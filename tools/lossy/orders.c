// The orders that a mounted disk takes, by ioctl.
#include <errno.h>
#include <stdio.h>
#include <string.h>
#include <unistd.h>

#include "faults.h"
#include "mount.h"
#include "requests.h"

void disk_say_failed(const struct disk *disk, const char *what)
{
    fprintf(stderr, "faultyard-lossy: %s: %s\n", what, strerror(disk->failed));
}

// ---- orders to a disk, by its top folder ----

static void cut(fuse_req_t request, const void *in)
{
    struct disk *disk = disk_of(request);
    struct order order;
    memcpy(&order, in, sizeof order);
    order.count = disk_cut(disk, order.tear);
    if (disk->failed)
        disk_say_failed(disk, "not all that survives the cut could be written");
    fuse_reply_ioctl(request, 0, &order, sizeof order);
    _exit(disk->failed ? 1 : 0); // the machine is off
}

static void sync_everything(fuse_req_t request, const void *in)
{
    int why = disk_sync_all(disk_of(request));
    if (why)
        fuse_reply_err(request, why);
    else
        fuse_reply_ioctl(request, 0, in, sizeof(struct order));
}

static void set_pace(fuse_req_t request, const void *in)
{
    memcpy(&disk_of(request)->pace, in, sizeof(struct pace));
    fuse_reply_ioctl(request, 0, NULL, 0);
}

static void set_room(fuse_req_t request, const void *in)
{
    uint64_t bytes;
    memcpy(&bytes, in, sizeof bytes);
    disk_bound(disk_of(request), bytes);
    fuse_reply_ioctl(request, 0, NULL, 0);
}

// ---- orders to a file ----

static void spoil(fuse_req_t request, fuse_ino_t number, enum reading reading, const void *in)
{
    struct part part;
    int why;
    memcpy(&part, in, sizeof part);
    why = node_spoil(node_at(request, number), reading, part.place, part.length);
    if (why)
        fuse_reply_err(request, why);
    else
        fuse_reply_ioctl(request, 0, NULL, 0);
}

static void obey_on_top(fuse_req_t request, unsigned command, const void *in)
{
    if (command == LOSSY_CUT)
        cut(request, in);
    else if (command == LOSSY_SYNC)
        sync_everything(request, in);
    else if (command == LOSSY_SLOW)
        set_pace(request, in);
    else if (command == LOSSY_ROOM)
        set_room(request, in);
    else
        fuse_reply_err(request, ENOTTY);
}

static void obey_on_file(fuse_req_t request, fuse_ino_t number, unsigned command, const void *in)
{
    if (command == LOSSY_FAIL || command == LOSSY_LIE)
        spoil(request, number, command == LOSSY_FAIL ? FAILS : LIES, in);
    else
        fuse_reply_err(request, ENOTTY);
}

// The sizes that an order by ioctl has stand in its number.
static bool is_whole(unsigned command, size_t in_size, size_t out_size)
{
    size_t size = _IOC_SIZE(command);
    return in_size == size && out_size == (_IOC_DIR(command) & _IOC_READ ? size : 0);
}

void disk_obey(fuse_req_t request, fuse_ino_t number, unsigned command, void *argument,
               struct fuse_file_info *file, unsigned flags, const void *in, size_t in_size,
               size_t out_size)
{
    const struct fuse_ctx *caller = fuse_req_ctx(request);
    bool is_top = number == FUSE_ROOT_ID;
    (void)argument;
    (void)file;
    (void)flags;
    if (!is_whole(command, in_size, out_size) ||
        (!is_top && !S_ISREG(node_at(request, number)->st.st_mode)))
        fuse_reply_err(request, ENOTTY);
    else if (caller->uid != 0 && caller->uid != geteuid())
        fuse_reply_err(request, EPERM);
    else if (is_top)
        obey_on_top(request, command, in);
    else
        obey_on_file(request, number, command, in);
}
