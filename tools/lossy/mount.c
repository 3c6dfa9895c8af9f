// The disk as FUSE asks for it: each request is a call of the disk and a reply.
#include "mount.h"

#include <errno.h>
#include <fcntl.h>
#include <stdio.h>
#include <stdlib.h>
#include <string.h>
#include <sys/statvfs.h>
#include <time.h>
#include <unistd.h>

#include "faults.h"
#include "requests.h"

static const double FOREVER = 1e6; // nothing changes behind the kernel's back

static struct stat stat_of(const struct node *node)
{
    struct stat st = node->st;
    st.st_blocks = (st.st_size + 511) / 512;
    return st;
}

// ---- names ----

static struct fuse_entry_param entry_of(struct node *node)
{
    struct fuse_entry_param entry = {.attr_timeout = FOREVER, .entry_timeout = FOREVER};
    if (!node)
        return entry; // the kernel remembers that there is none
    entry.ino = (fuse_ino_t)node;
    entry.attr = stat_of(node);
    node->references++;
    return entry;
}

static void reply_entry(fuse_req_t request, int why, struct node *node)
{
    struct fuse_entry_param entry;
    if (why) {
        fuse_reply_err(request, why);
        return;
    }
    entry = entry_of(node);
    fuse_reply_entry(request, &entry);
}

static void look_up(fuse_req_t request, fuse_ino_t folder, const char *text)
{
    const struct name *name = disk_find(disk_of(request), node_at(request, folder), text);
    reply_entry(request, disk_check_name(disk_of(request), text), name ? name->node : NULL);
}

static void forget(fuse_req_t request, fuse_ino_t number, uint64_t count)
{
    if (number != FUSE_ROOT_ID)
        node_drop(node_at(request, number), count);
    fuse_reply_none(request);
}

static int make(fuse_req_t request, fuse_ino_t in, const char *text, mode_t mode,
                const char *target, struct node **made)
{
    const struct fuse_ctx *caller = fuse_req_ctx(request);
    struct node *folder = node_at(request, in);
    struct inode what = {mode, caller->uid, caller->gid, target};
    if (folder->st.st_mode & S_ISGID) {
        what.group = folder->st.st_gid;
        what.mode |= S_ISDIR(mode) ? S_ISGID : 0;
    }
    return disk_make(disk_of(request), folder, text, &what, made);
}

static void make_any(fuse_req_t request, fuse_ino_t folder, const char *text, mode_t mode,
                     const char *target)
{
    struct node *node = NULL;
    int why = make(request, folder, text, mode, target, &node);
    reply_entry(request, why, node);
}

static void make_node(fuse_req_t request, fuse_ino_t folder, const char *text, mode_t mode,
                      dev_t device)
{
    (void)device;
    if (S_ISCHR(mode) || S_ISBLK(mode))
        fuse_reply_err(request, EPERM);
    else
        make_any(request, folder, text, mode, NULL);
}

static void make_folder(fuse_req_t request, fuse_ino_t folder, const char *text, mode_t mode)
{
    make_any(request, folder, text, S_IFDIR | mode, NULL);
}

static void make_symlink(fuse_req_t request, const char *target, fuse_ino_t folder,
                         const char *text)
{
    make_any(request, folder, text, S_IFLNK | 0777, target);
}

static void make_link(fuse_req_t request, fuse_ino_t number, fuse_ino_t folder, const char *text)
{
    struct node *node = node_at(request, number);
    int why = disk_link(disk_of(request), node, node_at(request, folder), text);
    reply_entry(request, why, node);
}

static void take(fuse_req_t request, fuse_ino_t folder, const char *text)
{
    fuse_reply_err(request, disk_remove(disk_of(request), node_at(request, folder), text));
}

static void change_name(fuse_req_t request, fuse_ino_t folder, const char *text, fuse_ino_t to,
                        const char *to_text, unsigned flags)
{
    struct node *from = node_at(request, folder), *into = node_at(request, to);
    fuse_reply_err(request, disk_rename(disk_of(request), from, text, into, to_text, flags));
}

static void read_symlink(fuse_req_t request, fuse_ino_t number)
{
    fuse_reply_readlink(request, node_at(request, number)->target);
}

// ---- attributes ----

static void reply_attributes(fuse_req_t request, fuse_ino_t number, struct fuse_file_info *file)
{
    struct stat st = stat_of(node_at(request, number));
    (void)file;
    fuse_reply_attr(request, &st, FOREVER);
}

// The times that are wanted, those of now by the clock.
static struct timespec time_of(int is_now, struct timespec wanted)
{
    struct timespec it = wanted;
    if (is_now)
        clock_gettime(CLOCK_REALTIME, &it);
    return it;
}

static int wanted_of(const struct node *node, struct stat *wanted, int to_set)
{
    int what = (to_set & FUSE_SET_ATTR_MODE ? SET_MODE : 0) |
               (to_set & FUSE_SET_ATTR_UID ? SET_USER : 0) |
               (to_set & FUSE_SET_ATTR_GID ? SET_GROUP : 0) |
               (to_set & (FUSE_SET_ATTR_ATIME | FUSE_SET_ATTR_MTIME) ? SET_TIMES : 0);
    wanted->st_atim = to_set & FUSE_SET_ATTR_ATIME
                          ? time_of(to_set & FUSE_SET_ATTR_ATIME_NOW, wanted->st_atim)
                          : node->st.st_atim;
    wanted->st_mtim = to_set & FUSE_SET_ATTR_MTIME
                          ? time_of(to_set & FUSE_SET_ATTR_MTIME_NOW, wanted->st_mtim)
                          : node->st.st_mtim;
    return what;
}

static void set_attributes(fuse_req_t request, fuse_ino_t number, struct stat *wanted, int to_set,
                           struct fuse_file_info *file)
{
    struct node *node = node_at(request, number);
    int why = 0, what;
    if (to_set & FUSE_SET_ATTR_SIZE)
        why = disk_resize(disk_of(request), node, wanted->st_size);
    what = wanted_of(node, wanted, to_set);
    if (!why && what)
        why = disk_set(node, wanted, what);
    if (why)
        fuse_reply_err(request, why);
    else
        reply_attributes(request, number, file);
}

// ---- files ----

static void opened(struct node *node, struct fuse_file_info *file)
{
    node->opens++;
    file->keep_cache = !node->bad; // what is bad is read from the disk again
}

static void create_file(fuse_req_t request, fuse_ino_t folder, const char *text, mode_t mode,
                        struct fuse_file_info *file)
{
    struct node *node = NULL;
    int why = make(request, folder, text, S_IFREG | mode, NULL, &node);
    struct fuse_entry_param entry;
    if (why) {
        fuse_reply_err(request, why);
        return;
    }
    opened(node, file);
    entry = entry_of(node);
    fuse_reply_create(request, &entry, file);
}

static void open_file(fuse_req_t request, fuse_ino_t number, struct fuse_file_info *file)
{
    struct node *node = node_at(request, number);
    int why = file->flags & O_TRUNC ? disk_resize(disk_of(request), node, 0) : 0;
    if (why) {
        fuse_reply_err(request, why);
        return;
    }
    opened(node, file);
    fuse_reply_open(request, file);
}

static void close_file(fuse_req_t request, fuse_ino_t number, struct fuse_file_info *file)
{
    struct node *node = node_at(request, number);
    (void)file;
    node->opens--;
    disk_let_go(disk_of(request), node);
    node_settle(node);
    fuse_reply_err(request, 0);
}

static void read_file(fuse_req_t request, fuse_ino_t number, size_t size, off_t place,
                      struct fuse_file_info *file)
{
    const struct node *node = node_at(request, number);
    char *part = malloc(size);
    ssize_t got = part ? pread(node_contents(node), part, size, place) : -1;
    int why = part ? errno : ENOMEM;
    (void)file;
    disk_wait(disk_of(request), size);
    if (got >= 0)
        why = node_tell(node, part, (size_t)got, place);
    if (got < 0 || why)
        fuse_reply_err(request, why);
    else
        fuse_reply_buf(request, part, (size_t)got);
    free(part);
}

static void write_file(fuse_req_t request, fuse_ino_t number, const char *data, size_t size,
                       off_t place, struct fuse_file_info *file)
{
    struct node *node = node_at(request, number);
    int why = disk_write(disk_of(request), node, data, size, place);
    disk_wait(disk_of(request), size);
    if (!why && file->flags & O_DSYNC) // O_SYNC has this bit too
        why = disk_sync(disk_of(request), node);
    if (why)
        fuse_reply_err(request, why);
    else
        fuse_reply_write(request, size);
}

static void sync_node(fuse_req_t request, fuse_ino_t number, int is_data_only,
                      struct fuse_file_info *file)
{
    (void)is_data_only;
    (void)file;
    disk_wait(disk_of(request), 0);
    fuse_reply_err(request, disk_sync(disk_of(request), node_at(request, number)));
}

static void allocate(fuse_req_t request, fuse_ino_t number, int mode, off_t place, off_t length,
                     struct fuse_file_info *file)
{
    struct node *node = node_at(request, number);
    (void)file;
    fuse_reply_err(request, disk_allocate(disk_of(request), node, mode, place, length));
}

// ---- folders: what one has is listed as it is opened ----

struct listing {
    size_t length;
    char *data;
};

static int list(fuse_req_t request, struct listing *listing, const char *text,
                const struct node *node)
{
    size_t begin = listing->length, size = fuse_add_direntry(request, NULL, 0, text, NULL, 0);
    char *data = realloc(listing->data, begin + size);
    if (!data)
        return ENOMEM;
    listing->data = data;
    listing->length += size;
    fuse_add_direntry(request, data + begin, size, text, &node->st, (off_t)listing->length);
    return 0;
}

static void free_listing(struct listing *listing)
{
    if (listing)
        free(listing->data);
    free(listing);
}

static void open_folder(fuse_req_t request, fuse_ino_t number, struct fuse_file_info *file)
{
    const struct node *folder = node_at(request, number);
    struct listing *listing = calloc(1, sizeof *listing);
    int why = listing ? list(request, listing, ".", folder) : ENOMEM;
    if (!why)
        why = list(request, listing, "..", folder->parent ? folder->parent : folder);
    for (const struct name *name = folder->names; name && !why; name = name->next)
        why = list(request, listing, name->text, name->node);
    if (why) {
        free_listing(listing);
        fuse_reply_err(request, why);
        return;
    }
    file->fh = (uint64_t)listing;
    fuse_reply_open(request, file);
}

static void read_folder(fuse_req_t request, fuse_ino_t number, size_t size, off_t place,
                        struct fuse_file_info *file)
{
    const struct listing *listing = (const struct listing *)file->fh;
    size_t from = (size_t)place < listing->length ? (size_t)place : listing->length;
    size_t left = listing->length - from;
    (void)number;
    fuse_reply_buf(request, listing->data + from, left < size ? left : size);
}

static void close_folder(fuse_req_t request, fuse_ino_t number, struct fuse_file_info *file)
{
    (void)number;
    free_listing((struct listing *)file->fh);
    fuse_reply_err(request, 0);
}

static void tell_space(fuse_req_t request, fuse_ino_t number)
{
    struct statvfs space;
    fsblkcnt_t room;
    (void)number;
    if (fstatvfs(disk_of(request)->root->durable, &space)) {
        fuse_reply_err(request, errno);
        return;
    }
    room = disk_room(disk_of(request)) / space.f_frsize;
    space.f_bfree = room < space.f_bfree ? room : space.f_bfree;
    space.f_bavail = room < space.f_bavail ? room : space.f_bavail;
    fuse_reply_statfs(request, &space);
}

// ---- the session ----

static void begin(void *data, struct fuse_conn_info *kernel)
{
    (void)data;
    kernel->want &= ~(unsigned)FUSE_CAP_AUTO_INVAL_DATA;
}

// There is no getxattr: so the kernel doesn't ask for security.capability before each write.
static const struct fuse_lowlevel_ops CALLS = {
    .init = begin,
    .lookup = look_up,
    .forget = forget,
    .getattr = reply_attributes,
    .setattr = set_attributes,
    .readlink = read_symlink,
    .mknod = make_node,
    .mkdir = make_folder,
    .unlink = take,
    .rmdir = take,
    .symlink = make_symlink,
    .rename = change_name,
    .link = make_link,
    .open = open_file,
    .read = read_file,
    .write = write_file,
    .release = close_file,
    .fsync = sync_node,
    .opendir = open_folder,
    .readdir = read_folder,
    .releasedir = close_folder,
    .fsyncdir = sync_node,
    .statfs = tell_space,
    .create = create_file,
    .fallocate = allocate,
    .ioctl = disk_obey,
};

static int add_options(struct fuse_args *args, const char *folder)
{
    char *options = strdup("default_permissions,subtype=" LOSSY_TYPE), *source = NULL;
    bool is_short = !options || asprintf(&source, "fsname=%s", folder) < 0 ||
                    fuse_opt_add_opt_escaped(&options, source) ||
                    (geteuid() == 0 && fuse_opt_add_opt(&options, "allow_other")) ||
                    fuse_opt_add_arg(args, "faultyard-lossy") || fuse_opt_add_arg(args, "-o") ||
                    fuse_opt_add_arg(args, options);
    free(options);
    free(source);
    return is_short ? ENOMEM : 0;
}

static int serve(struct disk *disk, struct fuse_session *session, bool is_foreground)
{
    int why = fuse_daemonize(is_foreground);
    if (!why)
        (void)fuse_session_loop(session);
    disk->failed = 0;
    if (disk_sync_all(disk))
        disk_say_failed(disk, "what was unsynced at the end is lost");
    return why || disk->failed ? 1 : 0;
}

int disk_serve(struct disk *disk, const char *folder, const char *mount, bool is_foreground)
{
    struct fuse_args args = FUSE_ARGS_INIT(0, NULL);
    struct fuse_session *session = NULL;
    int status = 1;
    umask(0);
    if (!add_options(&args, folder))
        session = fuse_session_new(&args, &CALLS, sizeof CALLS, disk);
    if (session && !fuse_set_signal_handlers(session) && !fuse_session_mount(session, mount)) {
        status = serve(disk, session, is_foreground);
        fuse_session_unmount(session);
    }
    if (session)
        fuse_session_destroy(session);
    fuse_opt_free_args(&args);
    return status;
}
