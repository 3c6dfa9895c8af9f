// The program: it mounts a disk, or gives an order to one that is mounted.
#include <errno.h>
#include <fcntl.h>
#include <getopt.h>
#include <inttypes.h>
#include <limits.h>
#include <mntent.h>
#include <stdio.h>
#include <stdlib.h>
#include <string.h>
#include <sys/file.h>
#include <sys/mount.h>
#include <sys/resource.h>
#include <sys/wait.h>
#include <unistd.h>

#include "mount.h"

enum { DONE = 0, FAILED = 1, USAGE = 2 };

static const char USAGE_TEXT[] =
    "usage: faultyard-lossy mount [--deaf] [--foreground] [--writeback SECONDS] DISK MOUNT\n"
    "       faultyard-lossy sync MOUNT\n"
    "       faultyard-lossy cut MOUNT [TEAR]\n"
    "       faultyard-lossy unmount MOUNT\n"
    "       faultyard-lossy slow MOUNT SECONDS [BYTES]\n"
    "       faultyard-lossy room MOUNT BYTES|all\n"
    "       faultyard-lossy fail FILE PLACE LENGTH\n"
    "       faultyard-lossy lie FILE PLACE LENGTH\n";

static const char HELP_TEXT[] =
    "\n"
    "A disk that forgets what wasn't synced once its power is cut. The folder DISK has what is\n"
    "durable, and MOUNT shows the disk.\n"
    "\n"
    "faults of a mounted disk:\n"
    "  slow  each read, write and sync takes so many seconds longer, at most so many bytes a\n"
    "        second; 0 ends it\n"
    "  room  its files can grow by so many bytes together, to which what is removed comes\n"
    "  fail  these sectors of a file can't be read (EIO) until they are written; a file that is\n"
    "        open may still be read from the machine's memory\n"
    "  lie   these bytes are read with their lowest bit turned, until their sector is written\n"
    "\n"
    "options:\n"
    "  --deaf               syncs do nothing, as on a disk that lies\n"
    "  -f, --foreground     stay in the foreground\n"
    "  --writeback SECONDS  what is so old is durable by itself (30); 0 for never\n"
    "  --version            print the version\n"
    "  -h, --help           print help\n";

#ifndef FAULTYARD_VERSION // as `make lossy` has it of release/version
#define FAULTYARD_VERSION "of no release"
#endif

static const double WRITEBACK = 30; // as Linux has it

// Says how an order is called, in the one line of it, or which orders there are.
static int refuse(const char *deed)
{
    size_t length = strlen(deed);
    for (const char *line = USAGE_TEXT; *line; line = strchr(line, '\n') + 1) {
        const char *name = strstr(line, "faultyard-lossy ") + strlen("faultyard-lossy ");
        if (length && strncmp(name, deed, length) == 0 && name[length] == ' ') {
            fprintf(stderr, "usage: faultyard-lossy %.*s\n", (int)(strchr(name, '\n') - name),
                    name);
            return USAGE;
        }
    }
    fputs("usage: faultyard-lossy mount|sync|cut|unmount|slow|room|fail|lie ..\n", stderr);
    if (length)
        fprintf(stderr, "faultyard-lossy: there is no order '%s'\n", deed);
    return USAGE;
}

static int help(void)
{
    bool is_told = fputs(USAGE_TEXT, stdout) >= 0 && fputs(HELP_TEXT, stdout) >= 0;
    return is_told && !fflush(stdout) ? DONE : FAILED;
}

static int fail(const char *what, int why)
{
    fprintf(stderr, "faultyard-lossy: %s: %s\n", what, strerror(why));
    return FAILED;
}

// ---- mount ----

struct words {
    bool is_deaf, is_foreground;
    double writeback;
    const char *disk, *mount;
    const char *unknown; // an option that there isn't
};

static bool read_seconds(const char *text, double *seconds)
{
    char *end = NULL;
    *seconds = strtod(text, &end);
    return end != text && !*end && *seconds >= 0 && *seconds < 1e9;
}

static bool read_words(int count, char **texts, struct words *words)
{
    static const struct option known[] = {{"deaf", no_argument, NULL, 'd'},
                                          {"foreground", no_argument, NULL, 'f'},
                                          {"writeback", required_argument, NULL, 'w'},
                                          {NULL, 0, NULL, 0}};
    int found;
    *words = (struct words){.writeback = WRITEBACK};
    opterr = 0; // it would say `mount:`
    while ((found = getopt_long(count, texts, "f", known, NULL)) != -1) {
        if (found == 'd')
            words->is_deaf = true;
        else if (found == 'f')
            words->is_foreground = true;
        else if (found != 'w' || !read_seconds(optarg, &words->writeback)) {
            if (found == '?' && optopt != 'w') // that one lacks its seconds
                words->unknown = texts[optind - 1];
            return false;
        }
    }
    if (count - optind != 2)
        return false;
    words->disk = texts[optind];
    words->mount = texts[optind + 1];
    return true;
}

// Each file of a disk is open for as long as it is mounted.
static void allow_many_files(void)
{
    struct rlimit files;
    if (getrlimit(RLIMIT_NOFILE, &files))
        return;
    files.rlim_cur = files.rlim_max;
    (void)setrlimit(RLIMIT_NOFILE, &files);
}

static int mount_disk(int count, char **texts)
{
    struct disk disk = {.ring = NULL};
    struct words words;
    char *folder;
    int status, why;
    if (!read_words(count, texts, &words)) {
        status = refuse(texts[0]);
        if (words.unknown)
            fprintf(stderr, "faultyard-lossy: %s has no option '%s'\n", texts[0], words.unknown);
        return status;
    }
    allow_many_files();
    why = disk_open(&disk, words.disk);
    if (why == EBUSY)
        fprintf(stderr, "faultyard-lossy: %s is mounted already\n", words.disk);
    if (why)
        return why == EBUSY ? FAILED : fail(words.disk, why);
    folder = realpath(words.disk, NULL);
    if (!folder)
        return fail(words.disk, errno);
    disk.is_deaf = words.is_deaf;
    disk.writeback = words.writeback;
    status = disk_serve(&disk, folder, words.mount, words.is_foreground);
    free(folder);
    return disk_close(&disk) && !status ? FAILED : status;
}

// ---- orders to a mounted disk ----

struct mounted {
    char *mount, *disk;
};

static void free_mounted(struct mounted *it)
{
    free(it->mount);
    free(it->disk);
}

// The whole path of a folder which may be the mount of a disk that has died, and answers nothing.
static char *whole_path(const char *path)
{
    char *copy = strdup(path), *slash, *parent, *whole = NULL;
    size_t length = copy ? strlen(copy) : 0;
    while (length > 1 && copy[length - 1] == '/')
        copy[--length] = '\0';
    slash = copy ? strrchr(copy, '/') : NULL;
    if (slash && slash != copy)
        *slash = '\0';
    parent = copy ? realpath(slash ? copy : ".", NULL) : NULL;
    if (parent && asprintf(&whole, "%s/%s", parent, slash ? slash + 1 : copy) < 0)
        whole = NULL;
    free(parent);
    free(copy);
    return whole;
}

static bool find_mounted(const char *path, struct mounted *found)
{
    FILE *mounts = setmntent("/proc/self/mounts", "r");
    const struct mntent *entry;
    *found = (struct mounted){whole_path(path), NULL};
    while (mounts && found->mount && (entry = getmntent(mounts))) {
        if (strcmp(entry->mnt_dir, found->mount) != 0)
            continue;
        free(found->disk); // the last one is on top
        found->disk =
            strcmp(entry->mnt_type, "fuse." LOSSY_TYPE) == 0 ? strdup(entry->mnt_fsname) : NULL;
    }
    if (mounts)
        endmntent(mounts);
    if (found->disk)
        return true;
    fprintf(stderr, "faultyard-lossy: %s is no mounted disk of faultyard-lossy\n", path);
    free_mounted(found);
    return false;
}

static int give(const char *path, int flags, unsigned long command, void *order)
{
    int why, file = open(path, O_RDONLY | O_CLOEXEC | O_NONBLOCK | flags);
    if (file < 0)
        return errno;
    why = ioctl(file, command, order) ? errno : 0;
    close(file);
    return why;
}

static int by_fusermount(const char *mount, bool is_lazy)
{
    int status = 0;
    pid_t child = fork();
    if (child < 0)
        return errno;
    if (child == 0) {
        execlp("fusermount3", "fusermount3", is_lazy ? "-uz" : "-u", "--", mount, (char *)NULL);
        _exit(127);
    }
    while (waitpid(child, &status, 0) < 0 && errno == EINTR)
        continue;
    return status ? EBUSY : 0;
}

static int take_off(const char *mount, bool is_lazy)
{
    if (!umount2(mount, (is_lazy ? MNT_DETACH : 0) | UMOUNT_NOFOLLOW))
        return 0;
    return errno == EPERM ? by_fusermount(mount, is_lazy) : errno;
}

// A disk is locked for as long as it is served.
static void wait_for_its_end(const char *disk)
{
    int folder = open(disk, O_RDONLY | O_DIRECTORY | O_CLOEXEC);
    if (folder < 0)
        return;
    while (flock(folder, LOCK_SH) && errno == EINTR)
        continue;
    close(folder);
}

static int sync_disk(const struct mounted *it)
{
    struct order order = {0, {0, 0}};
    int why = give(it->mount, O_DIRECTORY, LOSSY_SYNC, &order);
    return why ? fail(it->mount, why) : DONE;
}

static int cut_disk(const struct mounted *it, uint64_t tear)
{
    struct order order = {tear, {0, 0}};
    int why = give(it->mount, O_DIRECTORY, LOSSY_CUT, &order);
    if (why)
        return fail(it->mount, why);
    why = take_off(it->mount, true);
    if (why)
        return fail(it->mount, why);
    wait_for_its_end(it->disk);
    printf("%" PRIu64 " of %" PRIu64 " unsynced items survive\n", order.count.survived,
           order.count.unsynced);
    return DONE;
}

// A disk that has died is taken off too: what it hadn't synced is lost.
static int unmount_disk(const struct mounted *it)
{
    struct order order = {0, {0, 0}};
    int why = give(it->mount, O_DIRECTORY, LOSSY_SYNC, &order);
    if (why && why != ENOTCONN)
        return fail(it->mount, why);
    why = take_off(it->mount, false);
    if (why)
        return fail(it->mount, why);
    wait_for_its_end(it->disk);
    return DONE;
}

static bool read_number(const char *text, uint64_t *number)
{
    char *end = NULL;
    errno = 0;
    *number = strtoull(text, &end, 10);
    return *text >= '0' && *text <= '9' && !*end && !errno;
}

static int order_sync(int count, char **texts)
{
    struct mounted it;
    int status;
    if (count != 2)
        return refuse(texts[0]);
    if (!find_mounted(texts[1], &it))
        return FAILED;
    status = sync_disk(&it);
    free_mounted(&it);
    return status;
}

static int order_cut(int count, char **texts)
{
    struct mounted it;
    uint64_t tear = 0;
    int status;
    if (count < 2 || count > 3 || (count == 3 && !read_number(texts[2], &tear)))
        return refuse(texts[0]);
    if (!find_mounted(texts[1], &it))
        return FAILED;
    status = cut_disk(&it, tear);
    free_mounted(&it);
    return status;
}

static int order_unmount(int count, char **texts)
{
    struct mounted it;
    int status;
    if (count != 2)
        return refuse(texts[0]);
    if (!find_mounted(texts[1], &it))
        return FAILED;
    status = unmount_disk(&it);
    free_mounted(&it);
    return status;
}

// ---- faults of a mounted disk ----

// Gives a mounted disk an order by its top folder.
static int tell(const char *path, unsigned long command, void *order)
{
    struct mounted it;
    int why;
    if (!find_mounted(path, &it))
        return FAILED;
    why = give(it.mount, O_DIRECTORY, command, order);
    free_mounted(&it);
    return why ? fail(path, why) : DONE;
}

static int order_slow(int count, char **texts)
{
    struct pace pace = {0, 0};
    uint64_t bytes = 0;
    if (count < 3 || count > 4 || !read_seconds(texts[2], &pace.call) ||
        (count == 4 && (!read_number(texts[3], &bytes) || !bytes)))
        return refuse(texts[0]);
    pace.byte = bytes ? 1 / (double)bytes : 0;
    return tell(texts[1], LOSSY_SLOW, &pace);
}

static int order_room(int count, char **texts)
{
    uint64_t bytes = NO_BOUND;
    if (count != 3 || (strcmp(texts[2], "all") != 0 && !read_number(texts[2], &bytes)))
        return refuse(texts[0]);
    return tell(texts[1], LOSSY_ROOM, &bytes);
}

static int order_spoil(int count, char **texts)
{
    struct part part;
    uint64_t place, length;
    int why;
    if (count != 4 || !read_number(texts[2], &place) || !read_number(texts[3], &length) ||
        place > INT64_MAX || length > INT64_MAX)
        return refuse(texts[0]);
    part = (struct part){(int64_t)place, (int64_t)length};
    why = give(texts[1], 0, strcmp(texts[0], "fail") == 0 ? LOSSY_FAIL : LOSSY_LIE, &part);
    if (why != ENOTTY)
        return why ? fail(texts[1], why) : DONE;
    fprintf(stderr, "faultyard-lossy: %s is no file of a mounted disk of faultyard-lossy\n",
            texts[1]);
    return FAILED;
}

static const struct {
    const char *name;
    int (*call)(int count, char **texts);
} DEEDS[] = {{"mount", mount_disk},      {"sync", order_sync}, {"cut", order_cut},
             {"unmount", order_unmount}, {"slow", order_slow}, {"room", order_room},
             {"fail", order_spoil},      {"lie", order_spoil}};

int main(int count, char **texts)
{
    const char *deed = count > 1 ? texts[1] : "";
    if (count == 2 && (strcmp(deed, "--help") == 0 || strcmp(deed, "-h") == 0))
        return help();
    if (count == 2 && strcmp(deed, "--version") == 0)
        return puts("faultyard-lossy " FAULTYARD_VERSION) >= 0 && !fflush(stdout) ? DONE : FAILED;
    for (size_t place = 0; place < sizeof DEEDS / sizeof *DEEDS; place++)
        if (strcmp(deed, DEEDS[place].name) == 0)
            return DEEDS[place].call(count - 1, texts + 1);
    return refuse(deed);
}
