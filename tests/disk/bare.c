// Drives the disk of tools/lossy without a mount: a call is a line, and so is its answer.
//
//   bare FOLDER [deaf]
//
// The answer is `ok`, `errno N`, or what is asked for. Contents are in hexadecimal digits.
#include <errno.h>
#include <inttypes.h>
#include <stdio.h>
#include <stdlib.h>
#include <string.h>
#include <unistd.h>

#include "disk.h"
#include "faults.h"

static struct disk disk;
static char *words[8];

static void fail(const char *what)
{
    fprintf(stderr, "bare: %s\n", what);
    exit(2);
}

static void answer(int why)
{
    if (why)
        printf("errno %d\n", why);
    else
        puts("ok");
}

// The node of a path below the top, or NULL; `.` is the top.
static struct node *at(const char *path)
{
    struct node *node = disk.root;
    char *copy = strdup(path), *rest = copy, *part;
    while (node && (part = strsep(&rest, "/"))) {
        const struct name *name = strcmp(part, ".") ? disk_find(&disk, node, part) : NULL;
        node = name ? name->node : strcmp(part, ".") ? NULL : node;
    }
    free(copy);
    if (!node)
        fail(path);
    return node;
}

// The folder of a path, and the last part of it.
static struct node *in(const char *path, const char **last)
{
    const char *slash = strrchr(path, '/');
    char *folder = strndup(path, slash ? (size_t)(slash - path) : 0);
    struct node *node = at(slash ? folder : ".");
    free(folder);
    *last = slash ? slash + 1 : path;
    return node;
}

static long long number(const char *text)
{
    return strtoll(text, NULL, 10);
}

static void make(void)
{
    struct inode what = {(mode_t)number(words[2]), getuid(), getgid(), words[3]};
    struct node *made;
    const char *last;
    struct node *folder = in(words[1], &last);
    answer(disk_make(&disk, folder, last, &what, &made));
}

static int digit(char sign)
{
    return sign <= '9' ? sign - '0' : sign - 'a' + 10;
}

static int write_digits(struct node *node, const char *digits, off_t place)
{
    size_t length = strlen(digits) / 2;
    char *data = malloc(length + 1);
    int why;
    for (size_t done = 0; done < length; done++)
        data[done] = (char)(digit(digits[2 * done]) << 4 | digit(digits[2 * done + 1]));
    why = disk_write(&disk, node, data, length, place);
    free(data);
    return why;
}

static void change(void)
{
    struct node *node = at(words[1]);
    int why;
    node->opens++;
    if (!strcmp(words[0], "write"))
        why = write_digits(node, words[3], number(words[2]));
    else if (!strcmp(words[0], "resize"))
        why = disk_resize(&disk, node, number(words[2]));
    else
        why = disk_allocate(&disk, node, (int)number(words[2]), number(words[3]), number(words[4]));
    node->opens--;
    node_settle(node);
    answer(why);
}

static void chmod_node(void)
{
    struct stat wanted = {.st_mode = (mode_t)number(words[2])};
    answer(disk_set(at(words[1]), &wanted, SET_MODE));
}

static void set_room(void)
{
    disk_bound(&disk, strtoull(words[1], NULL, 10));
    answer(0);
}

static void rename_node(void)
{
    const char *last, *to_last;
    struct node *folder = in(words[1], &last), *to = in(words[2], &to_last);
    answer(disk_rename(&disk, folder, last, to, to_last, (unsigned)number(words[3])));
}

static void link_node(void)
{
    const char *last;
    struct node *node = at(words[1]), *folder = in(words[2], &last);
    answer(disk_link(&disk, node, folder, last));
}

static void remove_node(void)
{
    const char *last;
    struct node *folder = in(words[1], &last);
    answer(disk_remove(&disk, folder, last));
}

static void show_contents(const struct node *node)
{
    static char part[1 << 15], digits[1 << 16];
    ssize_t got;
    for (off_t place = 0; (got = pread(node_contents(node), part, sizeof part, place)) > 0;) {
        for (ssize_t done = 0; done < got; done++) {
            digits[2 * done] = "0123456789abcdef"[(unsigned char)part[done] >> 4];
            digits[2 * done + 1] = "0123456789abcdef"[(unsigned char)part[done] & 15];
        }
        fwrite(digits, 2, (size_t)got, stdout);
        place += got;
    }
}

static void show_below(const struct node *folder, const char *path)
{
    for (const struct name *name = folder->names; name; name = name->next) {
        const struct node *node = name->node;
        char *whole = NULL;
        if (asprintf(&whole, "%s%s", path, name->text) < 0)
            fail("no memory");
        printf("%s %o %ju %jd ", whole, node->st.st_mode, (uintmax_t)node->st.st_nlink,
               (intmax_t)node->st.st_size);
        if (node->target)
            printf("%s", node->target);
        else if (S_ISREG(node->st.st_mode))
            show_contents(node);
        puts("");
        if (S_ISDIR(node->st.st_mode)) {
            char *deeper = NULL;
            if (asprintf(&deeper, "%s/", whole) < 0)
                fail("no memory");
            show_below(node, deeper);
            free(deeper);
        }
        free(whole);
    }
}

static void cut(void)
{
    struct count count = disk_cut(&disk, strtoull(words[1], NULL, 10));
    printf("%" PRIu64 " of %" PRIu64 " unsynced items survive\n", count.survived, count.unsynced);
    fflush(stdout);
    _exit(0);
}

static const struct {
    const char *name;
    void (*call)(void);
} CALLS[] = {{"make", make},       {"write", change},       {"resize", change},
             {"allocate", change}, {"chmod", chmod_node},   {"rename", rename_node},
             {"link", link_node},  {"remove", remove_node}, {"room", set_room},
             {"cut", cut}};

static void obey(const char *call)
{
    for (size_t place = 0; place < sizeof CALLS / sizeof *CALLS; place++) {
        if (!strcmp(CALLS[place].name, call)) {
            CALLS[place].call();
            return;
        }
    }
    if (!strcmp(call, "sync")) {
        answer(disk_sync(&disk, at(words[1])));
    } else if (!strcmp(call, "show")) {
        show_below(disk.root, "");
        puts("ok");
    } else {
        fail(call);
    }
}

int main(int count, char **texts)
{
    char *line = NULL, *rest;
    size_t size = 0;
    int why;
    if (count < 2)
        fail("usage: bare FOLDER [deaf]");
    why = disk_open(&disk, texts[1]);
    if (why)
        fail(strerror(why));
    disk.is_deaf = count > 2;
    while (getline(&line, &size, stdin) > 0) {
        line[strcspn(line, "\n")] = '\0';
        rest = line;
        for (size_t place = 0; place < sizeof words / sizeof *words; place++)
            words[place] = strsep(&rest, " ");
        obey(words[0]);
        fflush(stdout);
    }
    free(line);
    return disk_close(&disk) ? 1 : 0;
}
