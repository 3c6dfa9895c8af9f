// Preloaded into a program: counts its allocations, and makes those from the number REFUSED_FIRST
// up to REFUSED_LAST fail. Where the variables are missing, none fails.
//
// The count stands in the file that REFUSED_COUNT names, eight bytes in the machine's order. So the
// process that started the program can tell whether the program came to an allocation that fails.
#define _GNU_SOURCE
#include <errno.h>
#include <fcntl.h>
#include <stdatomic.h>
#include <stdlib.h>
#include <sys/mman.h>
#include <unistd.h>

extern void *__libc_malloc(size_t bytes);
extern void *__libc_calloc(size_t count, size_t bytes);
extern void *__libc_realloc(void *old, size_t bytes);
extern void *__libc_memalign(size_t alignment, size_t bytes);

static unsigned long first, last;
static _Atomic unsigned long *asked;

static unsigned long number_of(const char *name)
{
    const char *text = getenv(name);
    return text ? strtoul(text, NULL, 10) : 0;
}

__attribute__((constructor)) static void begin(void)
{
    const char *path = getenv("REFUSED_COUNT");
    int file = path ? open(path, O_RDWR | O_CLOEXEC) : -1;
    if (file < 0) {
        abort();
    }
    void *mapped = mmap(NULL, sizeof *asked, PROT_READ | PROT_WRITE, MAP_SHARED, file, 0);
    if (mapped == MAP_FAILED) {
        abort();
    }
    close(file);
    first = number_of("REFUSED_FIRST");
    last = number_of("REFUSED_LAST");
    asked = mapped;
}

static int is_refused(void)
{
    if (!asked) {
        return 0;
    }
    unsigned long number = atomic_fetch_add(asked, 1) + 1;
    return first <= number && number <= last;
}

static void *refuse(void)
{
    errno = ENOMEM;
    return NULL;
}

void *malloc(size_t bytes)
{
    return is_refused() ? refuse() : __libc_malloc(bytes);
}

void *calloc(size_t count, size_t bytes)
{
    return is_refused() ? refuse() : __libc_calloc(count, bytes);
}

void *realloc(void *old, size_t bytes)
{
    return is_refused() ? refuse() : __libc_realloc(old, bytes);
}

void *memalign(size_t alignment, size_t bytes)
{
    return is_refused() ? refuse() : __libc_memalign(alignment, bytes);
}

void *aligned_alloc(size_t alignment, size_t bytes)
{
    return memalign(alignment, bytes);
}

int posix_memalign(void **block, size_t alignment, size_t bytes)
{
    void *made = memalign(alignment, bytes);
    if (!made) {
        return ENOMEM;
    }
    *block = made;
    return 0;
}
