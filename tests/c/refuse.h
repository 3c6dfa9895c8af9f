/* An allocator that refuses one request, and counts what is asked for. */
#include <stddef.h>

extern void *__libc_malloc(size_t);
extern void *__libc_realloc(void *, size_t);
extern void __libc_free(void *);

/* How many requests are answered before one is refused; below 0 none is. */
static long answered = -1;
static long live;
/* How many bytes were asked for, and by the largest request. */
static size_t asked, largest;

static int refuses(size_t size)
{
    asked += size;
    if (size > largest)
        largest = size;
    return answered >= 0 && answered-- == 0;
}

void *malloc(size_t size)
{
    void *block = refuses(size) ? NULL : __libc_malloc(size);
    live += block != NULL;
    return block;
}

void *realloc(void *block, size_t size)
{
    void *moved = refuses(size) ? NULL : __libc_realloc(block, size);
    live += block == NULL && moved != NULL;
    return moved;
}

void free(void *block)
{
    live -= block != NULL;
    __libc_free(block);
}
