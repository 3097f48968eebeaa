// Loaded before the C library (LD_PRELOAD), refuses the allocation whose number REFUSE tells, counted from 1, and also all later
// ones where a `+` stands behind the number. Where one was refused it makes the file that REFUSED names.
#include <errno.h>
#include <fcntl.h>
#include <stdatomic.h>
#include <stddef.h>
#include <stdlib.h>
#include <unistd.h>

extern void *__libc_malloc(size_t size);
extern void *__libc_calloc(size_t count, size_t size);
extern void *__libc_realloc(void *old, size_t size);
extern void *__libc_memalign(size_t alignment, size_t size);

static int refused(void)
{
    static atomic_long count;
    const char *asked = getenv("REFUSE");
    if (asked == NULL)
        return 0;
    char *rest;
    long first = strtol(asked, &rest, 10);
    long number = ++count;
    if (number != first && !(*rest == '+' && number > first))
        return 0;
    if (number == first)
        close(open(getenv("REFUSED"), O_CREAT | O_WRONLY, 0600));
    errno = ENOMEM;
    return 1;
}

void *malloc(size_t size)
{
    return refused() ? NULL : __libc_malloc(size);
}

void *calloc(size_t count, size_t size)
{
    return refused() ? NULL : __libc_calloc(count, size);
}

void *realloc(void *old, size_t size)
{
    return refused() ? NULL : __libc_realloc(old, size);
}

void *aligned_alloc(size_t alignment, size_t size)
{
    return refused() ? NULL : __libc_memalign(alignment, size);
}

int posix_memalign(void **made, size_t alignment, size_t size)
{
    void *block = refused() ? NULL : __libc_memalign(alignment, size);
    if (block == NULL)
        return ENOMEM;
    *made = block;
    return 0;
}
