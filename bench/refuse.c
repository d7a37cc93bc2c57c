// Loaded before a program (LD_PRELOAD): its allocation of the number REFUSE, counted from 1, is refused, and the file REFUSED is made then.
#include <errno.h>
#include <fcntl.h>
#include <stddef.h>
#include <stdlib.h>
#include <unistd.h>

extern void *__libc_malloc(size_t size);
extern void *__libc_calloc(size_t count, size_t size);
extern void *__libc_realloc(void *old, size_t size);
extern void *__libc_memalign(size_t align, size_t size);

static unsigned long made;
static unsigned long number;

__attribute__((constructor)) static void begin(void)
{
    const char *text = getenv("REFUSE");
    number = text ? strtoul(text, NULL, 10) : 0;
    made = 0;
}

static int is_refused(void)
{
    const char *path;
    made += 1;
    if (made != number) {
        return 0;
    }
    path = getenv("REFUSED");
    if (path) {
        close(open(path, O_CREAT | O_WRONLY, 0600));
    }
    errno = ENOMEM;
    return 1;
}

void *malloc(size_t size)
{
    return is_refused() ? NULL : __libc_malloc(size);
}

void *calloc(size_t count, size_t size)
{
    return is_refused() ? NULL : __libc_calloc(count, size);
}

void *realloc(void *old, size_t size)
{
    return is_refused() ? NULL : __libc_realloc(old, size);
}

void *aligned_alloc(size_t align, size_t size)
{
    return is_refused() ? NULL : __libc_memalign(align, size);
}

int posix_memalign(void **place, size_t align, size_t size)
{
    void *got = is_refused() ? NULL : __libc_memalign(align, size);
    if (got == NULL) {
        return ENOMEM;
    }
    *place = got;
    return 0;
}
