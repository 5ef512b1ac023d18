/* Refuses one allocation of a program that is started with this library in LD_PRELOAD.
 *
 * REFUSE has its number, counted from 1; 0 refuses none. Where COUNTED names a file, the number of all allocations that the
 * program asked for is written there at its end.
 */
#define _GNU_SOURCE
#include <dlfcn.h>
#include <errno.h>
#include <stdio.h>
#include <stdlib.h>
#include <string.h>

static unsigned long asked;

/* Whether this allocation is the one that is refused. */
static int is_refused(void)
{
    static unsigned long wanted;
    static int is_known;
    if (!is_known) {
        const char *word = getenv("REFUSE");
        wanted = word ? strtoul(word, NULL, 10) : 0;
        is_known = 1;
    }
    asked++;
    return asked == wanted;
}

extern void *__libc_malloc(size_t size);
extern void *__libc_calloc(size_t count, size_t size);
extern void *__libc_realloc(void *block, size_t size);
extern void *__libc_memalign(size_t alignment, size_t size);

void *malloc(size_t size)
{
    if (is_refused()) {
        errno = ENOMEM;
        return NULL;
    }
    return __libc_malloc(size);
}

void *calloc(size_t count, size_t size)
{
    if (is_refused()) {
        errno = ENOMEM;
        return NULL;
    }
    return __libc_calloc(count, size);
}

void *realloc(void *block, size_t size)
{
    if (is_refused()) {
        errno = ENOMEM;
        return NULL;
    }
    return __libc_realloc(block, size);
}

void *aligned_alloc(size_t alignment, size_t size)
{
    if (is_refused()) {
        errno = ENOMEM;
        return NULL;
    }
    return __libc_memalign(alignment, size);
}

int posix_memalign(void **block, size_t alignment, size_t size)
{
    if (is_refused())
        return ENOMEM;
    *block = __libc_memalign(alignment, size);
    return *block ? 0 : ENOMEM;
}

__attribute__((destructor)) static void tell(void)
{
    const char *name = getenv("COUNTED");
    unsigned long count = asked;
    FILE *file = name ? fopen(name, "w") : NULL;
    if (file) {
        fprintf(file, "%lu\n", count);
        fclose(file);
    }
}
