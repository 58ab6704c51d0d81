/* Loaded before the C library: the allocation of the number in FAIL_AT, from 1, fails, and each after it goes on as ever.
   The number of allocations is written to the file of the name in COUNT_INTO, if it is set. For tools/fail-memory. */
#include <errno.h>
#include <stddef.h>
#include <stdio.h>
#include <stdlib.h>

extern void *__libc_malloc(size_t size);
extern void *__libc_calloc(size_t count, size_t size);
extern void *__libc_realloc(void *old, size_t size);
extern void *__libc_memalign(size_t align, size_t size);

static unsigned long asked;
static unsigned long fail_at;
static int counting;

static int refused(void)
{
    if (!counting)
        return 0;
    asked++;
    if (asked != fail_at)
        return 0;
    errno = ENOMEM;
    return 1;
}

void *malloc(size_t size)
{
    return refused() ? NULL : __libc_malloc(size);
}

void *calloc(size_t count, size_t size)
{
    return refused() ? NULL : __libc_calloc(count, size);
}

void *realloc(void *old, size_t size)
{
    return refused() ? NULL : __libc_realloc(old, size);
}

void *aligned_alloc(size_t align, size_t size)
{
    return refused() ? NULL : __libc_memalign(align, size);
}

int posix_memalign(void **place, size_t align, size_t size)
{
    void *found = refused() ? NULL : __libc_memalign(align, size);
    if (found == NULL)
        return ENOMEM;
    *place = found;
    return 0;
}

__attribute__((constructor)) static void begin(void)
{
    const char *number = getenv("FAIL_AT");
    fail_at = number == NULL ? 0 : strtoul(number, NULL, 10);
    counting = 1;
}

__attribute__((destructor)) static void end(void)
{
    const char *name = getenv("COUNT_INTO");
    counting = 0;
    if (name == NULL)
        return;
    FILE *file = fopen(name, "w");
    if (file == NULL)
        return;
    fprintf(file, "%lu\n", asked);
    fclose(file);
}
