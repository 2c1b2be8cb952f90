/* Preloaded, refuses the allocations from REFUSE_FROM, counted from 1, to REFUSE_TO, or all later ones where that is empty.

   The functions of the C library that take memory stand here again. At the end the file REFUSE_COUNT, where one is
   named, gets the number of allocations that were asked for. */
#include <errno.h>
#include <fcntl.h>
#include <limits.h>
#include <stddef.h>
#include <stdio.h>
#include <stdlib.h>
#include <unistd.h>

extern void *__libc_malloc(size_t size);
extern void *__libc_calloc(size_t count, size_t size);
extern void *__libc_realloc(void *old, size_t size);
extern void *__libc_memalign(size_t align, size_t size);

static unsigned long first, last, asked;

/* a number of the environment, or another one where it is absent or empty */
static unsigned long number(const char *name, unsigned long other)
{
    const char *text = getenv(name);

    return text == NULL || *text == 0 ? other : strtoul(text, NULL, 10);
}

__attribute__((constructor)) static void begin(void)
{
    first = number("REFUSE_FROM", 0);
    last = number("REFUSE_TO", ULONG_MAX);
    asked = 0;
}

__attribute__((destructor)) static void end(void)
{
    const char *name = getenv("REFUSE_COUNT");
    unsigned long count = asked;
    char text[24];
    int file, len;

    if (name == NULL || (file = open(name, O_WRONLY | O_CREAT | O_TRUNC, 0644)) < 0)
        return;
    len = snprintf(text, sizeof text, "%lu\n", count);
    if (write(file, text, len) != len)
        unlink(name);
    close(file);
}

/* whether this allocation is refused; before begin() none is */
static int refused(void)
{
    asked++;
    return first != 0 && asked >= first && asked <= last;
}

static void *no_memory(void)
{
    errno = ENOMEM;
    return NULL;
}

void *malloc(size_t size)
{
    return refused() ? no_memory() : __libc_malloc(size);
}

void *calloc(size_t count, size_t size)
{
    return refused() ? no_memory() : __libc_calloc(count, size);
}

void *realloc(void *old, size_t size)
{
    return refused() ? no_memory() : __libc_realloc(old, size);
}

void *aligned_alloc(size_t align, size_t size)
{
    return refused() ? no_memory() : __libc_memalign(align, size);
}

void *memalign(size_t align, size_t size)
{
    return refused() ? no_memory() : __libc_memalign(align, size);
}

int posix_memalign(void **place, size_t align, size_t size)
{
    void *got;

    if (refused() || (got = __libc_memalign(align, size)) == NULL)
        return ENOMEM;
    *place = got;
    return 0;
}
