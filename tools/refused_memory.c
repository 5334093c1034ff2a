/* Loaded before the C library by tools/refused_memory: malloc, calloc and realloc, of which the call of
   the number REFUSED_FROM is refused, and those behind it up to REFUSED_TO. They are counted from 1, of
   all threads together. A byte is written to the file TOLD when the first is refused. */
#include <errno.h>
#include <stdatomic.h>
#include <stdlib.h>
#include <unistd.h>

void *__libc_malloc(size_t size);
void *__libc_calloc(size_t count, size_t size);
void *__libc_realloc(void *old, size_t size);

static atomic_long calls;

static long number(const char *name)
{
    const char *text = getenv(name);
    return text == NULL ? 0 : strtol(text, NULL, 10);
}

static int is_refused(void)
{
    long call = atomic_fetch_add(&calls, 1) + 1, from = number("REFUSED_FROM");
    if (from == 0 || call < from || number("REFUSED_TO") < call)
        return 0;
    if (call == from && write((int)number("TOLD"), "x", 1) != 1)
        abort();
    errno = ENOMEM;
    return 1;
}

void *malloc(size_t size)
{
    return is_refused() ? NULL : __libc_malloc(size);
}

void *calloc(size_t count, size_t size)
{
    return is_refused() ? NULL : __libc_calloc(count, size);
}

void *realloc(void *old, size_t size)
{
    return is_refused() ? NULL : __libc_realloc(old, size);
}
