/* Loaded before the C library by tools/secrets, under valgrind: of the bytes that the program reads from
   standard input, those at the places that SECRET names (as 0-16,28-128: from the first, up to and without
   the second) count as undefined, and so does all that is made of them. What the program writes is defined
   again, so that the system call isn't told of. */
#define _GNU_SOURCE
#include <dlfcn.h>
#include <stdlib.h>
#include <sys/types.h>
#include <unistd.h>
#include <valgrind/memcheck.h>

/* the bytes that were read before */
static size_t before;

static void mark(char *bytes, size_t count)
{
    const char *next = getenv("SECRET");
    while (next != NULL && *next != '\0') {
        char *end;
        size_t from = strtoul(next, &end, 10);
        size_t to = *end == '-' ? strtoul(end + 1, &end, 10) : from;
        size_t first = from > before ? from - before : 0;
        size_t last = to > before ? to - before : 0;
        if (last > count)
            last = count;
        if (first < last)
            VALGRIND_MAKE_MEM_UNDEFINED(bytes + first, last - first);
        next = *end == ',' ? end + 1 : NULL;
    }
}

ssize_t read(int file, void *buffer, size_t size)
{
    ssize_t (*of_system)(int, void *, size_t) = (ssize_t(*)(int, void *, size_t))dlsym(RTLD_NEXT, "read");
    ssize_t count = of_system(file, buffer, size);
    if (file == 0 && count > 0) {
        mark(buffer, (size_t)count);
        before += (size_t)count;
    }
    return count;
}

ssize_t write(int file, const void *buffer, size_t size)
{
    ssize_t (*of_system)(int, const void *, size_t) =
        (ssize_t(*)(int, const void *, size_t))dlsym(RTLD_NEXT, "write");
    VALGRIND_MAKE_MEM_DEFINED((void *)buffer, size);
    return of_system(file, buffer, size);
}
