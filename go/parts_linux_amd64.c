// What the texts in this folder call besides the C library: memory, errno, and the words of the command line.
// Written by hand, and no proof covers it. tools/try_parts.c tests each function.

#include <errno.h>
#include <stddef.h>
#include <stdint.h>
#include <stdlib.h>
#include <string.h>

#if !defined __x86_64__ || !defined __linux__ || defined __ILP32__
#error "the texts of dist are for Linux on x86-64"
#elif __GLIBC__ * 1000 + __GLIBC_MINOR__ < 2034
#error "the texts of dist need glibc 2.34 or later; this compiler links with an older one, or with another C library (musl)"
#endif

// A block of memory, if there is one. The texts take the answer in two registers, and of the first its lowest bit.
struct block {
    uint64_t is_there;
    void *start;
};

static struct block block_at(void *start) { return (struct block){start != NULL, start}; }

// malloc meets this alignment; the texts ask for no more.
static int is_met(uint64_t alignment) { return alignment <= _Alignof(max_align_t); }

struct block rattle_alloc(uint64_t size, uint64_t alignment) {
    return block_at(is_met(alignment) ? malloc(size ? size : 1) : NULL);
}

// Where there is no such block, the old one stays as it is.
struct block rattle_realloc(void *start, uint64_t old_size, uint64_t size, uint64_t alignment) {
    (void)old_size;
    return block_at(is_met(alignment) ? realloc(start, size ? size : 1) : NULL);
}

void rattle_dealloc(void *start) { free(start); }

int rattle_errno(void) { return errno; }

void rattle_set_errno(int number) { errno = number; }

#ifndef LIBRARY // which is told no words
static char **words;
static uint64_t count;

// The text's `main` takes no words, so that the linker's --wrap=main calls this before it.
int __real_main(void);

int __wrap_main(int argc, char **argv) {
    words = argv;
    count = (uint64_t)argc;
    return __real_main();
}

// Copies a word to a room of this size, without a NUL, and tells its length: -1 where there is no such word, and -2
// where it is longer than the room.
int64_t rattle_arg(uint64_t place, char *room, uint64_t size) {
    if (place >= count) return -1;
    uint64_t length = strlen(words[place]);
    if (length > size) return -2;
    memcpy(room, words[place], length);
    return (int64_t)length;
}
#endif
