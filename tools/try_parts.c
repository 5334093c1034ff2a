// Tests the six functions that the texts of dist/ call besides the C library's, as dist/parts.c or the kit has them. It
// prints the words that it was started with, as they tell them, a line each, and its status is 1 if a case fails.
// Its `main` takes no words, like that of the texts.

#include <errno.h>
#include <stdint.h>
#include <stdio.h>
#include <stdlib.h>
#include <string.h>
#include <sys/resource.h>

struct block {
    uint64_t is_there;
    unsigned char *start;
};

struct block rattle_alloc(uint64_t size, uint64_t alignment);
struct block rattle_realloc(void *start, uint64_t old_size, uint64_t size, uint64_t alignment);
void rattle_dealloc(void *start);
int rattle_errno(void);
void rattle_set_errno(int number);
int64_t rattle_arg(uint64_t place, char *room, uint64_t size);

static int failed;

static void tell(const char *name, int is_so) {
    if (is_so) return;
    printf("try_parts: NOT SO: %s\n", name);
    failed = 1;
}

// Whether there is a block, at an address that the alignment divides.
static int is_aligned(struct block block, uint64_t alignment) {
    return (block.is_there & 1) == 1 && block.start != NULL && (uintptr_t)block.start % alignment == 0;
}

static int is_refused(struct block block) { return (block.is_there & 1) == 0; }

static void fill(unsigned char *start, uint64_t size) {
    for (uint64_t k = 0; k < size; k++) start[k] = (unsigned char)(k * 7 + 3);
}

static int is_filled(const unsigned char *start, uint64_t size) {
    for (uint64_t k = 0; k < size; k++)
        if (start[k] != (unsigned char)(k * 7 + 3)) return 0;
    return 1;
}

// Blocks of each alignment that the texts ask for, of sizes about it, all of which stay at once.
static void try_alloc(void) {
    static struct block blocks[5][40];
    for (int power = 0; power < 5; power++)
        for (uint64_t size = 0; size < 40; size++) {
            struct block block = rattle_alloc(size, 1u << power);
            tell("a block has its alignment", is_aligned(block, 1u << power));
            memset(block.start, power * 40 + (int)size, size);
            blocks[power][size] = block;
        }
    for (int power = 0; power < 5; power++)
        for (uint64_t size = 0; size < 40; size++) {
            for (uint64_t k = 0; k < size; k++)
                tell("blocks don't overlap", blocks[power][size].start[k] == (unsigned char)(power * 40 + (int)size));
            rattle_dealloc(blocks[power][size].start);
        }
    struct block large = rattle_alloc(1 << 24, 8);
    tell("a block of 16 MiB", is_aligned(large, 8));
    fill(large.start, 1 << 24);
    tell("it is kept", is_filled(large.start, 1 << 24));
    rattle_dealloc(large.start);
    struct block none = rattle_alloc(0, 16);
    tell("a block of no bytes", is_aligned(none, 16));
    rattle_dealloc(none.start);
    tell("2^62 bytes are refused", is_refused(rattle_alloc(UINT64_C(1) << 62, 1)));
    tell("2^64 - 1 bytes are refused", is_refused(rattle_alloc(UINT64_MAX, 1)));
}

static void try_realloc(void) {
    static const uint64_t sizes[] = {1, 24, 25, 1000, 1 << 22, 4096, 17, 1, 0, 0, 64};
    struct block block = rattle_alloc(1, 8);
    uint64_t old_size = 1;
    fill(block.start, old_size);
    for (unsigned k = 0; k < sizeof sizes / sizeof *sizes; k++) {
        uint64_t size = sizes[k];
        block = rattle_realloc(block.start, old_size, size, 8);
        tell("a block that has another size has its alignment", is_aligned(block, 8));
        tell("it keeps its bytes", is_filled(block.start, old_size < size ? old_size : size));
        fill(block.start, size);
        old_size = size;
    }
    tell("2^62 bytes are refused to a block", is_refused(rattle_realloc(block.start, old_size, UINT64_C(1) << 62, 8)));
    tell("which stays as it was", is_filled(block.start, old_size));
    rattle_dealloc(block.start);
}

// What was freed is used again: else 1 GiB more would be taken than there is.
static void try_dealloc(void) {
    for (int k = 0; k < 2048; k++) {
        struct block block = rattle_alloc(1 << 20, 1);
        tell("a block after many that were freed", is_aligned(block, 1));
        if (is_refused(block)) return;
        block.start[k] = 1;
        rattle_dealloc(block.start);
    }
}

static void try_errno(void) {
    for (int number = 0; number < 200; number++) {
        rattle_set_errno(number);
        tell("errno is set", errno == number);
        errno = 200 - number;
        tell("errno is read", rattle_errno() == 200 - number);
    }
}

// Prints each word, and tries it with each room about its length.
static void try_arg(void) {
    uint64_t place = 0;
    for (;; place++) {
        static char room[1 << 20];
        memset(room, '.', sizeof room);
        int64_t length = rattle_arg(place, room, sizeof room);
        if (length < 0) break;
        tell("behind a word nothing is written", room[length] == '.');
        tell("a word of just the size", rattle_arg(place, room, (uint64_t)length) == length);
        char *exact = malloc((uint64_t)length + 1);
        exact[length] = '.';
        tell("the same again", rattle_arg(place, exact, (uint64_t)length) == length);
        tell("the same bytes", memcmp(exact, room, (uint64_t)length) == 0 && exact[length] == '.');
        tell("a room with a byte too few", length == 0 || rattle_arg(place, exact, (uint64_t)length - 1) == -2);
        tell("no room", rattle_arg(place, exact, 0) == (length == 0 ? 0 : -2));
        free(exact);
        fwrite(room, 1, (size_t)length, stdout);
        putchar('\n');
    }
    char byte;
    tell("a word behind the last", rattle_arg(place, &byte, 1) == -1);
    tell("the word after that", rattle_arg(place + 1, &byte, 1) == -1);
    tell("word 2^32", rattle_arg(UINT64_C(1) << 32, &byte, 1) == -1);
    tell("word 2^63", rattle_arg(UINT64_C(1) << 63, &byte, 1) == -1);
    tell("word 2^64 - 1", rattle_arg(UINT64_MAX, &byte, 1) == -1);
}

int main(void) {
    static const struct rlimit limit = {1 << 30, 1 << 30};
    tell("a limit of 1 GiB", setrlimit(RLIMIT_AS, &limit) == 0);
    try_arg();
    try_alloc();
    try_realloc();
    try_dealloc();
    try_errno();
    return failed;
}
