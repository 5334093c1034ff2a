/* The harness of tools/fuzz/run, for libFuzzer. An input is the words of a command line, a line feed, and the text that
   the command reads. It is served by the library, and the answer is held to what the header says, whatever the input:

   - the status is one of those of `hpkebatch_serve`, and without a text nothing is written;
   - nothing behind the text changes, and a room that is a byte too small stays as it was and is told the same size;
   - what `run`, `rehearse` and `live` wrote is legal by `check`;
   - `hpkebatch_read` and `hpkebatch_check` agree with `run` and `check`.

   The library isn't instrumented: it is the proved one. So each of its basic blocks, which BLOCKS names, has a breakpoint
   at its first byte. A block that is reached tells libFuzzer of itself and loses its breakpoint. Inputs and rooms end at
   a page that can't be touched, and so begin at any address. */
#define _GNU_SOURCE
#include <hpkebatch.h>
#include <signal.h>
#include <stdio.h>
#include <stdlib.h>
#include <string.h>
#include <sys/mman.h>
#include <ucontext.h>
#include <unistd.h>

#define MOST_BLOCKS (1 << 17)
#define MOST_TEXT (1 << 22)
#define PAGE 4096

/* ---- coverage */

__attribute__((section("__libfuzzer_extra_counters"))) static uint8_t reached[MOST_BLOCKS];

/* By block: how far it lies from `hpkebatch_serve`, and the byte that stood there; sorted. */
static struct block {
    intptr_t place;
    uint8_t byte;
} blocks[MOST_BLOCKS];
static size_t blocks_len, reached_len;

static uint8_t *address(size_t block)
{
    return (uint8_t *)&hpkebatch_serve + blocks[block].place;
}

static void at_breakpoint(int number, siginfo_t *info, void *context)
{
    (void)number, (void)info;
    greg_t *next = &((ucontext_t *)context)->uc_mcontext.gregs[REG_RIP];
    intptr_t place = (intptr_t)(*next - 1) - (intptr_t)&hpkebatch_serve;
    size_t from = 0, to = blocks_len;
    while (to - from > 1) {
        size_t middle = (from + to) / 2;
        *(blocks[middle].place <= place ? &from : &to) = middle;
    }
    if (blocks_len == 0 || blocks[from].place != place)
        abort();
    *address(from) = blocks[from].byte;
    reached[from] = 1;
    reached_len++;
    *next -= 1;
}

static void set_breakpoints(const char *name)
{
    FILE *file = fopen(name, "r");
    long place;
    while (file != NULL && blocks_len < MOST_BLOCKS && fscanf(file, "%ld", &place) == 1)
        blocks[blocks_len++].place = place;
    if (file == NULL || blocks_len == 0)
        exit(100);
    fclose(file);
    struct sigaction action = {.sa_sigaction = at_breakpoint, .sa_flags = SA_SIGINFO | SA_NODEFER};
    uintptr_t first = (uintptr_t)address(0) & -(uintptr_t)PAGE, end = (uintptr_t)address(blocks_len - 1) + 1;
    if (sigaction(SIGTRAP, &action, NULL) != 0 ||
        mprotect((void *)first, end - first, PROT_READ | PROT_WRITE | PROT_EXEC) != 0)
        exit(101);
    for (size_t block = 0; block < blocks_len; block++) {
        blocks[block].byte = *address(block);
        *address(block) = 0xcc;
    }
}

static void tell_coverage(void)
{
    fprintf(stderr, "reached %zu of %zu basic blocks of the library\n", reached_len, blocks_len);
}

int LLVMFuzzerInitialize(int *argc, char ***argv)
{
    (void)argc, (void)argv;
    if (getenv("BLOCKS") != NULL) {
        set_breakpoints(getenv("BLOCKS"));
        atexit(tell_coverage);
    }
    return 0;
}

/* ---- memory that ends where a page begins that can't be touched */

struct guarded {
    uint8_t *end;
};
static struct guarded of_words, of_text, of_room, of_check;

static uint8_t *before_guard(struct guarded *memory, size_t size)
{
    if (size > MOST_TEXT)
        abort();
    if (memory->end == NULL) {
        uint8_t *all = mmap(NULL, MOST_TEXT + PAGE, PROT_READ | PROT_WRITE, MAP_PRIVATE | MAP_ANONYMOUS, -1, 0);
        if (all == MAP_FAILED || mprotect(all + MOST_TEXT, PAGE, PROT_NONE) != 0)
            exit(102);
        memory->end = all + MOST_TEXT;
    }
    return memory->end - size;
}

static uint8_t *placed(struct guarded *memory, const uint8_t *bytes, size_t size)
{
    uint8_t *place = before_guard(memory, size);
    memcpy(place, bytes, size);
    return place;
}

/* ---- what holds of each answer */

#define HOLDS(fact)                                                                                                    \
    do {                                                                                                               \
        if (!(fact)) {                                                                                                 \
            fprintf(stderr, "harness.c:%d: not so: %s\n", __LINE__, #fact);                                            \
            abort();                                                                                                   \
        }                                                                                                              \
    } while (0)

struct bytes {
    const uint8_t *at;
    size_t len;
};

static int has_text(uint32_t status)
{
    return status == HPKEBATCH_DONE || status == HPKEBATCH_BAD_BATCH || status == HPKEBATCH_BROKEN;
}

/* Serves into a room of this size, whose bytes are all 7 before; the written text is left at the room's front. */
static uint32_t serve(struct bytes words, struct bytes text, size_t room, size_t *written)
{
    uint8_t *out = before_guard(&of_room, room);
    memset(out, 7, room);
    uint32_t status = hpkebatch_serve(words.at, words.len, text.at, text.len, out, room, written);
    HOLDS(has_text(status) || status == HPKEBATCH_WRONG_USAGE || status == HPKEBATCH_NO_ROOM ||
          status == HPKEBATCH_NO_MEMORY);
    if (has_text(status))
        HOLDS(*written <= room);
    for (size_t i = has_text(status) ? *written : 0; i < room; i++)
        HOLDS(out[i] == 7);
    return status;
}

static int begins(struct bytes words, const char *word)
{
    size_t len = strlen(word);
    return words.len >= len && memcmp(words.at, word, len) == 0 && (words.len == len || words.at[len] == ' ');
}

static struct bytes word(const char *text)
{
    return (struct bytes){(const uint8_t *)text, strlen(text)};
}

/* What a command wrote for a batch, in the room, is legal. */
static void hold_legal(const char *check, struct bytes batch, size_t written)
{
    uint8_t *both = before_guard(&of_check, batch.len + written), verdict[64];
    size_t len = 0;
    memcpy(both, batch.at, batch.len);
    memcpy(both + batch.len, before_guard(&of_room, written), written);
    struct bytes words = word(check);
    HOLDS(hpkebatch_serve(words.at, words.len, both, batch.len + written, verdict, 64, &len) == HPKEBATCH_DONE);
    HOLDS(len == 6 && memcmp(verdict, "legal\n", 6) == 0);
}

/* `hpkebatch_check` says of a batch and what stands behind its line `end` what `check` says. */
static void hold_check(struct bytes text, uint32_t status)
{
    const uint8_t *end = memmem(text.at, text.len, "\nend\n", 5);
    size_t front = end == NULL ? text.len : (size_t)(end - text.at) + 5;
    uint32_t got = hpkebatch_check(text.at, front, text.at + front, text.len - front);
    HOLDS(got == status);
}

/* `hpkebatch_read` finds a batch where `run` does, and writes the same line where it doesn't. */
static void hold_read(struct bytes text, uint32_t status, size_t written)
{
    uint8_t line[64];
    size_t len = 0;
    uint32_t got = hpkebatch_read(text.at, text.len, line, 64, &len);
    HOLDS(got == status);
    if (got == HPKEBATCH_BAD_BATCH)
        HOLDS(len == written && memcmp(line, before_guard(&of_room, written), len) == 0);
}

int LLVMFuzzerTestOneInput(const uint8_t *data, size_t size)
{
    const uint8_t *end = size == 0 ? NULL : memchr(data, '\n', size);
    if (end == NULL)
        return -1;
    size_t words_len = (size_t)(end - data), text_len = size - words_len - 1, written = 0, again = 0;
    struct bytes words = {placed(&of_words, data, words_len), words_len};
    struct bytes text = {placed(&of_text, end + 1, text_len), text_len};
    uint32_t status = serve(words, text, 0, &written);
    if (status != HPKEBATCH_NO_ROOM)
        return 0;
    if (text_len + written > MOST_TEXT)
        return -1;
    HOLDS(serve(words, text, written - 1, &again) == HPKEBATCH_NO_ROOM && again == written);
    status = serve(words, text, written, &again);
    HOLDS(has_text(status) && again == written);
    if (begins(words, "run"))
        hold_read(text, status, written);
    if (words.len == 5 && begins(words, "check"))
        hold_check(text, status);
    if (status == HPKEBATCH_DONE && (begins(words, "run") || begins(words, "rehearse")))
        hold_legal("check", text, written);
    if (status == HPKEBATCH_DONE && begins(words, "live"))
        hold_legal("check --live", text, written);
    return 0;
}
