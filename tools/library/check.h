/* What the tests of the library share: bytes from hex, and checks that name themselves where they fail. */
#ifndef CHECK_H
#define CHECK_H

#include <stdint.h>
#include <stdio.h>
#include <stdlib.h>
#include <string.h>

#include "hpkebatch.h"

static int checks, faults;

static void check(int holds, const char *what, const char *file, int line)
{
    checks++;
    if (!holds) {
        faults++;
        fprintf(stderr, "%s:%d: NOT SO: %s\n", file, line, what);
    }
}

#define CHECK(holds) check((holds), #holds, __FILE__, __LINE__)

/* The last line of a test, and its status. */
static inline int told(const char *test)
{
    printf("%s: %d checks, %d faults\n", test, checks, faults);
    return faults != 0;
}

/* Writes the bytes of a hex text; gives how many they are. */
static inline size_t bytes_of(const char *hex, uint8_t *out)
{
    size_t count = strlen(hex) / 2;
    for (size_t i = 0; i < count; i++) {
        char digits[3] = {hex[2 * i], hex[2 * i + 1], 0};
        out[i] = (uint8_t)strtoul(digits, NULL, 16);
    }
    return count;
}

static inline int is_hex(const uint8_t *bytes, const char *hex)
{
    uint8_t want[4096];
    return memcmp(bytes, want, bytes_of(hex, want)) == 0;
}

#endif
