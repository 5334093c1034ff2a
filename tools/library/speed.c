/* Prints how long the parts take: microseconds of the clock, the least of ten rounds. */
#define _POSIX_C_SOURCE 199309L
#include "check.h"

#include <time.h>

static double now(void)
{
    struct timespec at;
    clock_gettime(CLOCK_MONOTONIC, &at);
    return (double)at.tv_sec * 1e6 + (double)at.tv_nsec / 1e3;
}

static uint8_t seed[32] = {7}, pk[1158], sk[1763], enc[1039], session[32], text[1024], ct[1040];
static hpkebatch_context sender;

static void keygen(void)
{
    CHECK(hpkebatch_sntrup761_keygen(seed, 0, pk, sk) == HPKEBATCH_DONE);
}

static void encap(void)
{
    CHECK(hpkebatch_sntrup761_encap(seed, 1, pk, enc, session) == HPKEBATCH_DONE);
}

static void decap(void)
{
    CHECK(hpkebatch_sntrup761_decap(enc, sk, session) == HPKEBATCH_DONE);
}

static void seal_64(void)
{
    CHECK(hpkebatch_context_seal(&sender, text, 0, text, 64, ct, 80) == HPKEBATCH_DONE);
}

static void seal_1024(void)
{
    CHECK(hpkebatch_context_seal(&sender, text, 0, text, 1024, ct, 1040) == HPKEBATCH_DONE);
}

#define MANY 1000

static hpkebatch_bytes aads[MANY], texts[MANY];
static uint8_t cts[MANY * 80];

static void seal_all_64(void)
{
    CHECK(hpkebatch_context_seal_all(&sender, aads, MANY, texts, MANY, cts, sizeof cts) == HPKEBATCH_DONE);
}

static void print_time(const char *what, void (*call)(void), int times)
{
    double least = 1e12;
    for (int round = 0; round < 10; round++) {
        double begin = now();
        for (int i = 0; i < times; i++)
            call();
        double each = (now() - begin) / times;
        if (each < least)
            least = each;
    }
    printf("%-24s %10.2f us\n", what, least);
}

int main(void)
{
    const uint8_t *none = (const uint8_t *)"";
    print_time("sntrup761 keygen", keygen, 10);
    print_time("sntrup761 encap", encap, 20);
    print_time("sntrup761 decap", decap, 20);
    CHECK(hpkebatch_context_shared(&sender, 0, 0, 0xf761, 1, 1, UINT64_MAX, session, 32, none, 0, none, 0, none, 0) == 0);
    print_time("seal of 64 bytes", seal_64, 1000);
    for (int i = 0; i < MANY; i++) {
        aads[i] = (hpkebatch_bytes){text, 0};
        texts[i] = (hpkebatch_bytes){text, 64};
    }
    print_time("1,000 such in one call", seal_all_64, 1);
    print_time("seal of 1,024 bytes", seal_1024, 1000);
    return faults != 0;
}
