/* Times BearSSL's constant-time ciphers (aes_ct64, ghash_ctmul64) on one thread, at the works of
   bench/cipher_bench_main.txt, and prints lines as that does: the bytes of one round, the nanoseconds of the
   best round, and the work's name. */
#include <bearssl.h>
#include <stdio.h>
#include <string.h>
#include <time.h>

enum { ROUNDS = 100, ROUND = 1 << 16, LONGEST = 16384 };

static unsigned char text[LONGEST];

static const unsigned char key[32] = { 7 };

static long long nanos(void)
{
    struct timespec now;
    clock_gettime(CLOCK_MONOTONIC, &now);
    return now.tv_sec * 1000000000LL + now.tv_nsec;
}

static void blocks(size_t size)
{
    br_aes_ct64_ctr_keys keys;
    br_aes_ct64_ctr_init(&keys, key, 16);
    for (size_t at = 0; at < ROUND; at += size)
        br_aes_ct64_ctr_run(&keys, key, 1, text, size);
}

static void hash(size_t size)
{
    unsigned char y[16] = { 0 };
    for (size_t at = 0; at < ROUND; at += size)
        br_ghash_ctmul64(y, key, text, size);
}

static void seal_by(size_t key_size, size_t size)
{
    br_aes_ct64_ctr_keys keys;
    br_gcm_context gcm;
    unsigned char tag[16];
    br_aes_ct64_ctr_init(&keys, key, key_size);
    br_gcm_init(&gcm, &keys.vtable, br_ghash_ctmul64);
    for (size_t at = 0; at < ROUND; at += size) {
        br_gcm_reset(&gcm, key, 12);
        br_gcm_flip(&gcm);
        br_gcm_run(&gcm, 1, text, size);
        br_gcm_get_tag(&gcm, tag);
    }
}

static void seal(size_t size)
{
    seal_by(16, size);
}

static void seal_long(size_t size)
{
    seal_by(32, size);
}

static void measure(void (*work)(size_t), size_t size, const char *name)
{
    long long least = -1;
    for (int round = 0; round < ROUNDS; round++) {
        long long start = nanos();
        work(size);
        long long took = nanos() - start;
        if (least < 0 || took < least)
            least = took;
    }
    printf("%d %lld %s\n", ROUND, least, name);
}

int main(void)
{
    memset(text, 0xa5, sizeof text);
    measure(blocks, LONGEST, "AES-128 blocks");
    measure(hash, LONGEST, "GHASH, 16 KiB");
    measure(seal, 64, "AES-128-GCM seal, 64 B");
    measure(seal, 1024, "AES-128-GCM seal, 1 KiB");
    measure(seal, 16384, "AES-128-GCM seal, 16 KiB");
    measure(seal_long, 1024, "AES-256-GCM seal, 1 KiB");
    return 0;
}
