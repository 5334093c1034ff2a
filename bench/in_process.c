/* Times calls of the library from C, beside OpenSSL's AES-128-GCM by EVP: a line `what TAB bytes TAB microseconds` each.
 * bench/in_process compiles and runs it. */
#define _POSIX_C_SOURCE 200809L
#include <hpkebatch.h>

#include <openssl/evp.h>
#include <stdio.h>
#include <stdlib.h>
#include <string.h>
#include <time.h>

#define ROUNDS 15
#define MOST 16384

static uint8_t text[MOST], out[MOST + HPKEBATCH_TAG_SIZE], public_key[1158], secret_key[1763], enc[1039];
static const uint8_t seed[32] = {7}, *none = (const uint8_t *)"";
static uint64_t stream = 1;
static hpkebatch_context sender;
static EVP_CIPHER_CTX *evp;
static size_t size;

static double now(void)
{
    struct timespec at;
    clock_gettime(CLOCK_MONOTONIC, &at);
    return (double)at.tv_sec * 1e6 + (double)at.tv_nsec / 1e3;
}

static void must(int is_so, const char *what)
{
    if (!is_so) {
        fprintf(stderr, "in_process: %s failed\n", what);
        exit(1);
    }
}

static void seal(void)
{
    must(hpkebatch_context_seal(&sender, none, 0, text, size, out, size + HPKEBATCH_TAG_SIZE) == HPKEBATCH_DONE, "seal");
}

/* A fresh encapsulation each: a stream of the seed is used once. */
static void set_up(void)
{
    must(hpkebatch_sntrup761_sender(&sender, enc, seed, stream++, public_key, HPKEBATCH_BASE, HPKEBATCH_HKDF_SHA256,
                                    HPKEBATCH_AES_128_GCM, UINT64_MAX, none, 0, none, 0, none, 0) == HPKEBATCH_DONE,
         "sender");
}

static void record(void)
{
    set_up();
    seal();
}

static void keygen(void)
{
    must(hpkebatch_sntrup761_keygen(seed, stream++, public_key, secret_key) == HPKEBATCH_DONE, "keygen");
}

/* A message under a key that stands, with a nonce of its own, as a context seals it. */
static void openssl_seal(void)
{
    static uint64_t number;
    uint8_t nonce[12] = {0};
    int written;
    memcpy(nonce, &number, sizeof number);
    number++;
    must(EVP_EncryptInit_ex(evp, NULL, NULL, NULL, nonce) == 1 &&
             EVP_EncryptUpdate(evp, out, &written, text, (int)size) == 1 &&
             EVP_EncryptFinal_ex(evp, out + written, &written) == 1 &&
             EVP_CIPHER_CTX_ctrl(evp, EVP_CTRL_GCM_GET_TAG, 16, out + size) == 1,
         "EVP");
}

/* The least time of a call over some rounds, each of as many calls as take some milliseconds. */
static double least(void (*call)(void))
{
    double best = 1e12;
    int calls = 1;
    for (int round = 0; round < ROUNDS; round++) {
        double began = now();
        for (int i = 0; i < calls; i++)
            call();
        double took = now() - began;
        if (took / calls < best)
            best = took / calls;
        if (took < 3000)
            calls = calls * 2;
    }
    return best;
}

static void print(const char *what, size_t bytes, void (*call)(void))
{
    size = bytes;
    printf("%s\t%zu\t%.3f\n", what, bytes, least(call));
}

int main(void)
{
    const size_t sizes[] = {64, 1024, MOST};
    evp = EVP_CIPHER_CTX_new();
    must(evp != NULL && EVP_EncryptInit_ex(evp, EVP_aes_128_gcm(), NULL, seed, NULL) == 1, "EVP");
    keygen();
    set_up();
    for (size_t i = 0; i < 3; i++)
        print("context seal", sizes[i], seal);
    print("record", 1024, record);
    print("keygen", 0, keygen);
    for (size_t i = 0; i < 3; i++)
        print("AES-128-GCM", sizes[i], openssl_seal);
    EVP_CIPHER_CTX_free(evp);
    return 0;
}
