/* The exchange of examples/two_ends.batch by the library: prints the lines of its reply that tell of the key, of the
 * contexts and of each message. */
#include "check.h"

static void print(const char *words, const uint8_t *bytes, size_t count)
{
    printf("%s", words);
    for (size_t i = 0; i < count; i++)
        printf("%02x", bytes[i]);
}

int main(void)
{
    static uint8_t pk[HPKEBATCH_SNTRUP761_PUBLIC_SIZE], sk[HPKEBATCH_SNTRUP761_SECRET_SIZE];
    static uint8_t enc[HPKEBATCH_SNTRUP761_ENC_SIZE];
    const uint8_t *info = (const uint8_t *)"Ode on a Grecian Urn", *none = (const uint8_t *)"";
    const uint8_t *text = (const uint8_t *)"Beauty is truth, truth beauty";
    const char *const aads[] = {"Count-0", "Count-1", "Count-1"};
    hpkebatch_context sender, recipient;
    uint8_t seed[32], cts[3][45], opened[29];
    for (uint8_t i = 0; i < 32; i++)
        seed[i] = i;

    CHECK(hpkebatch_sntrup761_keygen(seed, 0, pk, sk) == HPKEBATCH_DONE);
    print("key 0 generated ", pk, sizeof pk);
    print(" ", sk, sizeof sk);
    CHECK(hpkebatch_sntrup761_sender(&sender, enc, seed, 1, pk, HPKEBATCH_BASE, HPKEBATCH_HKDF_SHA256,
                                     HPKEBATCH_AES_128_GCM, 9, info, 20, none, 0, none, 0) == HPKEBATCH_DONE);
    print("\ncontext 0 sender ", enc, sizeof enc);
    CHECK(hpkebatch_sntrup761_recipient(&recipient, enc, sk, HPKEBATCH_BASE, HPKEBATCH_HKDF_SHA256,
                                        HPKEBATCH_AES_128_GCM, 9, info, 20, none, 0, none, 0) == HPKEBATCH_DONE);
    puts("\ncontext 1 recipient");
    for (int i = 0; i < 2; i++) {
        printf("sealed %llu ", (unsigned long long)sender.number);
        CHECK(hpkebatch_context_seal(&sender, (const uint8_t *)aads[i], 7, text, 29, cts[i], 45) == HPKEBATCH_DONE);
        print("", cts[i], 45);
        puts("");
    }
    memcpy(cts[2], cts[1], 45);
    for (int i = 0; i < 3; i++) {
        unsigned long long number = recipient.number;
        if (hpkebatch_context_open(&recipient, (const uint8_t *)aads[i], 7, cts[i], 45, opened, 29) == HPKEBATCH_DONE) {
            printf("opened %llu ", number);
            print("", opened, 29);
            puts("");
        } else {
            printf("failed %llu\n", number);
        }
    }
    return faults != 0;
}
