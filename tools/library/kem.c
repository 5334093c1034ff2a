/* Writes the keys, the encapsulation and the session key of a row of tools/library/kat to files, after both ends got
 * the same key; then sets up both ends of a context on it, and calls the refusals of keys and of set-ups.
 *
 * usage: kem 761|857 SEED KEY_STREAM CONTEXT_STREAM FOLDER */
#include "check.h"

static void put(const char *folder, const char *name, const uint8_t *bytes, size_t count)
{
    char path[4096];
    snprintf(path, sizeof path, "%s/%s", folder, name);
    FILE *file = fopen(path, "wb");
    CHECK(file != NULL && fwrite(bytes, 1, count, file) == count);
    if (file != NULL)
        CHECK(fclose(file) == 0);
}

/* The calls of a set. */
#define OF_SET(n)                                                                                                      \
    static void test_##n(const uint8_t seed[32], uint64_t key_stream, uint64_t stream, const char *folder)             \
    {                                                                                                                  \
        static uint8_t pk[HPKEBATCH_SNTRUP##n##_PUBLIC_SIZE], sk[HPKEBATCH_SNTRUP##n##_SECRET_SIZE];                   \
        static uint8_t enc[HPKEBATCH_SNTRUP##n##_ENC_SIZE], sent[HPKEBATCH_SNTRUP##n##_ENC_SIZE];                      \
        uint8_t session[32], again[32];                                                                                \
        CHECK(hpkebatch_sntrup##n##_keygen(seed, key_stream, pk, sk) == HPKEBATCH_DONE);                               \
        CHECK(hpkebatch_sntrup##n##_encap(seed, stream, pk, enc, session) == HPKEBATCH_DONE);                          \
        CHECK(hpkebatch_sntrup##n##_decap(enc, sk, again) == HPKEBATCH_DONE);                                          \
        CHECK(memcmp(session, again, 32) == 0);                                                                        \
        put(folder, "pk", pk, sizeof pk);                                                                              \
        put(folder, "sk", sk, sizeof sk);                                                                              \
        put(folder, "enc", enc, sizeof enc);                                                                           \
        put(folder, "session", session, 32);                                                                           \
                                                                                                                       \
        /* Both ends of contexts, in both modes, as the calls of the parts give them. */                               \
        for (uint16_t mode = HPKEBATCH_BASE; mode <= HPKEBATCH_PSK; mode++) {                                          \
            hpkebatch_context sender, recipient, shared;                                                               \
            const uint8_t *psk = (const uint8_t *)"a psk of 32 bytes or more, drawn";                                  \
            const uint8_t *id = (const uint8_t *)"its id";                                                             \
            size_t psk_len = mode == HPKEBATCH_PSK ? 32 : 0, id_len = mode == HPKEBATCH_PSK ? 6 : 0;                   \
            uint8_t ct[23], text[7];                                                                                   \
            memset(&sender, 0, sizeof sender);                                                                         \
            memset(&recipient, 0, sizeof recipient);                                                                   \
            memset(&shared, 0, sizeof shared);                                                                         \
            CHECK(hpkebatch_sntrup##n##_sender(&sender, sent, seed, stream, pk, mode, 1, 2, 9,                         \
                                               (const uint8_t *)"info", 4, psk, psk_len, id, id_len) ==                \
                  HPKEBATCH_DONE);                                                                                     \
            CHECK(memcmp(sent, enc, sizeof enc) == 0);                                                                 \
            CHECK(hpkebatch_sntrup##n##_recipient(&recipient, sent, sk, mode, 1, 2, 9, (const uint8_t *)"info", 4,     \
                                                  psk, psk_len, id, id_len) == HPKEBATCH_DONE);                        \
            CHECK(hpkebatch_context_shared(&shared, HPKEBATCH_SENDER, mode, 0xf##n, 1, 2, 9, session, 32,              \
                                           (const uint8_t *)"info", 4, psk, psk_len, id, id_len) == HPKEBATCH_DONE);   \
            CHECK(memcmp(&shared, &sender, sizeof shared) == 0);                                                       \
            CHECK(hpkebatch_context_seal(&sender, id, 6, (const uint8_t *)"a text.", 7, ct, 23) == HPKEBATCH_DONE);    \
            CHECK(hpkebatch_context_open(&recipient, id, 6, ct, 23, text, 7) == HPKEBATCH_DONE);                       \
            CHECK(memcmp(text, "a text.", 7) == 0);                                                                    \
                                                                                                                       \
            /* Each refusal leaves what was lent. */                                                                   \
            hpkebatch_context kept = sender;                                                                           \
            memset(sent, 7, sizeof sent);                                                                              \
            CHECK(hpkebatch_sntrup##n##_sender(&sender, sent, seed, stream, pk, mode, 1, 2, 0, id, 0, psk, psk_len,    \
                                               id, id_len) == HPKEBATCH_WRONG_USAGE);                                  \
            CHECK(hpkebatch_sntrup##n##_sender(&sender, sent, seed, stream, pk, mode, 1, 2, 9, id, 0, psk, 32, id,     \
                                               0) == HPKEBATCH_PSKPAIR);                                               \
            CHECK(sent[0] == 7 && sent[sizeof sent - 1] == 7);                                                         \
            CHECK(hpkebatch_sntrup##n##_recipient(&sender, enc, sk, mode, 1, 2, 9, id, 0, psk, 32 - psk_len, id,       \
                                                  6 - id_len) ==                                                       \
                  (mode == HPKEBATCH_PSK ? HPKEBATCH_PSKMISSING : HPKEBATCH_PSKEXTRA));                                \
            uint8_t first = sk[0];                                                                                     \
            sk[0] = 0xff;                                                                                              \
            CHECK(hpkebatch_sntrup##n##_recipient(&sender, enc, sk, mode, 1, 2, 9, id, 0, psk, psk_len, id, id_len) == \
                  HPKEBATCH_FORM);                                                                                     \
            CHECK(hpkebatch_sntrup##n##_decap(enc, sk, again) == HPKEBATCH_FORM);                                      \
            sk[0] = first;                                                                                             \
            CHECK(memcmp(&sender, &kept, sizeof kept) == 0);                                                           \
            CHECK(memcmp(session, again, 32) == 0);                                                                    \
        }                                                                                                              \
                                                                                                                       \
        /* An encapsulation that was changed gives another key. */                                                     \
        enc[sizeof enc - 1] ^= 1;                                                                                      \
        CHECK(hpkebatch_sntrup##n##_decap(enc, sk, again) == HPKEBATCH_DONE);                                          \
        CHECK(memcmp(session, again, 32) != 0);                                                                        \
    }

OF_SET(761)
OF_SET(857)

int main(int count, char **words)
{
    if (count != 6)
        return 2;
    uint8_t seed[32];
    CHECK(strlen(words[2]) == 64 && bytes_of(words[2], seed) == 32);
    uint64_t key_stream = strtoull(words[3], NULL, 10), stream = strtoull(words[4], NULL, 10);
    if (strcmp(words[1], "761") == 0)
        test_761(seed, key_stream, stream, words[5]);
    else
        test_857(seed, key_stream, stream, words[5]);
    return told("kem");
}
