/* Whole exchanges of RFC 9458 for both sets, each KDF and both AEADs that encrypt, and each refusal: sizes, numbers and
 * bytes that are wrong. Writes each request and each response to a file of FOLDER, in the order of the rows of
 * crates/capsule_tests/src/ohttp_capsule_tests/exchanges.rt.
 *
 * usage: capsules FOLDER */
#include "check.h"

#define QUESTION "Beauty is truth, truth beauty"
#define REPLY "Ode on a Grecian Urn"
#define ASKED_SIZE (sizeof QUESTION - 1)
#define REPLY_SIZE (sizeof REPLY - 1)
#define MOST 1048576

static const char *folder;
static int files;

static void put(const uint8_t *bytes, size_t count)
{
    char path[4096];
    snprintf(path, sizeof path, "%s/message_%02d", folder, files++);
    FILE *file = fopen(path, "wb");
    CHECK(file != NULL && fwrite(bytes, 1, count, file) == count);
    if (file != NULL)
        CHECK(fclose(file) == 0);
}

static const uint8_t seed[32] = {0};
static uint8_t nonce[33];
static hpkebatch_asked asked, asked_before;
static uint8_t request[HPKEBATCH_SNTRUP857_REQUEST_SIZE + MOST + 1], question[MOST + 1], text[MOST + 1];
static uint8_t response[32 + MOST + 1 + HPKEBATCH_TAG_SIZE], reply[MOST + 1];

/* Everything that calls write has other bytes, and whether it still has them. */
static void spoil(void)
{
    memset(question, 7, sizeof question);
    memset(response, 7, sizeof response);
    memset(reply, 7, sizeof reply);
}

static int is_spoilt(const uint8_t *bytes, size_t count)
{
    for (size_t i = 0; i < count; i++)
        if (bytes[i] != 7)
            return 0;
    return 1;
}

/* The calls of a set. */
#define OF_SET(n)                                                                                                      \
    static uint8_t pk_##n[HPKEBATCH_SNTRUP##n##_PUBLIC_SIZE], sk_##n[HPKEBATCH_SNTRUP##n##_SECRET_SIZE];               \
                                                                                                                       \
    static uint32_t ask_##n(uint16_t kdf, uint16_t aead, size_t text_len, size_t request_len)                          \
    {                                                                                                                  \
        return hpkebatch_sntrup##n##_ask(&asked, seed, 1, pk_##n, 7, kdf, aead, text, text_len, request, request_len); \
    }                                                                                                                  \
                                                                                                                       \
    /* A request of this size, and a text of this size to answer with. */                                              \
    static uint32_t answer_##n(uint8_t key_id, size_t request_len, size_t nonce_len, size_t text_len,                  \
                               size_t question_len, size_t response_len)                                               \
    {                                                                                                                  \
        return hpkebatch_sntrup##n##_answer(sk_##n, key_id, request, request_len, nonce, nonce_len, text, text_len,    \
                                            question, question_len, response, response_len);                           \
    }                                                                                                                  \
                                                                                                                       \
    static void exchange_##n(uint16_t kdf, uint16_t aead)                                                              \
    {                                                                                                                  \
        size_t size = HPKEBATCH_SNTRUP##n##_REQUEST_SIZE + ASKED_SIZE;                                                 \
        size_t nonce_len = aead == 1 ? HPKEBATCH_AES_128_NONCE_SIZE : HPKEBATCH_AES_256_NONCE_SIZE;                    \
        size_t beside = nonce_len + HPKEBATCH_TAG_SIZE, answered = beside + REPLY_SIZE;                                \
        memcpy(text, QUESTION, ASKED_SIZE);                                                                            \
        CHECK(ask_##n(kdf, aead, ASKED_SIZE, size) == HPKEBATCH_DONE);                                                 \
        put(request, size);                                                                                            \
        memcpy(text, REPLY, REPLY_SIZE);                                                                               \
        CHECK(answer_##n(7, size, nonce_len, REPLY_SIZE, ASKED_SIZE, answered) == HPKEBATCH_DONE);                     \
        CHECK(memcmp(question, QUESTION, ASKED_SIZE) == 0);                                                            \
        put(response, answered);                                                                                       \
        CHECK(hpkebatch_take(&asked, response, answered, reply, REPLY_SIZE) == HPKEBATCH_DONE);                        \
        CHECK(memcmp(reply, REPLY, REPLY_SIZE) == 0);                                                                  \
                                                                                                                       \
        /* A take: sizes, then a byte of the nonce, of the text and of the tag. */                                     \
        spoil();                                                                                                       \
        CHECK(answer_##n(7, size, nonce_len, REPLY_SIZE, ASKED_SIZE, answered) == HPKEBATCH_DONE);                     \
        for (size_t less = 0; less < beside; less++)                                                                   \
            CHECK(hpkebatch_take(&asked, response, less, reply, less % 3) == HPKEBATCH_SHORT);                         \
        CHECK(hpkebatch_take(&asked, response, beside, reply, 1) == HPKEBATCH_WRONG_USAGE);                            \
        CHECK(hpkebatch_take(&asked, response, beside, reply, 0) == HPKEBATCH_FAILED);                                 \
        CHECK(hpkebatch_take(&asked, response, answered, reply, REPLY_SIZE - 1) == HPKEBATCH_WRONG_USAGE);             \
        CHECK(hpkebatch_take(&asked, response, answered, reply, REPLY_SIZE + 1) == HPKEBATCH_WRONG_USAGE);             \
        CHECK(hpkebatch_take(&asked, response, answered - 1, reply, REPLY_SIZE - 1) == HPKEBATCH_FAILED);              \
        for (size_t at = 0; at < answered; at += 5) {                                                                  \
            response[at] ^= 0x40;                                                                                      \
            CHECK(hpkebatch_take(&asked, response, answered, reply, REPLY_SIZE) == HPKEBATCH_FAILED);                  \
            response[at] ^= 0x40;                                                                                      \
        }                                                                                                              \
        response[answered - 1] ^= 1;                                                                                   \
        CHECK(hpkebatch_take(&asked, response, answered, reply, REPLY_SIZE) == HPKEBATCH_FAILED);                      \
        response[answered - 1] ^= 1;                                                                                   \
        CHECK(hpkebatch_take(&asked, response, beside + MOST + 1, reply, MOST + 1) == HPKEBATCH_WRONG_USAGE);          \
        asked_before = asked;                                                                                          \
        asked.key_id = 256;                                                                                            \
        CHECK(hpkebatch_take(&asked, response, answered, reply, REPLY_SIZE) == HPKEBATCH_WRONG_USAGE);                 \
        asked.key_id = 8;                                                                                              \
        CHECK(hpkebatch_take(&asked, response, answered, reply, REPLY_SIZE) == HPKEBATCH_FAILED);                      \
        asked = asked_before;                                                                                          \
        asked.kem = 0x20;                                                                                              \
        CHECK(hpkebatch_take(&asked, response, answered, reply, REPLY_SIZE) == HPKEBATCH_WRONG_USAGE);                 \
        asked = asked_before;                                                                                          \
        asked.kdf = 4;                                                                                                 \
        CHECK(hpkebatch_take(&asked, response, answered, reply, REPLY_SIZE) == HPKEBATCH_WRONG_USAGE);                 \
        asked = asked_before;                                                                                          \
        asked.aead = HPKEBATCH_EXPORT_ONLY;                                                                            \
        CHECK(hpkebatch_take(&asked, response, answered, reply, REPLY_SIZE) == HPKEBATCH_WRONG_USAGE);                 \
        asked = asked_before;                                                                                          \
        CHECK(is_spoilt(reply, sizeof reply));                                                                         \
                                                                                                                       \
        /* An answer: sizes, a key of another form, a header, a nonce, and each part of the request. */                \
        spoil();                                                                                                       \
        size_t least = HPKEBATCH_SNTRUP##n##_REQUEST_SIZE;                                                             \
        CHECK(answer_##n(7, 0, nonce_len, REPLY_SIZE, 0, answered) == HPKEBATCH_SHORT);                                \
        CHECK(answer_##n(8, least - 1, 3, MOST + 1, 5, 0) == HPKEBATCH_SHORT);                                         \
        CHECK(answer_##n(7, size, nonce_len, REPLY_SIZE, ASKED_SIZE - 1, answered) == HPKEBATCH_WRONG_USAGE);          \
        CHECK(answer_##n(7, size, nonce_len, REPLY_SIZE, ASKED_SIZE, answered - 1) == HPKEBATCH_WRONG_USAGE);          \
        CHECK(answer_##n(7, size, nonce_len, REPLY_SIZE, ASKED_SIZE, answered + 1) == HPKEBATCH_WRONG_USAGE);          \
        CHECK(answer_##n(7, size, nonce_len, MOST + 1, ASKED_SIZE, beside + MOST + 1) == HPKEBATCH_WRONG_USAGE);       \
        CHECK(answer_##n(7, least + MOST + 1, nonce_len, 0, MOST + 1, beside) == HPKEBATCH_WRONG_USAGE);               \
        uint8_t first = sk_##n[0];                                                                                     \
        sk_##n[0] = 0xff;                                                                                              \
        CHECK(answer_##n(8, size, nonce_len, REPLY_SIZE, ASKED_SIZE, answered) == HPKEBATCH_FORM);                     \
        sk_##n[0] = first;                                                                                             \
        CHECK(answer_##n(8, size, 15, REPLY_SIZE, ASKED_SIZE, 15 + REPLY_SIZE + 16) == HPKEBATCH_HEADER);              \
        for (size_t at = 0; at < 7; at++) {                                                                            \
            request[at] ^= 0x80;                                                                                       \
            CHECK(answer_##n(7, size, nonce_len, REPLY_SIZE, ASKED_SIZE, answered) == HPKEBATCH_HEADER);               \
            request[at] ^= 0x80;                                                                                       \
        }                                                                                                              \
        for (size_t other = 0; other <= 33; other++)                                                                   \
            if (other != nonce_len)                                                                                    \
                CHECK(answer_##n(7, size, other, REPLY_SIZE, ASKED_SIZE, other + REPLY_SIZE + 16) ==                   \
                      HPKEBATCH_NONCESIZE);                                                                            \
        for (size_t at = 7; at < size; at += 64) {                                                                     \
            request[at] ^= 1;                                                                                          \
            CHECK(answer_##n(7, size, nonce_len, REPLY_SIZE, ASKED_SIZE, answered) == HPKEBATCH_FAILED);               \
            request[at] ^= 1;                                                                                          \
        }                                                                                                              \
        request[4] = (uint8_t)(kdf % 3 + 1);                                                                           \
        CHECK(answer_##n(7, size, nonce_len, REPLY_SIZE, ASKED_SIZE, answered) == HPKEBATCH_FAILED);                   \
        request[4] = (uint8_t)kdf;                                                                                     \
        CHECK(is_spoilt(question, sizeof question) && is_spoilt(response, sizeof response));                           \
        CHECK(answer_##n(7, size, nonce_len, 0, ASKED_SIZE, beside) == HPKEBATCH_DONE);                                \
        CHECK(hpkebatch_take(&asked, response, beside, reply, 0) == HPKEBATCH_DONE);                                   \
                                                                                                                       \
        /* An ask: sizes, and numbers that name nothing. */                                                            \
        memset(request, 7, sizeof request);                                                                            \
        CHECK(ask_##n(kdf, aead, ASKED_SIZE, size - 1) == HPKEBATCH_WRONG_USAGE);                                      \
        CHECK(ask_##n(kdf, aead, ASKED_SIZE, size + 1) == HPKEBATCH_WRONG_USAGE);                                      \
        CHECK(ask_##n(kdf, aead, 0, 0) == HPKEBATCH_WRONG_USAGE);                                                      \
        CHECK(ask_##n(kdf, aead, MOST + 1, least + MOST + 1) == HPKEBATCH_WRONG_USAGE);                                \
        CHECK(ask_##n(0, aead, ASKED_SIZE, size) == HPKEBATCH_WRONG_USAGE);                                            \
        CHECK(ask_##n(4, aead, ASKED_SIZE, size) == HPKEBATCH_WRONG_USAGE);                                            \
        CHECK(ask_##n(kdf, 0, ASKED_SIZE, size) == HPKEBATCH_WRONG_USAGE);                                             \
        CHECK(ask_##n(kdf, 3, ASKED_SIZE, size) == HPKEBATCH_WRONG_USAGE);                                             \
        CHECK(ask_##n(kdf, HPKEBATCH_EXPORT_ONLY, ASKED_SIZE, size) == HPKEBATCH_WRONG_USAGE);                         \
        CHECK(is_spoilt(request, sizeof request) && memcmp(&asked, &asked_before, sizeof asked) == 0);                 \
    }                                                                                                                  \
                                                                                                                       \
    static void test_##n(void)                                                                                         \
    {                                                                                                                  \
        CHECK(hpkebatch_sntrup##n##_keygen(seed, 0, pk_##n, sk_##n) == HPKEBATCH_DONE);                                \
        for (uint16_t kdf = 1; kdf <= 3; kdf++)                                                                        \
            for (uint16_t aead = 1; aead <= 2; aead++)                                                                 \
                exchange_##n(kdf, aead);                                                                               \
                                                                                                                       \
        /* The longest texts, and none. */                                                                             \
        size_t least = HPKEBATCH_SNTRUP##n##_REQUEST_SIZE;                                                             \
        for (size_t size = 0; size <= MOST; size += MOST) {                                                            \
            memset(text, 9, sizeof text);                                                                              \
            CHECK(ask_##n(2, 2, size, least + size) == HPKEBATCH_DONE);                                                \
            CHECK(answer_##n(7, least + size, 32, size, size, 48 + size) == HPKEBATCH_DONE);                           \
            CHECK(hpkebatch_take(&asked, response, 48 + size, reply, size) == HPKEBATCH_DONE);                         \
            CHECK(memcmp(question, text, size) == 0 && memcmp(reply, text, size) == 0);                                \
        }                                                                                                              \
    }

OF_SET(761)
OF_SET(857)

int main(int count, char **words)
{
    if (count != 2)
        return 2;
    folder = words[1];
    memset(nonce, 0xaa, sizeof nonce);
    test_761();
    test_857();
    return told("capsules");
}
