/* Tests the words of the library and the names of its header: hpkebatch_strerror, hpkebatch_version, and each name's
 * number; tools/try_library tests that #ifdef knows the names of the table. Runs as C and as C++. */
#include "check.h"

/* The numbers that the calls take and give. */
static const struct {
    const char *name;
    long is, wanted;
} names[] = {
#define ROW(name, number) {#name, HPKEBATCH_##name, number}
    ROW(DONE, 0), ROW(WRONG_USAGE, 2), ROW(BAD_BATCH, 3), ROW(NO_ROOM, 5), ROW(NO_MEMORY, 6), ROW(BROKEN, 7),
    ROW(ROLE, 8), ROW(NOCIPHER, 9), ROW(LIMIT, 10), ROW(FAILED, 11), ROW(EXPORTSIZE, 12), ROW(EXHAUSTED, 13),
    ROW(NOINVERSE, 14), ROW(FORM, 15), ROW(PSKPAIR, 16), ROW(PSKEXTRA, 17), ROW(PSKMISSING, 18), ROW(SHORT, 20),
    ROW(HEADER, 21), ROW(NONCESIZE, 22), ROW(TAG_SIZE, 16), ROW(SEED_SIZE, 32), ROW(SESSION_SIZE, 32),
    ROW(SNTRUP761_PUBLIC_SIZE, 1158), ROW(SNTRUP761_SECRET_SIZE, 1763), ROW(SNTRUP761_ENC_SIZE, 1039),
    ROW(SNTRUP857_PUBLIC_SIZE, 1322), ROW(SNTRUP857_SECRET_SIZE, 1999), ROW(SNTRUP857_ENC_SIZE, 1184), ROW(SENDER, 0),
    ROW(RECIPIENT, 1), ROW(BASE, 0), ROW(PSK, 1), ROW(HKDF_SHA256, 1), ROW(HKDF_SHA384, 2), ROW(HKDF_SHA512, 3),
    ROW(AES_128_GCM, 1), ROW(AES_256_GCM, 2), ROW(EXPORT_ONLY, 65535), ROW(SNTRUP761_REQUEST_SIZE, 1062),
    ROW(SNTRUP857_REQUEST_SIZE, 1207), ROW(AES_128_NONCE_SIZE, 16), ROW(AES_256_NONCE_SIZE, 32), ROW(NO_RANDOM, 24),
    ROW(SNTRUP761, 0xf761), ROW(SNTRUP857, 0xf857),
};

static void test_names(void)
{
    for (size_t i = 0; i < sizeof names / sizeof *names; i++)
        check(names[i].is == names[i].wanted, names[i].name, __FILE__, __LINE__);
    /* Each enumeration is a type, whose values calls take. */
    hpkebatch_role role = HPKEBATCH_SENDER;
    hpkebatch_mode mode = HPKEBATCH_BASE;
    hpkebatch_kem kem = HPKEBATCH_SNTRUP857;
    hpkebatch_kdf kdf = HPKEBATCH_HKDF_SHA384;
    hpkebatch_aead aead = HPKEBATCH_EXPORT_ONLY;
    hpkebatch_context context;
    hpkebatch_status status = (hpkebatch_status)hpkebatch_context_shared(
        &context, role, mode, kem, kdf, aead, 1, (const uint8_t *)"secret", 6, NULL, 0, NULL, 0, NULL, 0);
    CHECK(status == HPKEBATCH_DONE && context.kem == kem && context.kdf == kdf && context.aead == aead);
}

static const uint32_t statuses[] = {0, 2, 3, 5, 6, 7, 8, 9, 10, 11, 12, 13, 14, 15, 16, 17, 18, 20, 21, 22, 24};
static const uint32_t none[] = {1, 4, 19, 23, 25, 255, 256, 65536, 0x80000000, 0xffffffff};

/* Whether it is a sentence as the program writes them: with no capital at its beginning, no full stop and no line end. */
static int is_sentence(const char *text)
{
    size_t size = strlen(text);
    return size >= 10 && size <= 80 && text[0] >= 'a' && text[0] <= 'z' && text[size - 1] >= 'a' &&
           text[size - 1] <= 'z' && strchr(text, '\n') == NULL;
}

static void test_sentences(void)
{
    size_t count = sizeof statuses / sizeof *statuses;
    const char *unknown = hpkebatch_strerror(none[0]);
    CHECK(is_sentence(unknown));
    for (size_t i = 0; i < sizeof none / sizeof *none; i++)
        CHECK(strcmp(hpkebatch_strerror(none[i]), unknown) == 0);
    for (size_t i = 0; i < count; i++) {
        const char *text = hpkebatch_strerror(statuses[i]);
        CHECK(is_sentence(text) && strcmp(text, unknown) != 0);
        CHECK(text == hpkebatch_strerror(statuses[i]));
        for (size_t k = 0; k < i; k++)
            CHECK(strcmp(text, hpkebatch_strerror(statuses[k])) != 0);
    }
    CHECK(strstr(hpkebatch_strerror(HPKEBATCH_NO_MEMORY), "memory") != NULL);
    CHECK(strstr(hpkebatch_strerror(HPKEBATCH_FAILED), "tag") != NULL);
}

/* The library that runs is of this header, and its numbers are those of the text. */
static void test_version(void)
{
    char text[64];
    snprintf(text, sizeof text, "%d.%d.%d", HPKEBATCH_VERSION_MAJOR, HPKEBATCH_VERSION_MINOR, HPKEBATCH_VERSION_PATCH);
    CHECK(strcmp(hpkebatch_version(), HPKEBATCH_VERSION) == 0);
    CHECK(strcmp(text, HPKEBATCH_VERSION) == 0);
}

int main(int count, char **words)
{
    (void)words;
    if (count > 1) {
        puts(hpkebatch_version());
        return 0;
    }
    test_names();
    test_sentences();
    test_version();
    return told("words");
}
