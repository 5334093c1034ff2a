/* Calls each part of the library on published vectors, and with each wrong length. Runs as C and as C++. */
#include "check.h"

/* A text of C as bytes and their number. */
#define TEXT(text) (const uint8_t *)(text), sizeof(text) - 1
#define NONE (const uint8_t *)"", 0

/* McGrew and Viega, The Galois/Counter Mode of Operation, appendix B, test cases 4 and 16. */
static const struct {
    const char *key, *ct;
} gcm_cases[] = {
    {"feffe9928665731c6d6a8f9467308308",
     "42831ec2217774244b7221b784d0d49ce3aa212f2c02a4e035c17e2329aca12e21d514b25466931c7d8f6a5aac84aa051ba30b396a0aac973d58e0"
     "915bc94fbc3221a5db94fae95ae7121a47"},
    {"feffe9928665731c6d6a8f9467308308feffe9928665731c6d6a8f9467308308",
     "522dc1f099567d07f47f37a32a84427d643a8cdcbfe5c0c97598a2bd2555d1aa8cb08e48590dbb3da7b08b1056828838c5f61e6393ba7a0abcc9f6"
     "6276fc6ece0f4e1768cddf8853bb2d551b"},
};

static void test_ciphers(void)
{
    for (size_t i = 0; i < sizeof gcm_cases / sizeof *gcm_cases; i++) {
        uint8_t key[32], nonce[12], aad[20], text[60], out[76], opened[60], kept[76];
        size_t key_len = bytes_of(gcm_cases[i].key, key);
        bytes_of("cafebabefacedbaddecaf888", nonce);
        bytes_of("feedfacedeadbeeffeedfacedeadbeefabaddad2", aad);
        bytes_of("d9313225f88406e5a55909c5aff5269a86a7a9531534f7da2e4c303d8a318a721c3c0c95956809532fcf0e2449a6b525b16aedf5aa0de657"
                 "ba637b39",
                 text);
        CHECK(hpkebatch_gcm_seal(key, key_len, nonce, aad, 20, text, 60, out, 76) == HPKEBATCH_DONE);
        CHECK(is_hex(out, gcm_cases[i].ct));
        CHECK(hpkebatch_gcm_open(key, key_len, nonce, aad, 20, out, 76, opened, 60) == HPKEBATCH_DONE);
        CHECK(memcmp(opened, text, 60) == 0);

        memset(opened, 7, sizeof opened);
        memcpy(kept, opened, sizeof opened);
        out[75] ^= 1;
        CHECK(hpkebatch_gcm_open(key, key_len, nonce, aad, 20, out, 76, opened, 60) == HPKEBATCH_FAILED);
        out[75] ^= 1;
        CHECK(hpkebatch_gcm_open(key, key_len, nonce, aad, 19, out, 76, opened, 60) == HPKEBATCH_FAILED);
        CHECK(hpkebatch_gcm_open(key, key_len - 1, nonce, aad, 20, out, 76, opened, 60) == HPKEBATCH_WRONG_USAGE);
        CHECK(hpkebatch_gcm_open(key, 0, nonce, aad, 20, out, 76, opened, 60) == HPKEBATCH_WRONG_USAGE);
        CHECK(hpkebatch_gcm_open(key, key_len, nonce, aad, 20, out, 76, opened, 59) == HPKEBATCH_WRONG_USAGE);
        for (size_t size = 0; size < 16; size++) {
            CHECK(hpkebatch_gcm_open(key, key_len, nonce, aad, 20, out, size, opened, 0) == HPKEBATCH_FAILED);
            CHECK(hpkebatch_gcm_open(key, key_len, nonce, aad, 20, out, size, opened, 1) == HPKEBATCH_WRONG_USAGE);
        }
        CHECK(memcmp(opened, kept, 60) == 0);

        memset(out, 7, sizeof out);
        memcpy(kept, out, sizeof out);
        CHECK(hpkebatch_gcm_seal(key, key_len, nonce, aad, 20, text, 60, out, 75) == HPKEBATCH_WRONG_USAGE);
        CHECK(hpkebatch_gcm_seal(key, key_len, nonce, aad, 20, text, 59, out, 76) == HPKEBATCH_WRONG_USAGE);
        CHECK(hpkebatch_gcm_seal(key, 24, nonce, aad, 20, text, 60, out, 76) == HPKEBATCH_WRONG_USAGE);
        CHECK(memcmp(out, kept, 76) == 0);
    }
    /* The same specification, test case 1: no text. */
    uint8_t zero[16] = {0}, tag[16];
    CHECK(hpkebatch_gcm_seal(zero, 16, zero, NONE, NONE, tag, 16) == HPKEBATCH_DONE);
    CHECK(is_hex(tag, "58e2fccefa7e3061367f1d57a4e7455a"));
    CHECK(hpkebatch_gcm_open(zero, 16, zero, NONE, tag, 16, zero, 0) == HPKEBATCH_DONE);
}

static const char *const info_hex = "4f6465206f6e2061204772656369616e2055726e";
static const char *const text_hex = "4265617574792069732074727574682c20747275746820626561757479";

/* A context of RFC 9180, A.1.1: DHKEM(X25519, HKDF-SHA256), HKDF-SHA256, AES-128-GCM, base. */
static uint32_t context_a_1_1(hpkebatch_context *context, uint16_t role, uint64_t limit)
{
    uint8_t secret[32], info[20];
    bytes_of("fe0e18c9f024ce43799ae393c7e8fe8fce9d218875e8227b0187c04e7d2ea1fc", secret);
    bytes_of(info_hex, info);
    return hpkebatch_context_shared(context, role, HPKEBATCH_BASE, 0x20, HPKEBATCH_HKDF_SHA256, HPKEBATCH_AES_128_GCM,
                                    limit, secret, 32, info, 20, NONE, NONE);
}

static void test_schedule(void)
{
    hpkebatch_context context;
    uint8_t secret[32], info[20], psk[32];
    CHECK(context_a_1_1(&context, HPKEBATCH_SENDER, 9) == HPKEBATCH_DONE);
    CHECK(is_hex(context.key, "4531685d41d65f03dc48f6b8302c05b000000000000000000000000000000000"));
    CHECK(is_hex(context.base_nonce, "56d890e5accaaf011cff4b7d"));
    CHECK(is_hex(context.exporter_secret, "45ff1c2e220db587171952c0592d5f5ebe103f1561a2614e38f2ffd47e99e3f8"
                                          "0000000000000000000000000000000000000000000000000000000000000000"));
    CHECK(context.number == 0 && context.limit == 9 && context.role == HPKEBATCH_SENDER);
    CHECK(context.kem == 0x20 && context.kdf == 1 && context.aead == 1);

    /* RFC 9180, A.1.2: the same suite, psk. */
    bytes_of("727699f009ffe3c076315019c69648366b69171439bd7dd0807743bde76986cd", secret);
    bytes_of("0247fd33b913760fa1fa51e1892d9f307fbe65eb171e8132c2af18555a738b82", psk);
    bytes_of(info_hex, info);
    CHECK(hpkebatch_context_shared(&context, HPKEBATCH_RECIPIENT, HPKEBATCH_PSK, 0x20, 1, 1, 1, secret, 32, info, 20, psk,
                                   32, TEXT("Ennyn Durin aran Moria")) == HPKEBATCH_DONE);
    CHECK(is_hex(context.key, "15026dba546e3ae05836fc7de5a7bb26"));
    CHECK(is_hex(context.base_nonce, "9518635eba129d5ce0914555"));
    CHECK(is_hex(context.exporter_secret, "3d76025dbbedc49448ec3f9080a1abab6b06e91c0b11ad23c912f043a0ee7655"));

    /* Each refusal, which leaves the context as it was. */
    hpkebatch_context kept = context;
    const struct {
        uint16_t role, mode, kdf, aead;
        uint64_t limit;
        size_t psk_len, id_len;
        uint32_t status;
    } cases[] = {
        {2, 0, 1, 1, 1, 0, 0, HPKEBATCH_WRONG_USAGE},  {0, 2, 1, 1, 1, 0, 0, HPKEBATCH_WRONG_USAGE},
        {0, 0, 0, 1, 1, 0, 0, HPKEBATCH_WRONG_USAGE},  {0, 0, 4, 1, 1, 0, 0, HPKEBATCH_WRONG_USAGE},
        {0, 0, 1, 3, 1, 0, 0, HPKEBATCH_WRONG_USAGE},  {0, 0, 1, 1, 0, 0, 0, HPKEBATCH_WRONG_USAGE},
        {0, 0, 1, 1, 1, 32, 0, HPKEBATCH_PSKPAIR},     {0, 1, 1, 1, 1, 0, 22, HPKEBATCH_PSKPAIR},
        {0, 0, 1, 1, 1, 32, 22, HPKEBATCH_PSKEXTRA},   {0, 1, 1, 1, 1, 0, 0, HPKEBATCH_PSKMISSING},
    };
    for (size_t i = 0; i < sizeof cases / sizeof *cases; i++)
        CHECK(hpkebatch_context_shared(&context, cases[i].role, cases[i].mode, 0x20, cases[i].kdf, cases[i].aead,
                                       cases[i].limit, secret, 32, info, 20, psk, cases[i].psk_len,
                                       (const uint8_t *)"Ennyn Durin aran Moria", cases[i].id_len) == cases[i].status);
    CHECK(memcmp(&context, &kept, sizeof context) == 0);
}

/* RFC 9180, A.1.1.1, sequence numbers 0 and 1. */
static const char *const cts[] = {
    "f938558b5d72f1a23810b4be2ab4f84331acc02fc97babc53a52ae8218a355a96d8770ac83d07bea87e13c512a",
    "af2d7e9ac9ae7e270f46ba1f975be53c09f8d875bdc8535458c2494e8a6eab251c03d0c22a56b8ca42c2063b84",
};

static void test_messages(void)
{
    hpkebatch_context sender, recipient, kept;
    uint8_t text[29], out[45], opened[29], before[45];
    const char *const aads[] = {"Count-0", "Count-1"};
    bytes_of(text_hex, text);
    CHECK(context_a_1_1(&sender, HPKEBATCH_SENDER, 2) == HPKEBATCH_DONE);
    CHECK(context_a_1_1(&recipient, HPKEBATCH_RECIPIENT, 2) == HPKEBATCH_DONE);
    for (size_t i = 0; i < 2; i++) {
        const uint8_t *aad = (const uint8_t *)aads[i];
        CHECK(hpkebatch_context_seal(&sender, aad, 7, text, 29, out, 45) == HPKEBATCH_DONE);
        CHECK(is_hex(out, cts[i]));
        CHECK(sender.number == i + 1);
        CHECK(hpkebatch_context_open(&recipient, aad, 7, out, 45, opened, 29) == HPKEBATCH_DONE);
        CHECK(memcmp(opened, text, 29) == 0);
        CHECK(recipient.number == i + 1);
    }

    /* The numbers are used up; a tag is tested first. */
    memset(before, 7, sizeof before);
    memcpy(out, before, sizeof out);
    kept = sender;
    CHECK(hpkebatch_context_seal(&sender, TEXT("Count-2"), text, 29, out, 45) == HPKEBATCH_LIMIT);
    CHECK(hpkebatch_context_seal(&sender, TEXT("Count-2"), text, 29, out, 44) == HPKEBATCH_WRONG_USAGE);
    CHECK(hpkebatch_context_open(&sender, TEXT("Count-2"), out, 45, opened, 29) == HPKEBATCH_ROLE);
    CHECK(memcmp(&sender, &kept, sizeof kept) == 0);
    CHECK(memcmp(out, before, sizeof out) == 0);
    CHECK(hpkebatch_context_open(&recipient, TEXT("Count-2"), out, 45, opened, 29) == HPKEBATCH_FAILED);
    CHECK(hpkebatch_context_seal(&recipient, TEXT("Count-2"), text, 29, out, 45) == HPKEBATCH_ROLE);

    /* One bit changed, and the message of another number. */
    CHECK(context_a_1_1(&recipient, HPKEBATCH_RECIPIENT, 2) == HPKEBATCH_DONE);
    kept = recipient;
    bytes_of(cts[1], out);
    CHECK(hpkebatch_context_open(&recipient, TEXT("Count-1"), out, 45, opened, 29) == HPKEBATCH_FAILED);
    bytes_of(cts[0], out);
    out[0] ^= 0x80;
    CHECK(hpkebatch_context_open(&recipient, TEXT("Count-0"), out, 45, opened, 29) == HPKEBATCH_FAILED);
    for (size_t size = 0; size < 16; size++) {
        CHECK(hpkebatch_context_open(&recipient, TEXT("Count-0"), out, size, opened, 0) == HPKEBATCH_FAILED);
        CHECK(hpkebatch_context_open(&recipient, TEXT("Count-0"), out, size, opened, 1) == HPKEBATCH_WRONG_USAGE);
    }
    CHECK(memcmp(&recipient, &kept, sizeof kept) == 0);

    /* Numbers in a context that name nothing, and an export-only one. */
    CHECK(context_a_1_1(&sender, HPKEBATCH_SENDER, 2) == HPKEBATCH_DONE);
    sender.aead = HPKEBATCH_EXPORT_ONLY;
    CHECK(hpkebatch_context_seal(&sender, NONE, text, 29, out, 45) == HPKEBATCH_NOCIPHER);
    sender.aead = 7;
    CHECK(hpkebatch_context_seal(&sender, NONE, text, 29, out, 45) == HPKEBATCH_WRONG_USAGE);
}

/* A text of this size sealed in place, beside the other call, and opened in place, once after a bit was changed. The
 * additional data are bytes of the text. */
static void check_in_place(hpkebatch_context *sender, hpkebatch_context *recipient, const uint8_t *text, size_t size)
{
    static uint8_t buffer[65553], out[65553], before[65553];
    hpkebatch_context other = *sender, kept = *recipient;
    size_t aad_len = size % 50, changed = size * 5 % (size + 16);
    memcpy(buffer, text, size);
    memset(buffer + size, 7, 16);
    CHECK(hpkebatch_context_seal(&other, text, aad_len, text, size, out, size + 16) == HPKEBATCH_DONE);
    CHECK(hpkebatch_context_seal_in_place(sender, text, aad_len, buffer, size + 16) == HPKEBATCH_DONE);
    CHECK(memcmp(buffer, out, size + 16) == 0);
    CHECK(memcmp(sender, &other, sizeof other) == 0);

    buffer[changed] ^= 1;
    memcpy(before, buffer, size + 16);
    CHECK(hpkebatch_context_open_in_place(recipient, text, aad_len, buffer, size + 16) == HPKEBATCH_FAILED);
    CHECK(memcmp(buffer, before, size + 16) == 0);
    CHECK(memcmp(recipient, &kept, sizeof kept) == 0);
    buffer[changed] ^= 1;
    CHECK(hpkebatch_context_open(&kept, text, aad_len, out, size + 16, before, size) == HPKEBATCH_DONE);
    CHECK(hpkebatch_context_open_in_place(recipient, text, aad_len, buffer, size + 16) == HPKEBATCH_DONE);
    CHECK(memcmp(buffer, text, size) == 0 && memcmp(before, text, size) == 0);
    CHECK(memcmp(buffer + size, out + size, 16) == 0);
    CHECK(memcmp(recipient, &kept, sizeof kept) == 0);
}

/* In place, for both key sizes: each size of a text up to 100, and large ones; and each refusal, which changes nothing. */
static void test_in_place(void)
{
    static uint8_t text[65537];
    const size_t large[] = {127, 128, 129, 1000, 1024, 4095, 16384, 65536, 65537};
    hpkebatch_context sender, recipient, kept;
    uint8_t buffer[45], before[45];
    for (size_t i = 0; i < sizeof text; i++)
        text[i] = (uint8_t)(i * 7 + (i >> 8));
    for (uint16_t aead = HPKEBATCH_AES_128_GCM; aead <= HPKEBATCH_AES_256_GCM; aead++) {
        CHECK(context_a_1_1(&sender, HPKEBATCH_SENDER, 200) == HPKEBATCH_DONE);
        CHECK(context_a_1_1(&recipient, HPKEBATCH_RECIPIENT, 200) == HPKEBATCH_DONE);
        sender.aead = recipient.aead = aead;
        for (size_t size = 0; size <= 100; size++)
            check_in_place(&sender, &recipient, text, size);
        for (size_t i = 0; i < sizeof large / sizeof *large; i++)
            check_in_place(&sender, &recipient, text, large[i]);
        CHECK(sender.number == 101 + sizeof large / sizeof *large && recipient.number == sender.number);
    }

    /* The published message. */
    CHECK(context_a_1_1(&sender, HPKEBATCH_SENDER, 1) == HPKEBATCH_DONE);
    CHECK(context_a_1_1(&recipient, HPKEBATCH_RECIPIENT, 1) == HPKEBATCH_DONE);
    bytes_of(text_hex, buffer);
    CHECK(hpkebatch_context_seal_in_place(&sender, TEXT("Count-0"), buffer, 45) == HPKEBATCH_DONE);
    CHECK(is_hex(buffer, cts[0]));

    memcpy(before, buffer, sizeof buffer);
    kept = recipient;
    for (size_t size = 0; size < 16; size++) {
        CHECK(hpkebatch_context_seal_in_place(&sender, TEXT("Count-0"), buffer, size) == HPKEBATCH_WRONG_USAGE);
        CHECK(hpkebatch_context_open_in_place(&recipient, TEXT("Count-0"), buffer, size) == HPKEBATCH_FAILED);
    }
    CHECK(hpkebatch_context_seal_in_place(&recipient, TEXT("Count-0"), buffer, 45) == HPKEBATCH_ROLE);
    CHECK(hpkebatch_context_open_in_place(&recipient, TEXT("Count-1"), buffer, 45) == HPKEBATCH_FAILED);
    CHECK(hpkebatch_context_open_in_place(&recipient, TEXT("Count-0"), buffer, 44) == HPKEBATCH_FAILED);
    CHECK(memcmp(&recipient, &kept, sizeof kept) == 0);
    kept = sender;
    CHECK(hpkebatch_context_seal_in_place(&sender, TEXT("Count-0"), buffer, 45) == HPKEBATCH_LIMIT);
    CHECK(hpkebatch_context_open_in_place(&sender, TEXT("Count-0"), buffer, 45) == HPKEBATCH_ROLE);
    CHECK(memcmp(&sender, &kept, sizeof kept) == 0);
    sender.aead = recipient.aead = HPKEBATCH_EXPORT_ONLY;
    CHECK(hpkebatch_context_seal_in_place(&sender, TEXT("Count-0"), buffer, 45) == HPKEBATCH_NOCIPHER);
    CHECK(hpkebatch_context_open_in_place(&recipient, TEXT("Count-0"), buffer, 45) == HPKEBATCH_NOCIPHER);
    sender.aead = recipient.aead = 7;
    CHECK(hpkebatch_context_seal_in_place(&sender, TEXT("Count-0"), buffer, 45) == HPKEBATCH_WRONG_USAGE);
    CHECK(hpkebatch_context_open_in_place(&recipient, TEXT("Count-0"), buffer, 45) == HPKEBATCH_WRONG_USAGE);
    recipient.aead = HPKEBATCH_AES_128_GCM;
    recipient.limit = 0; /* a tag is tested first */
    CHECK(hpkebatch_context_open_in_place(&recipient, TEXT("Count-0"), buffer, 45) == HPKEBATCH_LIMIT);
    CHECK(memcmp(buffer, before, sizeof buffer) == 0);
    recipient.limit = 1;
    CHECK(hpkebatch_context_open_in_place(&recipient, TEXT("Count-0"), buffer, 45) == HPKEBATCH_DONE);
    CHECK(is_hex(buffer, text_hex) && memcmp(buffer + 29, before + 29, 16) == 0 && recipient.number == 1);
}

/* The same messages in one call, and each refusal of such a call. */
static void test_many(void)
{
    hpkebatch_context sender, recipient, kept;
    uint8_t text[29], out[90], opened[58], before[90];
    bytes_of(text_hex, text);
    hpkebatch_bytes aads[2] = {{TEXT("Count-0")}, {TEXT("Count-1")}}, texts[2] = {{text, 29}, {text, 29}};
    hpkebatch_bytes ends[2] = {{out, 45}, {out + 45, 45}};
    CHECK(context_a_1_1(&sender, HPKEBATCH_SENDER, 2) == HPKEBATCH_DONE);
    CHECK(context_a_1_1(&recipient, HPKEBATCH_RECIPIENT, 2) == HPKEBATCH_DONE);
    CHECK(hpkebatch_context_seal_all(&sender, aads, 2, texts, 2, out, 90) == HPKEBATCH_DONE);
    CHECK(is_hex(out, cts[0]) && is_hex(out + 45, cts[1]) && sender.number == 2);

    memset(opened, 7, sizeof opened);
    kept = recipient;
    out[89] ^= 1;
    CHECK(hpkebatch_context_open_all(&recipient, aads, 2, ends, 2, opened, 58) == HPKEBATCH_FAILED);
    out[89] ^= 1;
    CHECK(hpkebatch_context_open_all(&recipient, aads, 2, ends, 2, opened, 57) == HPKEBATCH_WRONG_USAGE);
    CHECK(hpkebatch_context_open_all(&recipient, aads, 1, ends, 2, opened, 58) == HPKEBATCH_WRONG_USAGE);
    CHECK(hpkebatch_context_open_all(&sender, aads, 2, ends, 2, opened, 58) == HPKEBATCH_ROLE);
    for (ends[1].size = 0; ends[1].size < 16; ends[1].size++) {
        CHECK(hpkebatch_context_open_all(&recipient, aads, 2, ends, 2, opened, 29) == HPKEBATCH_FAILED);
        CHECK(hpkebatch_context_open_all(&recipient, aads, 2, ends, 2, opened, 30) == HPKEBATCH_WRONG_USAGE);
    }
    ends[1].size = 45;
    CHECK(memcmp(&recipient, &kept, sizeof kept) == 0);
    CHECK(opened[0] == 7 && opened[57] == 7);
    CHECK(hpkebatch_context_open_all(&recipient, aads, 2, ends, 2, opened, 58) == HPKEBATCH_DONE);
    CHECK(memcmp(opened, text, 29) == 0 && memcmp(opened + 29, text, 29) == 0 && recipient.number == 2);
    CHECK(hpkebatch_context_open_all(&recipient, aads, 0, ends, 0, opened, 0) == HPKEBATCH_DONE);
    CHECK(hpkebatch_context_open_all(&recipient, aads, 2, ends, 2, opened, 58) == HPKEBATCH_LIMIT);

    /* One number is left, and two messages want one each. */
    CHECK(context_a_1_1(&sender, HPKEBATCH_SENDER, 2) == HPKEBATCH_DONE);
    CHECK(hpkebatch_context_seal(&sender, TEXT("Count-0"), text, 29, out, 45) == HPKEBATCH_DONE);
    kept = sender;
    memcpy(before, out, sizeof out);
    CHECK(hpkebatch_context_seal_all(&sender, aads, 2, texts, 2, out, 90) == HPKEBATCH_LIMIT);
    CHECK(hpkebatch_context_seal_all(&sender, aads, 2, texts, 2, out, 89) == HPKEBATCH_WRONG_USAGE);
    CHECK(hpkebatch_context_seal_all(&sender, aads, 2, texts, 1, out, 45) == HPKEBATCH_WRONG_USAGE);
    CHECK(hpkebatch_context_seal_all(&recipient, aads, 2, texts, 2, out, 90) == HPKEBATCH_ROLE);
    CHECK(memcmp(&sender, &kept, sizeof kept) == 0 && memcmp(out, before, sizeof out) == 0);
    CHECK(hpkebatch_context_seal_all(&sender, aads + 1, 1, texts, 1, out, 45) == HPKEBATCH_DONE);
    CHECK(is_hex(out, cts[1]) && sender.number == 2);
}

/* RFC 9180, A.1.1.2, each with L = 32; and the most bytes of an export, and one more (RFC 9180, 5.3). */
static void test_exports(void)
{
    hpkebatch_context context;
    static uint8_t out[8161], kept[8161];
    for (uint16_t role = HPKEBATCH_SENDER; role <= HPKEBATCH_RECIPIENT; role++) {
        CHECK(context_a_1_1(&context, role, 1) == HPKEBATCH_DONE);
        CHECK(hpkebatch_context_export(&context, NONE, out, 32) == HPKEBATCH_DONE);
        CHECK(is_hex(out, "3853fe2b4035195a573ffc53856e77058e15d9ea064de3e59f4961d0095250ee"));
        CHECK(hpkebatch_context_export(&context, TEXT("\0"), out, 32) == HPKEBATCH_DONE);
        CHECK(is_hex(out, "2e8f0b54673c7029649d4eb9d5e33bf1872cf76d623ff164ac185da9e88c21a5"));
        CHECK(hpkebatch_context_export(&context, TEXT("TestContext"), out, 32) == HPKEBATCH_DONE);
        CHECK(is_hex(out, "e9e43065102c3836401bed8c3c3c75ae46be1639869391d62c61f1ec7af54931"));
        CHECK(hpkebatch_context_export(&context, NONE, out, 0) == HPKEBATCH_DONE);
        CHECK(hpkebatch_context_export(&context, NONE, out, 8160) == HPKEBATCH_DONE);
        memcpy(kept, out, sizeof out);
        CHECK(hpkebatch_context_export(&context, NONE, out, 8161) == HPKEBATCH_EXPORTSIZE);
        context.kdf = 4;
        CHECK(hpkebatch_context_export(&context, NONE, out, 32) == HPKEBATCH_WRONG_USAGE);
        CHECK(memcmp(out, kept, sizeof out) == 0);
    }
}

int main(void)
{
    test_ciphers();
    test_schedule();
    test_messages();
    test_in_place();
    test_many();
    test_exports();
    return told("parts");
}
