/* Tests the inline functions of the header. It is linked with --wrap for getrandom, explicit_bzero and the proved calls
 * that take a seed, so that each of these notes how it was called, and does what a test asks it to. */
#include "check.h"

#include <errno.h>
#include <sys/types.h>

/* ---- what stands in the place of getrandom(2) */

/* What each call does, by a letter: `a` gives all that is asked for, 0 to 9 at most so many bytes, `i` fails by EINTR,
 * `x` by ENOSYS. The last letter stands for all further calls. Byte k that it gives is k, from the test's beginning. */
static const char *script;
static unsigned given, drawn;

ssize_t __wrap_getrandom(void *at, size_t size, unsigned flags);
ssize_t __wrap_getrandom(void *at, size_t size, unsigned flags)
{
    char step = *script;
    if (script[1] != 0)
        script++;
    CHECK(flags == 0 && size > 0);
    if (++drawn > 1000) {
        CHECK(drawn <= 1000);
        exit(told("random"));
    }
    errno = EINTR; /* no more than a failed call says what it means */
    if (step == 'i' || step == 'x') {
        errno = step == 'i' ? EINTR : ENOSYS;
        return -1;
    }
    size_t most = step == 'a' ? size : (size_t)(step - '0'), count = size < most ? size : most;
    for (size_t i = 0; i < count; i++)
        ((uint8_t *)at)[i] = (uint8_t)given++;
    return (ssize_t)count;
}

/* ---- what stands in the place of the calls with a seed, and of explicit_bzero */

/* The seeds of the calls since the test began: where the last was, its bytes, and how many there were; where it was wiped. */
static const uint8_t *seed_at;
static uint8_t seed[32];
static unsigned calls, wiped;

/* The statuses that calls of keygen answer before they do their work. */
static uint32_t answer;
static unsigned answers;

static void note_seed(const uint8_t *at, uint64_t stream)
{
    seed_at = at;
    memcpy(seed, at, 32);
    calls++;
    CHECK(stream == 0);
}

void __real_explicit_bzero(void *at, size_t size);
void __wrap_explicit_bzero(void *at, size_t size);
void __wrap_explicit_bzero(void *at, size_t size)
{
    if ((seed_at == NULL || at == seed_at) && size == 32)
        wiped++;
    __real_explicit_bzero(at, size);
}

static void begin(const char *steps)
{
    script = steps;
    given = drawn = calls = wiped = answers = 0;
    seed_at = NULL;
}

/* Whether the seed was that of the first 32 bytes from k on. */
static int is_seed_from(unsigned k)
{
    for (unsigned i = 0; i < 32; i++)
        if (seed[i] != (uint8_t)(k + i))
            return 0;
    return 1;
}

static void test_random(void)
{
    static const char *const whole[] = {"a", "7", "1", "ia", "iii9999a", "5i1a"};
    uint8_t out[64], want[64];
    for (unsigned i = 0; i < sizeof want; i++)
        want[i] = (uint8_t)i;
    for (size_t i = 0; i < sizeof whole / sizeof *whole; i++) {
        begin(whole[i]);
        memset(out, 7, sizeof out);
        CHECK(hpkebatch_random(out, 40) == HPKEBATCH_DONE);
        CHECK(memcmp(out, want, 40) == 0 && out[40] == 7 && given == 40);
    }
    CHECK(drawn == 4);
    begin("x");
    CHECK(hpkebatch_random(out, 1) == HPKEBATCH_NO_RANDOM && drawn == 1);
    begin("9x");
    CHECK(hpkebatch_random(out, 32) == HPKEBATCH_NO_RANDOM && drawn == 2);
    begin("0");
    CHECK(hpkebatch_random(out, 32) == HPKEBATCH_NO_RANDOM && drawn == 1);
    begin("x");
    CHECK(hpkebatch_random(NULL, 0) == HPKEBATCH_DONE && drawn == 0);
}

/* The functions of a set. */
#define OF_SET(n)                                                                                                      \
    uint32_t __real_hpkebatch_sntrup##n##_keygen(const uint8_t *at, uint64_t stream, uint8_t *pk, uint8_t *sk);        \
    uint32_t __wrap_hpkebatch_sntrup##n##_keygen(const uint8_t *at, uint64_t stream, uint8_t *pk, uint8_t *sk);        \
    uint32_t __wrap_hpkebatch_sntrup##n##_keygen(const uint8_t *at, uint64_t stream, uint8_t *pk, uint8_t *sk)         \
    {                                                                                                                  \
        note_seed(at, stream);                                                                                         \
        return calls <= answers ? answer : __real_hpkebatch_sntrup##n##_keygen(at, stream, pk, sk);                    \
    }                                                                                                                  \
                                                                                                                       \
    uint32_t __real_hpkebatch_sntrup##n##_sender(hpkebatch_context *, uint8_t *, const uint8_t *, uint64_t,            \
                                                 const uint8_t *, uint16_t, uint16_t, uint16_t, uint64_t,              \
                                                 const uint8_t *, size_t, const uint8_t *, size_t, const uint8_t *,    \
                                                 size_t);                                                              \
    uint32_t __wrap_hpkebatch_sntrup##n##_sender(hpkebatch_context *context, uint8_t *enc, const uint8_t *at,          \
                                                 uint64_t stream, const uint8_t *pk, uint16_t mode, uint16_t kdf,      \
                                                 uint16_t aead, uint64_t limit, const uint8_t *info, size_t info_len,  \
                                                 const uint8_t *psk, size_t psk_len, const uint8_t *id,                \
                                                 size_t id_len);                                                       \
    uint32_t __wrap_hpkebatch_sntrup##n##_sender(hpkebatch_context *context, uint8_t *enc, const uint8_t *at,          \
                                                 uint64_t stream, const uint8_t *pk, uint16_t mode, uint16_t kdf,      \
                                                 uint16_t aead, uint64_t limit, const uint8_t *info, size_t info_len,  \
                                                 const uint8_t *psk, size_t psk_len, const uint8_t *id, size_t id_len) \
    {                                                                                                                  \
        note_seed(at, stream);                                                                                         \
        return __real_hpkebatch_sntrup##n##_sender(context, enc, at, stream, pk, mode, kdf, aead, limit, info,         \
                                                   info_len, psk, psk_len, id, id_len);                                \
    }                                                                                                                  \
                                                                                                                       \
    uint32_t __real_hpkebatch_sntrup##n##_ask(hpkebatch_asked *, const uint8_t *, uint64_t, const uint8_t *, uint8_t,  \
                                              uint16_t, uint16_t, const uint8_t *, size_t, uint8_t *, size_t);         \
    uint32_t __wrap_hpkebatch_sntrup##n##_ask(hpkebatch_asked *asked, const uint8_t *at, uint64_t stream,              \
                                              const uint8_t *pk, uint8_t key_id, uint16_t kdf, uint16_t aead,          \
                                              const uint8_t *text, size_t text_len, uint8_t *request, size_t len);     \
    uint32_t __wrap_hpkebatch_sntrup##n##_ask(hpkebatch_asked *asked, const uint8_t *at, uint64_t stream,              \
                                              const uint8_t *pk, uint8_t key_id, uint16_t kdf, uint16_t aead,          \
                                              const uint8_t *text, size_t text_len, uint8_t *request, size_t len)      \
    {                                                                                                                  \
        note_seed(at, stream);                                                                                         \
        return __real_hpkebatch_sntrup##n##_ask(asked, at, stream, pk, key_id, kdf, aead, text, text_len, request,     \
                                                len);                                                                  \
    }                                                                                                                  \
                                                                                                                       \
    static uint8_t pk_##n[HPKEBATCH_SNTRUP##n##_PUBLIC_SIZE], sk_##n[HPKEBATCH_SNTRUP##n##_SECRET_SIZE];               \
                                                                                                                       \
    static void test_keygen_##n(void)                                                                                  \
    {                                                                                                                  \
        static uint8_t pk[sizeof pk_##n], sk[sizeof sk_##n];                                                           \
        uint8_t first[32];                                                                                             \
        begin("9i5a");                                                                                                 \
        CHECK(hpkebatch_random_sntrup##n##_keygen(pk_##n, sk_##n) == HPKEBATCH_DONE);                                  \
        CHECK(calls == 1 && wiped == 1 && is_seed_from(0));                                                            \
        memcpy(first, seed, 32);                                                                                       \
        CHECK(hpkebatch_sntrup##n##_keygen(first, 0, pk, sk) == HPKEBATCH_DONE);                                       \
        CHECK(memcmp(pk, pk_##n, sizeof pk) == 0 && memcmp(sk, sk_##n, sizeof sk) == 0);                               \
        /* Each try has a seed of its own, and the last status is told. */                                             \
        for (uint32_t status = HPKEBATCH_EXHAUSTED; status <= HPKEBATCH_NOINVERSE; status++) {                         \
            begin("a");                                                                                                \
            answer = status;                                                                                           \
            answers = 99;                                                                                              \
            CHECK(hpkebatch_random_sntrup##n##_keygen(pk, sk) == HPKEBATCH_DONE);                                      \
            CHECK(calls == 100 && wiped == 1 && is_seed_from(99 * 32));                                                \
            begin("a");                                                                                                \
            answers = 1000;                                                                                            \
            CHECK(hpkebatch_random_sntrup##n##_keygen(pk, sk) == status && calls == 100 && wiped == 1);                \
        }                                                                                                              \
        begin("a");                                                                                                    \
        answer = HPKEBATCH_NO_MEMORY;                                                                                  \
        answers = 1;                                                                                                   \
        CHECK(hpkebatch_random_sntrup##n##_keygen(pk, sk) == HPKEBATCH_NO_MEMORY && calls == 1 && wiped == 1);         \
        memset(pk, 7, sizeof pk);                                                                                      \
        begin("8x");                                                                                                   \
        CHECK(hpkebatch_random_sntrup##n##_keygen(pk, sk) == HPKEBATCH_NO_RANDOM && calls == 0 && wiped == 1);         \
        CHECK(pk[0] == 7 && pk[sizeof pk - 1] == 7);                                                                   \
    }                                                                                                                  \
                                                                                                                       \
    static void test_sender_##n(void)                                                                                  \
    {                                                                                                                  \
        static uint8_t enc[HPKEBATCH_SNTRUP##n##_ENC_SIZE];                                                            \
        const uint8_t *text = (const uint8_t *)"a text of some bytes";                                                 \
        hpkebatch_context sender, recipient, kept;                                                                     \
        uint8_t ct[20 + HPKEBATCH_TAG_SIZE], opened[20];                                                               \
        begin("31a");                                                                                                  \
        CHECK(hpkebatch_random_sntrup##n##_sender(&sender, enc, pk_##n, HPKEBATCH_PSK, 3, 2, 5, text, 1, text, 2,      \
                                                  text, 3) == HPKEBATCH_DONE);                                         \
        CHECK(calls == 1 && wiped == 1 && is_seed_from(0));                                                            \
        CHECK(sender.kem == HPKEBATCH_SNTRUP##n && sender.limit == 5 && sender.kdf == 3 && sender.aead == 2);          \
        CHECK(hpkebatch_sntrup##n##_recipient(&recipient, enc, sk_##n, HPKEBATCH_PSK, 3, 2, 5, text, 1, text, 2, text, \
                                              3) == HPKEBATCH_DONE);                                                   \
        CHECK(hpkebatch_context_seal(&sender, text, 4, text, 20, ct, sizeof ct) == HPKEBATCH_DONE);                    \
        CHECK(hpkebatch_context_open(&recipient, text, 4, ct, sizeof ct, opened, 20) == HPKEBATCH_DONE);               \
        CHECK(memcmp(opened, text, 20) == 0);                                                                          \
        kept = sender;                                                                                                 \
        begin("x");                                                                                                    \
        CHECK(hpkebatch_random_sntrup##n##_sender(&sender, enc, pk_##n, 0, 1, 1, 5, text, 0, text, 0, text, 0) ==      \
              HPKEBATCH_NO_RANDOM);                                                                                    \
        CHECK(calls == 0 && wiped == 1 && memcmp(&kept, &sender, sizeof kept) == 0);                                   \
        begin("a");                                                                                                    \
        CHECK(hpkebatch_random_sntrup##n##_sender(&sender, enc, pk_##n, 0, 1, 1, 5, text, 0, text, 9, text, 9) ==      \
              HPKEBATCH_PSKEXTRA);                                                                                     \
        CHECK(calls == 1 && wiped == 1 && memcmp(&kept, &sender, sizeof kept) == 0);                                   \
    }                                                                                                                  \
                                                                                                                       \
    static void test_ask_##n(void)                                                                                     \
    {                                                                                                                  \
        const uint8_t *text = (const uint8_t *)"what";                                                                 \
        static uint8_t request[HPKEBATCH_SNTRUP##n##_REQUEST_SIZE + 4];                                                \
        uint8_t nonce[HPKEBATCH_AES_128_NONCE_SIZE] = {5}, response[sizeof nonce + 4 + HPKEBATCH_TAG_SIZE];            \
        uint8_t question[4], reply[4];                                                                                 \
        hpkebatch_asked asked, kept;                                                                                   \
        begin("9ia");                                                                                                  \
        CHECK(hpkebatch_random_sntrup##n##_ask(&asked, pk_##n, 9, 1, 1, text, 4, request, sizeof request) ==           \
              HPKEBATCH_DONE);                                                                                         \
        CHECK(calls == 1 && wiped == 1 && is_seed_from(0));                                                            \
        CHECK(asked.kem == HPKEBATCH_SNTRUP##n && asked.key_id == 9);                                                  \
        CHECK(hpkebatch_sntrup##n##_answer(sk_##n, 9, request, sizeof request, nonce, sizeof nonce, text, 4, question, \
                                           4, response, sizeof response) == HPKEBATCH_DONE);                           \
        CHECK(hpkebatch_take(&asked, response, sizeof response, reply, 4) == HPKEBATCH_DONE);                          \
        CHECK(memcmp(question, text, 4) == 0 && memcmp(reply, text, 4) == 0);                                          \
        kept = asked;                                                                                                  \
        begin("x");                                                                                                    \
        CHECK(hpkebatch_random_sntrup##n##_ask(&asked, pk_##n, 9, 1, 1, text, 4, request, sizeof request) ==           \
              HPKEBATCH_NO_RANDOM);                                                                                    \
        CHECK(calls == 0 && wiped == 1 && memcmp(&kept, &asked, sizeof kept) == 0);                                    \
    }

OF_SET(761)
OF_SET(857)

/* Whether all bytes are 0. */
static int is_zero(const void *at, size_t size)
{
    for (size_t i = 0; i < size; i++)
        if (((const uint8_t *)at)[i] != 0)
            return 0;
    return 1;
}

static void test_wipes(void)
{
    struct {
        hpkebatch_context context;
        uint8_t behind[16];
    } one;
    struct {
        hpkebatch_asked asked;
        uint8_t behind[16];
    } other;
    memset(&one, 7, sizeof one);
    memset(&other, 7, sizeof other);
    hpkebatch_wipe(&one.context);
    hpkebatch_wipe_asked(&other.asked);
    CHECK(is_zero(&one.context, sizeof one.context) && one.behind[0] == 7);
    CHECK(is_zero(&other.asked, sizeof other.asked) && other.behind[0] == 7);
}

int main(void)
{
    test_random();
    test_keygen_761();
    test_keygen_857();
    test_sender_761();
    test_sender_857();
    test_ask_761();
    test_ask_857();
    test_wipes();
    return told("random");
}
