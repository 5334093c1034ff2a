/* Gives each call, for each argument whose size is said, a null pointer where the size is 0: alone and together with the
 * others. Status and bytes have to be those of the same call with a pointer to memory. The same for the byte strings of
 * lists. Each case names the status that it wants, so most are calls that do their work. */
#include "check.h"

enum { MOST = 8192, POINTERS = 5 };

/* What a call answered, and all that it may have written. */
typedef struct {
    uint32_t status;
    size_t size;
    uint8_t bytes[MOST];
} outcome;

static void keep(outcome *of, const void *at, size_t size)
{
    CHECK(size <= MOST - of->size);
    memcpy(of->bytes + of->size, at, size);
    of->size += size;
}

/* What the cases work on, made once. */
static const uint8_t zero[32];
static hpkebatch_context sender, recipient;
static const uint8_t batch[] = "hpkebatch 1\nlane\nend\n";

#define BATCH batch, sizeof batch - 1

/* Pointers to no bytes of a case: p[0] and on, in the order of the call's arguments. `out` has the bytes that it writes. */
#define CASE(name) static void name(uint8_t *const *p, outcome *of)

CASE(gcm_seal)
{
    uint8_t out[16];
    of->status = hpkebatch_gcm_seal(zero, 32, zero, p[0], 0, p[1], 0, out, 16);
    keep(of, out, 16);
}

/* One of both has bytes. */
CASE(gcm_seal_text)
{
    uint8_t out[48];
    of->status = hpkebatch_gcm_seal(zero, 16, zero, p[0], 0, zero, 32, out, 48);
    keep(of, out, 48);
}

CASE(gcm_seal_aad)
{
    uint8_t out[16];
    of->status = hpkebatch_gcm_seal(zero, 16, zero, zero, 32, p[0], 0, out, 16);
    keep(of, out, 16);
}

CASE(gcm_seal_refused)
{
    of->status = hpkebatch_gcm_seal(p[0], 0, zero, p[1], 0, p[2], 0, p[3], 0);
}

CASE(gcm_open)
{
    uint8_t tag[16];
    CHECK(hpkebatch_gcm_seal(zero, 32, zero, zero, 0, zero, 0, tag, 16) == HPKEBATCH_DONE);
    of->status = hpkebatch_gcm_open(zero, 32, zero, p[0], 0, tag, 16, p[1], 0);
}

CASE(gcm_open_short)
{
    of->status = hpkebatch_gcm_open(zero, 32, zero, p[0], 0, p[1], 0, p[2], 0);
}

CASE(gcm_open_refused)
{
    of->status = hpkebatch_gcm_open(p[0], 0, zero, p[1], 0, p[2], 0, p[3], 0);
}

static void shared(uint8_t *const *p, outcome *of, uint16_t mode, size_t psk_len)
{
    hpkebatch_context context = sender;
    of->status = hpkebatch_context_shared(&context, HPKEBATCH_SENDER, mode, 7, 3, 2, 9, p[0], 0, p[1], 0,
                                          psk_len ? zero : p[2], psk_len, p[3], 0);
    keep(of, &context, sizeof context);
}

CASE(shared_base) { shared(p, of, HPKEBATCH_BASE, 0); }
CASE(shared_psk) { shared(p, of, HPKEBATCH_PSK, 0); }
CASE(shared_pair) { shared(p, of, HPKEBATCH_PSK, 32); }

CASE(shared_whole_psk)
{
    hpkebatch_context context = sender;
    of->status = hpkebatch_context_shared(&context, HPKEBATCH_RECIPIENT, HPKEBATCH_PSK, 7, 2, 1, 9, p[0], 0, p[1], 0, zero,
                                          32, zero, 7);
    keep(of, &context, sizeof context);
}

/* The cases of a set. */
#define OF_SET(n)                                                                                                      \
    static uint8_t pk_##n[HPKEBATCH_SNTRUP##n##_PUBLIC_SIZE], sk_##n[HPKEBATCH_SNTRUP##n##_SECRET_SIZE];               \
    static uint8_t enc_##n[HPKEBATCH_SNTRUP##n##_ENC_SIZE], request_##n[HPKEBATCH_SNTRUP##n##_REQUEST_SIZE];           \
    static hpkebatch_asked asked_##n;                                                                                  \
                                                                                                                       \
    static void begin_##n(void)                                                                                        \
    {                                                                                                                  \
        hpkebatch_context context;                                                                                     \
        CHECK(hpkebatch_sntrup##n##_keygen(zero, 0, pk_##n, sk_##n) == HPKEBATCH_DONE);                                \
        CHECK(hpkebatch_sntrup##n##_sender(&context, enc_##n, zero, 1, pk_##n, 0, 1, 1, 9, zero, 0, zero, 0, zero,     \
                                           0) == HPKEBATCH_DONE);                                                      \
        CHECK(hpkebatch_sntrup##n##_ask(&asked_##n, zero, 2, pk_##n, 7, 1, 1, zero, 0, request_##n,                    \
                                        sizeof request_##n) == HPKEBATCH_DONE);                                        \
    }                                                                                                                  \
                                                                                                                       \
    static void sender_##n(uint8_t *const *p, outcome *of, uint16_t mode)                                              \
    {                                                                                                                  \
        uint8_t enc[HPKEBATCH_SNTRUP##n##_ENC_SIZE] = {0};                                                             \
        hpkebatch_context context = sender;                                                                            \
        of->status = hpkebatch_sntrup##n##_sender(&context, enc, zero, 1, pk_##n, mode, 1, 1, 9, p[0], 0, p[1], 0,     \
                                                  p[2], 0);                                                            \
        keep(of, &context, sizeof context);                                                                            \
        keep(of, enc, sizeof enc);                                                                                     \
    }                                                                                                                  \
                                                                                                                       \
    CASE(sender_base_##n) { sender_##n(p, of, HPKEBATCH_BASE); }                                                       \
    CASE(sender_psk_##n) { sender_##n(p, of, HPKEBATCH_PSK); }                                                         \
                                                                                                                       \
    static void recipient_##n(uint8_t *const *p, outcome *of, uint16_t mode)                                           \
    {                                                                                                                  \
        hpkebatch_context context = sender;                                                                            \
        of->status = hpkebatch_sntrup##n##_recipient(&context, enc_##n, sk_##n, mode, 1, 1, 9, p[0], 0, p[1], 0,       \
                                                     p[2], 0);                                                         \
        keep(of, &context, sizeof context);                                                                            \
    }                                                                                                                  \
                                                                                                                       \
    CASE(recipient_base_##n) { recipient_##n(p, of, HPKEBATCH_BASE); }                                                 \
    CASE(recipient_psk_##n) { recipient_##n(p, of, HPKEBATCH_PSK); }                                                   \
                                                                                                                       \
    CASE(ask_##n)                                                                                                      \
    {                                                                                                                  \
        uint8_t request[sizeof request_##n] = {0};                                                                     \
        hpkebatch_asked asked = asked_##n;                                                                             \
        of->status = hpkebatch_sntrup##n##_ask(&asked, zero, 3, pk_##n, 7, 1, 1, p[0], 0, request, sizeof request);    \
        keep(of, &asked, sizeof asked);                                                                                \
        keep(of, request, sizeof request);                                                                             \
    }                                                                                                                  \
                                                                                                                       \
    CASE(ask_refused_##n)                                                                                              \
    {                                                                                                                  \
        hpkebatch_asked asked = asked_##n;                                                                             \
        of->status = hpkebatch_sntrup##n##_ask(&asked, zero, 3, pk_##n, 7, 1, 1, p[0], 0, p[1], 0);                    \
        keep(of, &asked, sizeof asked);                                                                                \
    }                                                                                                                  \
                                                                                                                       \
    CASE(answer_##n)                                                                                                   \
    {                                                                                                                  \
        uint8_t response[32] = {0};                                                                                    \
        of->status = hpkebatch_sntrup##n##_answer(sk_##n, 7, request_##n, sizeof request_##n, zero, 16, p[0], 0, p[1], \
                                                  0, response, 32);                                                    \
        keep(of, response, 32);                                                                                        \
    }                                                                                                                  \
                                                                                                                       \
    CASE(answer_nonce_##n)                                                                                             \
    {                                                                                                                  \
        uint8_t response[16] = {0};                                                                                    \
        of->status = hpkebatch_sntrup##n##_answer(sk_##n, 7, request_##n, sizeof request_##n, p[0], 0, p[1], 0, p[2],  \
                                                  0, response, 16);                                                    \
        keep(of, response, 16);                                                                                        \
    }                                                                                                                  \
                                                                                                                       \
    CASE(answer_response_##n)                                                                                          \
    {                                                                                                                  \
        of->status = hpkebatch_sntrup##n##_answer(sk_##n, 7, request_##n, sizeof request_##n, p[0], 0, p[1], 0, p[2],  \
                                                  0, p[3], 0);                                                         \
    }                                                                                                                  \
                                                                                                                       \
    CASE(answer_request_##n)                                                                                           \
    {                                                                                                                  \
        of->status = hpkebatch_sntrup##n##_answer(sk_##n, 7, p[0], 0, p[1], 0, p[2], 0, p[3], 0, p[4], 0);             \
    }                                                                                                                  \
                                                                                                                       \
    CASE(take_##n)                                                                                                     \
    {                                                                                                                  \
        uint8_t response[32];                                                                                          \
        CHECK(hpkebatch_sntrup##n##_answer(sk_##n, 7, request_##n, sizeof request_##n, zero, 16, zero, 0,              \
                                           response + 32, 0, response, 32) == HPKEBATCH_DONE);                         \
        of->status = hpkebatch_take(&asked_##n, response, 32, p[0], 0);                                                \
    }

OF_SET(761)
OF_SET(857)

CASE(take_short)
{
    of->status = hpkebatch_take(&asked_761, p[0], 0, p[1], 0);
}

CASE(seal)
{
    hpkebatch_context context = sender;
    uint8_t out[16] = {0};
    of->status = hpkebatch_context_seal(&context, p[0], 0, p[1], 0, out, 16);
    keep(of, &context, sizeof context);
    keep(of, out, 16);
}

CASE(seal_text)
{
    hpkebatch_context context = sender;
    uint8_t out[48] = {0};
    of->status = hpkebatch_context_seal(&context, p[0], 0, zero, 32, out, 48);
    keep(of, &context, sizeof context);
    keep(of, out, 48);
}

CASE(seal_aad)
{
    hpkebatch_context context = sender;
    uint8_t out[16] = {0};
    of->status = hpkebatch_context_seal(&context, zero, 32, p[0], 0, out, 16);
    keep(of, &context, sizeof context);
    keep(of, out, 16);
}

CASE(seal_refused)
{
    hpkebatch_context context = sender;
    of->status = hpkebatch_context_seal(&context, p[0], 0, p[1], 0, p[2], 0);
    keep(of, &context, sizeof context);
}

/* The ciphertexts of two empty texts. */
static void sealed(uint8_t out[32])
{
    hpkebatch_context context = sender;
    CHECK(hpkebatch_context_seal(&context, zero, 0, zero, 0, out, 16) == HPKEBATCH_DONE);
    CHECK(hpkebatch_context_seal(&context, zero, 0, zero, 0, out + 16, 16) == HPKEBATCH_DONE);
}

CASE(open_one)
{
    hpkebatch_context context = recipient;
    uint8_t cts[32];
    sealed(cts);
    of->status = hpkebatch_context_open(&context, p[0], 0, cts, 16, p[1], 0);
    keep(of, &context, sizeof context);
}

CASE(open_short)
{
    hpkebatch_context context = recipient;
    of->status = hpkebatch_context_open(&context, p[0], 0, p[1], 0, p[2], 0);
    keep(of, &context, sizeof context);
}

CASE(seal_in_place)
{
    hpkebatch_context context = sender;
    uint8_t buffer[16] = {0};
    of->status = hpkebatch_context_seal_in_place(&context, p[0], 0, buffer, 16);
    keep(of, &context, sizeof context);
    keep(of, buffer, 16);
}

CASE(seal_in_place_refused)
{
    hpkebatch_context context = sender;
    of->status = hpkebatch_context_seal_in_place(&context, p[0], 0, p[1], 0);
    keep(of, &context, sizeof context);
}

CASE(open_in_place)
{
    hpkebatch_context context = recipient;
    uint8_t cts[32];
    sealed(cts);
    of->status = hpkebatch_context_open_in_place(&context, p[0], 0, cts, 16);
    keep(of, &context, sizeof context);
    keep(of, cts, 32);
}

CASE(open_in_place_short)
{
    hpkebatch_context context = recipient;
    of->status = hpkebatch_context_open_in_place(&context, p[0], 0, p[1], 0);
    keep(of, &context, sizeof context);
}

CASE(export_some)
{
    uint8_t out[32] = {0};
    of->status = hpkebatch_context_export(&sender, p[0], 0, out, 32);
    keep(of, out, 32);
}

CASE(export_none)
{
    of->status = hpkebatch_context_export(&sender, p[0], 0, p[1], 0);
}

CASE(seal_all_none)
{
    hpkebatch_context context = sender;
    of->status = hpkebatch_context_seal_all(&context, (const hpkebatch_bytes *)(const void *)p[0], 0,
                                            (const hpkebatch_bytes *)(const void *)p[1], 0, p[2], 0);
    keep(of, &context, sizeof context);
}

CASE(seal_all)
{
    hpkebatch_context context = sender;
    hpkebatch_bytes aads[2] = {{p[0], 0}, {p[1], 0}}, texts[2] = {{p[2], 0}, {p[3], 0}};
    uint8_t out[32] = {0};
    of->status = hpkebatch_context_seal_all(&context, aads, 2, texts, 2, out, 32);
    keep(of, &context, sizeof context);
    keep(of, out, 32);
}

CASE(seal_all_mixed)
{
    hpkebatch_context context = sender;
    hpkebatch_bytes aads[2] = {{p[0], 0}, {zero, 32}}, texts[2] = {{zero, 7}, {p[1], 0}};
    uint8_t out[39] = {0};
    of->status = hpkebatch_context_seal_all(&context, aads, 2, texts, 2, out, 39);
    keep(of, &context, sizeof context);
    keep(of, out, 39);
}

CASE(seal_all_refused)
{
    hpkebatch_context context = sender;
    hpkebatch_bytes aad = {p[0], 0}, text = {p[1], 0};
    of->status = hpkebatch_context_seal_all(&context, &aad, 1, &text, 1, p[2], 0);
    keep(of, &context, sizeof context);
}

CASE(open_all_none)
{
    hpkebatch_context context = recipient;
    of->status = hpkebatch_context_open_all(&context, (const hpkebatch_bytes *)(const void *)p[0], 0,
                                            (const hpkebatch_bytes *)(const void *)p[1], 0, p[2], 0);
    keep(of, &context, sizeof context);
}

CASE(open_all)
{
    hpkebatch_context context = recipient;
    uint8_t out[32];
    sealed(out);
    hpkebatch_bytes aads[2] = {{p[0], 0}, {p[1], 0}}, cts[2] = {{out, 16}, {out + 16, 16}};
    of->status = hpkebatch_context_open_all(&context, aads, 2, cts, 2, p[2], 0);
    keep(of, &context, sizeof context);
}

CASE(open_all_short)
{
    hpkebatch_context context = recipient;
    hpkebatch_bytes aad = {p[0], 0}, ct = {p[1], 0};
    of->status = hpkebatch_context_open_all(&context, &aad, 1, &ct, 1, p[2], 0);
    keep(of, &context, sizeof context);
}

CASE(read_nothing)
{
    uint8_t out[64] = {0};
    size_t size = 77;
    of->status = hpkebatch_read(p[0], 0, out, 64, &size);
    keep(of, out, 64);
    keep(of, &size, sizeof size);
}

CASE(read_no_room)
{
    size_t size = 77;
    of->status = hpkebatch_read(p[0], 0, p[1], 0, &size);
    keep(of, &size, sizeof size);
}

CASE(read_batch)
{
    size_t size = 77;
    of->status = hpkebatch_read(BATCH, p[0], 0, &size);
    keep(of, &size, sizeof size);
}

CASE(check_nothing) { of->status = hpkebatch_check(p[0], 0, p[1], 0); }
CASE(check_no_reply) { of->status = hpkebatch_check(BATCH, p[0], 0); }

/* What hpkebatch_serve answers to words and an input. */
static void serve(outcome *of, const char *words, const uint8_t *input, size_t input_len, uint8_t *out, size_t room)
{
    size_t size = 77;
    of->status = hpkebatch_serve((const uint8_t *)words, words ? strlen(words) : 0, input, input_len, out, room, &size);
    keep(of, &size, sizeof size);
}

CASE(serve_no_words)
{
    size_t size = 77;
    of->status = hpkebatch_serve(p[0], 0, p[1], 0, p[2], 0, &size);
    keep(of, &size, sizeof size);
}

CASE(serve_no_room) { serve(of, "run", p[0], 0, p[1], 0); }
CASE(serve_batch_no_room) { serve(of, "run", BATCH, p[0], 0); }

CASE(serve_nothing)
{
    uint8_t out[64] = {0};
    serve(of, "run", p[0], 0, out, 64);
    keep(of, out, 64);
}

CASE(serve_demo)
{
    uint8_t out[256] = {0};
    serve(of, "demo 7 3 1", p[0], 0, out, 256);
    keep(of, out, 256);
}

static const struct {
    const char *name;
    void (*run)(uint8_t *const *p, outcome *of);
    unsigned pointers;
    uint32_t status;
} cases[] = {
#define ROW(name, pointers, status) {#name, name, pointers, HPKEBATCH_##status}
#define ROWS(n)                                                                                                        \
    ROW(sender_base_##n, 3, DONE), ROW(sender_psk_##n, 3, PSKMISSING), ROW(recipient_base_##n, 3, DONE),               \
        ROW(recipient_psk_##n, 3, PSKMISSING), ROW(ask_##n, 1, DONE), ROW(ask_refused_##n, 2, WRONG_USAGE),            \
        ROW(answer_##n, 2, DONE), ROW(answer_nonce_##n, 3, NONCESIZE), ROW(answer_response_##n, 4, WRONG_USAGE),       \
        ROW(answer_request_##n, 5, SHORT), ROW(take_##n, 1, DONE)
    ROW(gcm_seal, 2, DONE),
    ROW(gcm_seal_text, 1, DONE),
    ROW(gcm_seal_aad, 1, DONE),
    ROW(gcm_seal_refused, 4, WRONG_USAGE),
    ROW(gcm_open, 2, DONE),
    ROW(gcm_open_short, 3, FAILED),
    ROW(gcm_open_refused, 4, WRONG_USAGE),
    ROW(shared_base, 4, DONE),
    ROW(shared_psk, 4, PSKMISSING),
    ROW(shared_pair, 4, PSKPAIR),
    ROW(shared_whole_psk, 2, DONE),
    ROWS(761),
    ROWS(857),
    ROW(take_short, 2, SHORT),
    ROW(seal, 2, DONE),
    ROW(seal_text, 1, DONE),
    ROW(seal_aad, 1, DONE),
    ROW(seal_refused, 3, WRONG_USAGE),
    ROW(open_one, 2, DONE),
    ROW(open_short, 3, FAILED),
    ROW(seal_in_place, 1, DONE),
    ROW(seal_in_place_refused, 2, WRONG_USAGE),
    ROW(open_in_place, 1, DONE),
    ROW(open_in_place_short, 2, FAILED),
    ROW(export_some, 1, DONE),
    ROW(export_none, 2, DONE),
    ROW(seal_all_none, 3, DONE),
    ROW(seal_all, 4, DONE),
    ROW(seal_all_mixed, 2, DONE),
    ROW(seal_all_refused, 3, WRONG_USAGE),
    ROW(open_all_none, 3, DONE),
    ROW(open_all, 3, DONE),
    ROW(open_all_short, 3, FAILED),
    ROW(read_nothing, 1, BAD_BATCH),
    ROW(read_no_room, 2, NO_ROOM),
    ROW(read_batch, 1, DONE),
    ROW(check_nothing, 2, BAD_BATCH),
    ROW(check_no_reply, 1, BROKEN),
    ROW(serve_no_words, 3, WRONG_USAGE),
    ROW(serve_no_room, 2, NO_ROOM),
    ROW(serve_batch_no_room, 1, NO_ROOM),
    ROW(serve_nothing, 1, BAD_BATCH),
    ROW(serve_demo, 1, DONE),
};

/* Runs a case with each choice of pointers that are null. */
static void try_case(size_t at)
{
    static hpkebatch_bytes somewhere[POINTERS];
    static outcome wanted, got;
    for (unsigned nulls = 0; nulls < 1u << cases[at].pointers; nulls++) {
        uint8_t *p[POINTERS];
        for (unsigned i = 0; i < POINTERS; i++)
            p[i] = nulls >> i & 1 ? NULL : (uint8_t *)&somewhere[i];
        memset(&got, 0, sizeof got);
        cases[at].run(p, &got);
        if (nulls == 0)
            wanted = got;
        check(got.status == cases[at].status, cases[at].name, __FILE__, __LINE__);
        check(memcmp(&got, &wanted, sizeof got) == 0, cases[at].name, __FILE__, __LINE__);
    }
    for (unsigned i = 0; i < POINTERS; i++)
        check(somewhere[i].at == NULL && somewhere[i].size == 0, cases[at].name, __FILE__, __LINE__);
}

int main(void)
{
    memset(&sender, 0, sizeof sender);
    CHECK(hpkebatch_context_shared(&sender, HPKEBATCH_SENDER, HPKEBATCH_BASE, 7, 1, 1, 9, zero, 32, zero, 0, zero, 0,
                                   zero, 0) == HPKEBATCH_DONE);
    CHECK(hpkebatch_context_shared(&recipient, HPKEBATCH_RECIPIENT, HPKEBATCH_BASE, 7, 1, 1, 9, zero, 32, zero, 0, zero,
                                   0, zero, 0) == HPKEBATCH_DONE);
    begin_761();
    begin_857();
    for (size_t i = 0; i < sizeof cases / sizeof *cases; i++)
        try_case(i);
    return told("null");
}
