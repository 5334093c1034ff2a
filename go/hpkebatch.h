/* hpkebatch: HPKE (RFC 9180) over Streamlined NTRU Prime, for callers in C and C++.
 *
 * The usual way: hpkebatch_random_sntrup761_keygen once, then a context of hpkebatch_random_sntrup761_sender at one end
 * and of hpkebatch_sntrup761_recipient at the other, and hpkebatch_context_seal and hpkebatch_context_open by message.
 *
 * Each call answers a status. HPKEBATCH_DONE says that the work is done. Any other status says why not, and then
 * nothing that the call was lent has changed, but for the texts and sizes that a call on a batch says.
 * hpkebatch_strerror has a sentence for each.
 *
 * The caller owns all memory. Nothing is kept between two calls, and nothing has to be freed. Some calls take memory
 * by malloc and give it back by free before they return; where there is none they answer HPKEBATCH_NO_MEMORY.
 *
 * What each call answers is proved of the caller's own bytes. Tested, and not proved, is what is plain C:
 * hpkebatch_strerror, hpkebatch_version, and the inline functions at the end. These conditions are left to C, and
 * nothing checks them:
 * - A pointer isn't null, unless its size is said and is 0. That null is taken there is tested, and not proved: for each
 *   such argument of each call, and for the byte strings of lists.
 * - Memory is valid for as many bytes as are said. What is written overlaps nothing else that the call is lent.
 * - A context is given to one call at a time, and nobody else changes it. Calls on different memory may go on in
 *   different threads.
 * - malloc, realloc and free are those of one allocator. No call is made from a signal handler, or in the forked child
 *   of a process with threads.
 * - The processor has x86-64-v2 (with SSE4.2), and a call finds 128 KiB of its thread's stack free (tested by programs that
 *   have 96 in all).
 *
 * Sizes are in bytes. The library wipes nothing: secrets stay in the caller's memory, on the stack, and in memory that
 * was given back. hpkebatch_wipe is for contexts.
 */
#ifndef HPKEBATCH_H
#define HPKEBATCH_H

#include <errno.h>
#include <stddef.h>
#include <stdint.h>
#include <string.h>
#include <sys/random.h>

#ifdef __cplusplus
extern "C" {
#endif

/* ---- the version of this header, and that of the library which runs */

#define HPKEBATCH_VERSION "0.4.0"
#define HPKEBATCH_VERSION_MAJOR 0
#define HPKEBATCH_VERSION_MINOR 4
#define HPKEBATCH_VERSION_PATCH 0

/* Gives a text as "0.4.0". */
const char *hpkebatch_version(void);

/* ---- statuses: those below 8 are the command's, the others but NO_RANDOM are words of its replies (docs/FORMAT.md) */

typedef enum hpkebatch_status {
    HPKEBATCH_DONE = 0,
    HPKEBATCH_WRONG_USAGE = 2, /* a length doesn't fit, or a number names nothing */
    HPKEBATCH_BAD_BATCH = 3,   /* the text is no batch */
    HPKEBATCH_NO_ROOM = 5,     /* out has fewer bytes than the text */
    HPKEBATCH_NO_MEMORY = 6,
    HPKEBATCH_BROKEN = 7,      /* the reply is none that `run` may give for the batch */
    HPKEBATCH_ROLE = 8,        /* a recipient doesn't seal, and a sender doesn't open */
    HPKEBATCH_NOCIPHER = 9,    /* the context is export-only */
    HPKEBATCH_LIMIT = 10,      /* the context's numbers are used up */
    HPKEBATCH_FAILED = 11,     /* a tag doesn't hold */
    HPKEBATCH_EXPORTSIZE = 12, /* more bytes than one export gives */
    HPKEBATCH_EXHAUSTED = 13,  /* the seed's stream gives no key: take another */
    HPKEBATCH_NOINVERSE = 14,  /* the seed's stream gives no key: take another */
    HPKEBATCH_FORM = 15,       /* the bytes encode no secret key */
    HPKEBATCH_PSKPAIR = 16,    /* one of psk and psk_id is missing */
    HPKEBATCH_PSKEXTRA = 17,   /* mode base takes no psk */
    HPKEBATCH_PSKMISSING = 18, /* mode psk needs a psk */
    HPKEBATCH_SHORT = 20,      /* a part of the message is missing */
    HPKEBATCH_HEADER = 21,     /* the header names another key, or algorithms that don't encrypt here */
    HPKEBATCH_NONCESIZE = 22,  /* the nonce of the response has another size than its AEAD asks for */
    HPKEBATCH_NO_RANDOM = 24   /* the system gave no random bytes: of the inline functions alone */
} hpkebatch_status;

/* Gives a sentence on a status, in English and with no full stop: a text that stays as it is and isn't freed. Any number
 * has one. */
const char *hpkebatch_strerror(uint32_t status);

/* ---- AES-128-GCM and AES-256-GCM (NIST SP 800-38D). A key has 16 or 32 bytes, a tag 16. Never seal two texts with
 * one key and nonce. */

#define HPKEBATCH_TAG_SIZE 16

/* Reads a key, a nonce, additional data and a text (at most 2^36 - 32 bytes); writes the ciphertext and its tag to
 * out, text_len + 16 bytes. */
uint32_t hpkebatch_gcm_seal(const uint8_t *key, size_t key_len, const uint8_t nonce[12], const uint8_t *aad,
                            size_t aad_len, const uint8_t *text, size_t text_len, uint8_t *out, size_t out_len);

/* Reads a key, a nonce, additional data and a ciphertext with its tag; if the tag holds, writes the text to out,
 * and else answers HPKEBATCH_FAILED. out has ct_len - 16 bytes, or none where ct_len is smaller: that is
 * HPKEBATCH_FAILED. */
uint32_t hpkebatch_gcm_open(const uint8_t *key, size_t key_len, const uint8_t nonce[12], const uint8_t *aad,
                            size_t aad_len, const uint8_t *ct, size_t ct_len, uint8_t *out, size_t out_len);

/* ---- the KEM, Streamlined NTRU Prime (round 3), with the sets sntrup761 and sntrup857. Random words are those of
 * ChaCha20 with seed for its key and stream for its nonce: draw seed at random and keep it secret, and use a stream of
 * a seed once. */

#define HPKEBATCH_SEED_SIZE 32
#define HPKEBATCH_SESSION_SIZE 32
#define HPKEBATCH_SNTRUP761_PUBLIC_SIZE 1158
#define HPKEBATCH_SNTRUP761_SECRET_SIZE 1763
#define HPKEBATCH_SNTRUP761_ENC_SIZE 1039
#define HPKEBATCH_SNTRUP857_PUBLIC_SIZE 1322
#define HPKEBATCH_SNTRUP857_SECRET_SIZE 1999
#define HPKEBATCH_SNTRUP857_ENC_SIZE 1184

/* Reads a seed; writes a pair of keys. */
uint32_t hpkebatch_sntrup761_keygen(const uint8_t seed[32], uint64_t stream, uint8_t public_key[1158],
                                    uint8_t secret_key[1763]);
uint32_t hpkebatch_sntrup857_keygen(const uint8_t seed[32], uint64_t stream, uint8_t public_key[1322],
                                    uint8_t secret_key[1999]);

/* Reads a seed and a public key; writes an encapsulation and the session key that it carries. */
uint32_t hpkebatch_sntrup761_encap(const uint8_t seed[32], uint64_t stream, const uint8_t public_key[1158],
                                   uint8_t enc[1039], uint8_t session[32]);
uint32_t hpkebatch_sntrup857_encap(const uint8_t seed[32], uint64_t stream, const uint8_t public_key[1322],
                                   uint8_t enc[1184], uint8_t session[32]);

/* Reads an encapsulation and a secret key; writes the session key, or HPKEBATCH_FORM where two polynomials of the key
 * are none. An encapsulation that was changed gives another session key, with status 0. */
uint32_t hpkebatch_sntrup761_decap(const uint8_t enc[1039], const uint8_t secret_key[1763], uint8_t session[32]);
uint32_t hpkebatch_sntrup857_decap(const uint8_t enc[1184], const uint8_t secret_key[1999], uint8_t session[32]);

/* ---- contexts (RFC 9180, 5). Calls take these as numbers, and any number that isn't here is HPKEBATCH_WRONG_USAGE, but
 * for a kem that comes with a shared secret. */

typedef enum hpkebatch_role { HPKEBATCH_SENDER = 0, HPKEBATCH_RECIPIENT = 1 } hpkebatch_role;

typedef enum hpkebatch_mode { HPKEBATCH_BASE = 0, HPKEBATCH_PSK = 1 } hpkebatch_mode;

/* The ids that this project took for its KEMs: RFC 9180 has registered none for them. */
typedef enum hpkebatch_kem { HPKEBATCH_SNTRUP761 = 63329, HPKEBATCH_SNTRUP857 = 63575 } hpkebatch_kem;

typedef enum hpkebatch_kdf {
    HPKEBATCH_HKDF_SHA256 = 1,
    HPKEBATCH_HKDF_SHA384 = 2,
    HPKEBATCH_HKDF_SHA512 = 3
} hpkebatch_kdf;

typedef enum hpkebatch_aead {
    HPKEBATCH_AES_128_GCM = 1,
    HPKEBATCH_AES_256_GCM = 2,
    HPKEBATCH_EXPORT_ONLY = 65535
} hpkebatch_aead;

/* A context, which the caller holds: a call of set-up fills it, and the others move number on. Read what you like, and
 * change nothing: a number that is used again for another text gives both texts away. */
typedef struct hpkebatch_context {
    uint64_t number;             /* the sequence number that is due */
    uint64_t limit;              /* the first number that isn't used */
    uint16_t role;               /* HPKEBATCH_SENDER or HPKEBATCH_RECIPIENT */
    uint16_t kem, kdf, aead;     /* the suite, by the ids of RFC 9180, 7 */
    uint8_t base_nonce[12];      /* zero bytes where the suite is export-only */
    uint8_t key[32];             /* 16 bytes for AES-128-GCM, and zero bytes behind them */
    uint8_t exporter_secret[64]; /* as many bytes as the KDF's hash has, and zero bytes behind them */
} hpkebatch_context;

/* Reads a shared secret that a KEM with the id kem gave, info, and psk and psk_id (both empty in mode base); writes a
 * context at number 0 whose numbers end below limit. Use a shared secret for one sender, and once. */
uint32_t hpkebatch_context_shared(hpkebatch_context *context, uint16_t role, uint16_t mode, uint16_t kem, uint16_t kdf,
                                  uint16_t aead, uint64_t limit, const uint8_t *shared_secret,
                                  size_t shared_secret_len, const uint8_t *info, size_t info_len, const uint8_t *psk,
                                  size_t psk_len, const uint8_t *psk_id, size_t psk_id_len);

/* Reads a seed, the recipient's public key, info, and psk and psk_id; writes a sender's context at number 0, and the
 * encapsulation from which the recipient makes its own. */
uint32_t hpkebatch_sntrup761_sender(hpkebatch_context *context, uint8_t enc[1039], const uint8_t seed[32],
                                    uint64_t stream, const uint8_t public_key[1158], uint16_t mode, uint16_t kdf,
                                    uint16_t aead, uint64_t limit, const uint8_t *info, size_t info_len,
                                    const uint8_t *psk, size_t psk_len, const uint8_t *psk_id, size_t psk_id_len);
uint32_t hpkebatch_sntrup857_sender(hpkebatch_context *context, uint8_t enc[1184], const uint8_t seed[32],
                                    uint64_t stream, const uint8_t public_key[1322], uint16_t mode, uint16_t kdf,
                                    uint16_t aead, uint64_t limit, const uint8_t *info, size_t info_len,
                                    const uint8_t *psk, size_t psk_len, const uint8_t *psk_id, size_t psk_id_len);

/* Reads an encapsulation, the recipient's secret key, info, and psk and psk_id; writes the recipient's context at
 * number 0. If the encapsulation was changed the context is another, and each opening answers HPKEBATCH_FAILED. */
uint32_t hpkebatch_sntrup761_recipient(hpkebatch_context *context, const uint8_t enc[1039],
                                       const uint8_t secret_key[1763], uint16_t mode, uint16_t kdf, uint16_t aead,
                                       uint64_t limit, const uint8_t *info, size_t info_len, const uint8_t *psk,
                                       size_t psk_len, const uint8_t *psk_id, size_t psk_id_len);
uint32_t hpkebatch_sntrup857_recipient(hpkebatch_context *context, const uint8_t enc[1184],
                                       const uint8_t secret_key[1999], uint16_t mode, uint16_t kdf, uint16_t aead,
                                       uint64_t limit, const uint8_t *info, size_t info_len, const uint8_t *psk,
                                       size_t psk_len, const uint8_t *psk_id, size_t psk_id_len);

/* Reads a sender's context, additional data and a text; writes the ciphertext and its tag to out, text_len + 16 bytes,
 * and moves number on by 1. */
uint32_t hpkebatch_context_seal(hpkebatch_context *context, const uint8_t *aad, size_t aad_len, const uint8_t *text,
                                size_t text_len, uint8_t *out, size_t out_len);

/* Reads a recipient's context, additional data and a ciphertext with its tag; if the tag holds at number, writes the
 * text to out and moves number on by 1. out has ct_len - 16 bytes, or none where ct_len is smaller: that is
 * HPKEBATCH_FAILED. */
uint32_t hpkebatch_context_open(hpkebatch_context *context, const uint8_t *aad, size_t aad_len, const uint8_t *ct,
                                size_t ct_len, uint8_t *out, size_t out_len);

/* Reads a sender's context, additional data and a text, the first buffer_len - 16 bytes of buffer; writes the ciphertext
 * in the text's place and the tag behind it, and moves number on by 1. */
uint32_t hpkebatch_context_seal_in_place(hpkebatch_context *context, const uint8_t *aad, size_t aad_len,
                                         uint8_t *buffer, size_t buffer_len);

/* Reads a recipient's context, additional data and the ciphertext with its tag in buffer; if the tag holds at number,
 * writes the text in the ciphertext's place, buffer_len - 16 bytes, leaves the tag behind it, and moves number on by 1.
 * Fewer than 16 bytes are HPKEBATCH_FAILED. */
uint32_t hpkebatch_context_open_in_place(hpkebatch_context *context, const uint8_t *aad, size_t aad_len,
                                         uint8_t *buffer, size_t buffer_len);

/* Reads a context and exporter_context; writes an exported secret to out, out_len bytes: at most 255 times the size of
 * the KDF's hash. */
uint32_t hpkebatch_context_export(const hpkebatch_context *context, const uint8_t *exporter_context,
                                  size_t exporter_context_len, uint8_t *out, size_t out_len);

/* ---- many messages of a context in one call: all of them, or none */

/* A byte string: where it begins, and its size. */
typedef struct hpkebatch_bytes {
    const uint8_t *at;
    size_t size;
} hpkebatch_bytes;

/* Reads a sender's context, and as many additional data as texts; writes the ciphertexts, each with its tag, one behind
 * another to out, which has 16 bytes for each text more than the texts have, and moves number on by texts_len. */
uint32_t hpkebatch_context_seal_all(hpkebatch_context *context, const hpkebatch_bytes *aads, size_t aads_len,
                                    const hpkebatch_bytes *texts, size_t texts_len, uint8_t *out, size_t out_len);

/* Reads a recipient's context, and as many additional data as ciphertexts with their tags; writes the texts one behind
 * another to out, which has 16 bytes for each ciphertext fewer than those have, and moves number on by cts_len, if all
 * tags hold at the numbers from number on. HPKEBATCH_LIMIT is tested before the tags. A ciphertext of fewer than 16
 * bytes counts for none in out: that is HPKEBATCH_FAILED. */
uint32_t hpkebatch_context_open_all(hpkebatch_context *context, const hpkebatch_bytes *aads, size_t aads_len,
                                    const hpkebatch_bytes *cts, size_t cts_len, uint8_t *out, size_t out_len);

/* ---- Oblivious HTTP (RFC 9458, 4): a client asks, the gateway answers, the client takes. A text has at most 1,048,576
 * bytes. What a text means is not known here: binary HTTP is the caller's. */

#define HPKEBATCH_SNTRUP761_REQUEST_SIZE 1062 /* of a request beside its text: header, encapsulation and tag */
#define HPKEBATCH_SNTRUP857_REQUEST_SIZE 1207
#define HPKEBATCH_AES_128_NONCE_SIZE 16 /* of a response; beside its text a response has this and a tag */
#define HPKEBATCH_AES_256_NONCE_SIZE 32

/* What a client keeps of a request, to take its response with: a call of ask fills it. Keep it secret, and change
 * nothing. */
typedef struct hpkebatch_asked {
    uint16_t key_id;           /* by which the gateway finds its key */
    uint16_t kem, kdf, aead;   /* the suite, by the ids of RFC 9180, 7 */
    uint8_t shared_secret[32]; /* what the KEM gave */
    uint8_t enc[1184];         /* its encapsulation, and zero bytes behind it */
} hpkebatch_asked;

/* Reads a seed, the gateway's public key, its identifier, the ids of a KDF and of an AEAD that encrypts, and a text;
 * writes to request, whose size is that of text and HPKEBATCH_SNTRUP..._REQUEST_SIZE together, and what the client
 * keeps to asked. Use a stream of a seed for one request. */
uint32_t hpkebatch_sntrup761_ask(hpkebatch_asked *asked, const uint8_t seed[32], uint64_t stream,
                                 const uint8_t public_key[1158], uint8_t key_id, uint16_t kdf, uint16_t aead,
                                 const uint8_t *text, size_t text_len, uint8_t *request, size_t request_len);
uint32_t hpkebatch_sntrup857_ask(hpkebatch_asked *asked, const uint8_t seed[32], uint64_t stream,
                                 const uint8_t public_key[1322], uint8_t key_id, uint16_t kdf, uint16_t aead,
                                 const uint8_t *text, size_t text_len, uint8_t *request, size_t request_len);

/* Reads a secret key, its identifier, a request, a nonce of 16 random bytes for AES-128-GCM or 32 for AES-256-GCM, and
 * a text; if the request's tag holds, writes what was asked to question, whose size is that of request without
 * HPKEBATCH_SNTRUP..._REQUEST_SIZE, and the nonce, the text and a tag to response. The first refusal that applies is
 * answered: HPKEBATCH_SHORT, HPKEBATCH_WRONG_USAGE for sizes, HPKEBATCH_FORM, HPKEBATCH_HEADER, HPKEBATCH_NONCESIZE,
 * HPKEBATCH_FAILED. To read a request before you answer it, answer it with no text first. Draw a nonce for each answer:
 * one nonce for two texts gives both away. */
uint32_t hpkebatch_sntrup761_answer(const uint8_t secret_key[1763], uint8_t key_id, const uint8_t *request,
                                    size_t request_len, const uint8_t *nonce, size_t nonce_len, const uint8_t *text,
                                    size_t text_len, uint8_t *question, size_t question_len, uint8_t *response,
                                    size_t response_len);
uint32_t hpkebatch_sntrup857_answer(const uint8_t secret_key[1999], uint8_t key_id, const uint8_t *request,
                                    size_t request_len, const uint8_t *nonce, size_t nonce_len, const uint8_t *text,
                                    size_t text_len, uint8_t *question, size_t question_len, uint8_t *response,
                                    size_t response_len);

/* Reads what the client kept, and a response; writes its text to text, whose size is that of response without a nonce
 * and a tag, if the tag holds. HPKEBATCH_SHORT: the response has no room for these. */
uint32_t hpkebatch_take(const hpkebatch_asked *asked, const uint8_t *response, size_t response_len, uint8_t *text,
                        size_t text_len);

/* ---- batches and replies of the command (docs/FORMAT.md) */

/* Reads a text. HPKEBATCH_DONE: it is a batch of `run`, and nothing is written. HPKEBATCH_BAD_BATCH: it isn't; out gets
 * the line `bad LINE REASON` that `run` writes for it, at most 64 bytes, and out_len its size. The bytes of out behind
 * it stay as they were. HPKEBATCH_NO_ROOM: out has fewer bytes than that line, and nothing is written. */
uint32_t hpkebatch_read(const uint8_t *input, size_t input_len, uint8_t *out, size_t out_room, size_t *out_len);

/* Reads a batch and a reply. HPKEBATCH_DONE: `run` may give this reply for the batch. HPKEBATCH_BROKEN: it may not.
 * HPKEBATCH_BAD_BATCH: the batch isn't one. HPKEBATCH_WRONG_USAGE: the reply has more than 67,108,864 bytes. */
uint32_t hpkebatch_check(const uint8_t *batch, size_t batch_len, const uint8_t *reply, size_t reply_len);

/* Does on the calling thread what the command does: reads words, those of its command line, ASCII text with one space
 * between each two, as "run --mult lanes", and its input, of any size. `run` and `live` have one of the replies that they
 * may give, however many workers are asked for; `demo` takes no input.
 *
 * HPKEBATCH_DONE: out has the text that the command writes, and written its size. HPKEBATCH_BAD_BATCH: out has the line
 * `bad LINE REASON`. HPKEBATCH_BROKEN: `check` told what is wrong with the reply. HPKEBATCH_NO_ROOM: out has fewer bytes
 * than the text, and written gets its size; so a call with no room asks for that. HPKEBATCH_WRONG_USAGE: the words are
 * none of the command's. HPKEBATCH_NO_MEMORY is the only other status. The bytes of out behind a text stay as they
 * were, and so do all of them where there is none. A second call of `run` or `live` may have another text, of another
 * size: look at its status too. */
uint32_t hpkebatch_serve(const uint8_t *words, size_t words_len, const uint8_t *input, size_t input_len, uint8_t *out,
                         size_t out_room, size_t *written);

/* ---- with random bytes of the system, and wiping. These functions stand here in plain C: they are tested, and not
 * proved. What they call with the bytes is. */

#define HPKEBATCH_INLINE static __inline__

/* glibc's string.h has this where a program asks for more than the C standard has. */
#ifndef __USE_MISC
void explicit_bzero(void *at, size_t size);
#endif

/* Fills out with random bytes of getrandom(2), or answers HPKEBATCH_NO_RANDOM: then out may be filled in part. It waits
 * where the system has just started and has no random bytes yet. */
HPKEBATCH_INLINE uint32_t hpkebatch_random(uint8_t *out, size_t out_len)
{
    size_t filled = 0;
    while (filled < out_len) {
        ssize_t got = getrandom(out + filled, out_len - filled, 0);
        if (got > 0)
            filled += (size_t)got;
        else if (got == 0 || errno != EINTR)
            return HPKEBATCH_NO_RANDOM;
    }
    return HPKEBATCH_DONE;
}

/* The calls of these names without `random`, with a seed that is drawn for this call and wiped behind it. A call that
 * isn't done leaves what it was lent, also with HPKEBATCH_NO_RANDOM. */

/* Where a seed gives no key another is drawn, up to 100 times. No seed is known that gives none. */
HPKEBATCH_INLINE uint32_t hpkebatch_random_sntrup761_keygen(uint8_t public_key[1158], uint8_t secret_key[1763])
{
    uint8_t seed[HPKEBATCH_SEED_SIZE];
    uint32_t status;
    int tries = 0;
    do {
        status = hpkebatch_random(seed, sizeof seed);
        if (status == HPKEBATCH_DONE)
            status = hpkebatch_sntrup761_keygen(seed, 0, public_key, secret_key);
    } while ((status == HPKEBATCH_EXHAUSTED || status == HPKEBATCH_NOINVERSE) && ++tries < 100);
    explicit_bzero(seed, sizeof seed);
    return status;
}

HPKEBATCH_INLINE uint32_t hpkebatch_random_sntrup761_sender(hpkebatch_context *context, uint8_t enc[1039],
                                                            const uint8_t public_key[1158], uint16_t mode, uint16_t kdf,
                                                            uint16_t aead, uint64_t limit, const uint8_t *info,
                                                            size_t info_len, const uint8_t *psk, size_t psk_len,
                                                            const uint8_t *psk_id, size_t psk_id_len)
{
    uint8_t seed[HPKEBATCH_SEED_SIZE];
    uint32_t status = hpkebatch_random(seed, sizeof seed);
    if (status == HPKEBATCH_DONE)
        status = hpkebatch_sntrup761_sender(context, enc, seed, 0, public_key, mode, kdf, aead, limit, info, info_len,
                                            psk, psk_len, psk_id, psk_id_len);
    explicit_bzero(seed, sizeof seed);
    return status;
}

HPKEBATCH_INLINE uint32_t hpkebatch_random_sntrup761_ask(hpkebatch_asked *asked, const uint8_t public_key[1158],
                                                         uint8_t key_id, uint16_t kdf, uint16_t aead,
                                                         const uint8_t *text, size_t text_len, uint8_t *request,
                                                         size_t request_len)
{
    uint8_t seed[HPKEBATCH_SEED_SIZE];
    uint32_t status = hpkebatch_random(seed, sizeof seed);
    if (status == HPKEBATCH_DONE)
        status = hpkebatch_sntrup761_ask(asked, seed, 0, public_key, key_id, kdf, aead, text, text_len, request,
                                         request_len);
    explicit_bzero(seed, sizeof seed);
    return status;
}

HPKEBATCH_INLINE uint32_t hpkebatch_random_sntrup857_keygen(uint8_t public_key[1322], uint8_t secret_key[1999])
{
    uint8_t seed[HPKEBATCH_SEED_SIZE];
    uint32_t status;
    int tries = 0;
    do {
        status = hpkebatch_random(seed, sizeof seed);
        if (status == HPKEBATCH_DONE)
            status = hpkebatch_sntrup857_keygen(seed, 0, public_key, secret_key);
    } while ((status == HPKEBATCH_EXHAUSTED || status == HPKEBATCH_NOINVERSE) && ++tries < 100);
    explicit_bzero(seed, sizeof seed);
    return status;
}

HPKEBATCH_INLINE uint32_t hpkebatch_random_sntrup857_sender(hpkebatch_context *context, uint8_t enc[1184],
                                                            const uint8_t public_key[1322], uint16_t mode, uint16_t kdf,
                                                            uint16_t aead, uint64_t limit, const uint8_t *info,
                                                            size_t info_len, const uint8_t *psk, size_t psk_len,
                                                            const uint8_t *psk_id, size_t psk_id_len)
{
    uint8_t seed[HPKEBATCH_SEED_SIZE];
    uint32_t status = hpkebatch_random(seed, sizeof seed);
    if (status == HPKEBATCH_DONE)
        status = hpkebatch_sntrup857_sender(context, enc, seed, 0, public_key, mode, kdf, aead, limit, info, info_len,
                                            psk, psk_len, psk_id, psk_id_len);
    explicit_bzero(seed, sizeof seed);
    return status;
}

HPKEBATCH_INLINE uint32_t hpkebatch_random_sntrup857_ask(hpkebatch_asked *asked, const uint8_t public_key[1322],
                                                         uint8_t key_id, uint16_t kdf, uint16_t aead,
                                                         const uint8_t *text, size_t text_len, uint8_t *request,
                                                         size_t request_len)
{
    uint8_t seed[HPKEBATCH_SEED_SIZE];
    uint32_t status = hpkebatch_random(seed, sizeof seed);
    if (status == HPKEBATCH_DONE)
        status = hpkebatch_sntrup857_ask(asked, seed, 0, public_key, key_id, kdf, aead, text, text_len, request,
                                         request_len);
    explicit_bzero(seed, sizeof seed);
    return status;
}

/* Write zero bytes over what is kept of a context, or of a request: by explicit_bzero, which no compiler leaves out. Copies
 * that the caller made stay, and so does what calls left on the stack. */
HPKEBATCH_INLINE void hpkebatch_wipe(hpkebatch_context *context)
{
    explicit_bzero(context, sizeof *context);
}

HPKEBATCH_INLINE void hpkebatch_wipe_asked(hpkebatch_asked *asked)
{
    explicit_bzero(asked, sizeof *asked);
}

/* The names of the enumerations, for #ifdef. (#if takes each for 0.) */
#define HPKEBATCH_DONE HPKEBATCH_DONE
#define HPKEBATCH_WRONG_USAGE HPKEBATCH_WRONG_USAGE
#define HPKEBATCH_BAD_BATCH HPKEBATCH_BAD_BATCH
#define HPKEBATCH_NO_ROOM HPKEBATCH_NO_ROOM
#define HPKEBATCH_NO_MEMORY HPKEBATCH_NO_MEMORY
#define HPKEBATCH_BROKEN HPKEBATCH_BROKEN
#define HPKEBATCH_ROLE HPKEBATCH_ROLE
#define HPKEBATCH_NOCIPHER HPKEBATCH_NOCIPHER
#define HPKEBATCH_LIMIT HPKEBATCH_LIMIT
#define HPKEBATCH_FAILED HPKEBATCH_FAILED
#define HPKEBATCH_EXPORTSIZE HPKEBATCH_EXPORTSIZE
#define HPKEBATCH_EXHAUSTED HPKEBATCH_EXHAUSTED
#define HPKEBATCH_NOINVERSE HPKEBATCH_NOINVERSE
#define HPKEBATCH_FORM HPKEBATCH_FORM
#define HPKEBATCH_PSKPAIR HPKEBATCH_PSKPAIR
#define HPKEBATCH_PSKEXTRA HPKEBATCH_PSKEXTRA
#define HPKEBATCH_PSKMISSING HPKEBATCH_PSKMISSING
#define HPKEBATCH_SHORT HPKEBATCH_SHORT
#define HPKEBATCH_HEADER HPKEBATCH_HEADER
#define HPKEBATCH_NONCESIZE HPKEBATCH_NONCESIZE
#define HPKEBATCH_NO_RANDOM HPKEBATCH_NO_RANDOM
#define HPKEBATCH_SENDER HPKEBATCH_SENDER
#define HPKEBATCH_RECIPIENT HPKEBATCH_RECIPIENT
#define HPKEBATCH_BASE HPKEBATCH_BASE
#define HPKEBATCH_PSK HPKEBATCH_PSK
#define HPKEBATCH_SNTRUP761 HPKEBATCH_SNTRUP761
#define HPKEBATCH_SNTRUP857 HPKEBATCH_SNTRUP857
#define HPKEBATCH_HKDF_SHA256 HPKEBATCH_HKDF_SHA256
#define HPKEBATCH_HKDF_SHA384 HPKEBATCH_HKDF_SHA384
#define HPKEBATCH_HKDF_SHA512 HPKEBATCH_HKDF_SHA512
#define HPKEBATCH_AES_128_GCM HPKEBATCH_AES_128_GCM
#define HPKEBATCH_AES_256_GCM HPKEBATCH_AES_256_GCM
#define HPKEBATCH_EXPORT_ONLY HPKEBATCH_EXPORT_ONLY

/* The structs are laid out as the library has them. */
#if defined(__cplusplus) && __cplusplus >= 201103L
static_assert(sizeof(hpkebatch_context) == 136, "hpkebatch_context has 136 bytes");
static_assert(offsetof(hpkebatch_context, exporter_secret) == 68, "exporter_secret begins at byte 68");
static_assert(sizeof(hpkebatch_asked) == 1224, "hpkebatch_asked has 1224 bytes");
static_assert(offsetof(hpkebatch_asked, enc) == 40, "enc begins at byte 40");
#elif defined(__STDC_VERSION__) && __STDC_VERSION__ >= 201112L
_Static_assert(sizeof(hpkebatch_context) == 136, "hpkebatch_context has 136 bytes");
_Static_assert(offsetof(hpkebatch_context, exporter_secret) == 68, "exporter_secret begins at byte 68");
_Static_assert(sizeof(hpkebatch_asked) == 1224, "hpkebatch_asked has 1224 bytes");
_Static_assert(offsetof(hpkebatch_asked, enc) == 40, "enc begins at byte 40");
#endif

#ifdef __cplusplus
}
#endif

#endif
