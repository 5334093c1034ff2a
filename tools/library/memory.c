/* Refuses each allocation of each call that takes memory, in turn: that one alone, and all from there on. The call
 * then answers HPKEBATCH_NO_MEMORY and has changed nothing, or does its work without, and no block is kept. Linked with
 * --wrap=malloc, --wrap=realloc and --wrap=free, which bring the library's calls here. */
#include "check.h"

void *__real_malloc(size_t size);
void *__real_realloc(void *old, size_t size);
void __real_free(void *block);
void *__wrap_malloc(size_t size);
void *__wrap_realloc(void *old, size_t size);
void __wrap_free(void *block);

static long calls, refused_from, refused_to, blocks;

static int is_refused(void)
{
    calls++;
    return calls >= refused_from && calls <= refused_to;
}

void *__wrap_malloc(size_t size)
{
    void *block = is_refused() ? NULL : __real_malloc(size);
    blocks += block != NULL;
    return block;
}

void *__wrap_realloc(void *old, size_t size)
{
    void *block = is_refused() ? NULL : __real_realloc(old, size);
    blocks += block != NULL && old == NULL;
    return block;
}

void __wrap_free(void *block)
{
    blocks -= block != NULL;
    __real_free(block);
}

/* A batch of examples/, and the reply to it. */
static const char seal_batch[] =
    "hpkebatch 1\n"
    "share send 32 1 1 fe0e18c9f024ce43799ae393c7e8fe8fce9d218875e8227b0187c04e7d2ea1fc base 4f6465206f6e2061204772656369616e2055726e - - 2\n"
    "lane\n"
    "seal 0 436f756e742d30 4265617574792069732074727574682c20747275746820626561757479\n"
    "seal 0 436f756e742d31 4265617574792069732074727574682c20747275746820626561757479\n"
    "end\n";
static const char seal_reply[] =
    "hpkebatch 1\n"
    "context 0 shared\n"
    "lane 0\n"
    "sealed 0 f938558b5d72f1a23810b4be2ab4f84331acc02fc97babc53a52ae8218a355a96d8770ac83d07bea87e13c512a\n"
    "sealed 1 af2d7e9ac9ae7e270f46ba1f975be53c09f8d875bdc8535458c2494e8a6eab251c03d0c22a56b8ca42c2063b84\n"
    "journal 0\n"
    "0 0 0\n"
    "0 1 0\n"
    "end\n";

/* All that is lent. */
static const uint8_t seed[32] = {7};
static struct {
    uint8_t pk[1322], sk[1999], enc[1184], session[32];
    hpkebatch_context context;
    hpkebatch_asked asked;
    uint8_t request[HPKEBATCH_SNTRUP857_REQUEST_SIZE + 3], question[3], response[16 + 4 + 16], reply[4];
    uint8_t out[1024];
    size_t written;
} lent, before, after;

static uint32_t serve(const char *words, const char *input)
{
    return hpkebatch_serve((const uint8_t *)words, strlen(words), (const uint8_t *)input, strlen(input), lent.out,
                           sizeof lent.out, &lent.written);
}

static uint32_t call(int which)
{
    const uint8_t *none = (const uint8_t *)"";
    static char judged[sizeof seal_batch + sizeof seal_reply];
    strcat(strcpy(judged, seal_batch), seal_reply);
    switch (which) {
    case 0:
        return hpkebatch_sntrup761_keygen(seed, 0, lent.pk, lent.sk);
    case 1:
        return hpkebatch_sntrup761_encap(seed, 1, lent.pk, lent.enc, lent.session);
    case 2:
        return hpkebatch_sntrup761_decap(lent.enc, lent.sk, lent.session);
    case 3:
        return hpkebatch_sntrup761_sender(&lent.context, lent.enc, seed, 1, lent.pk, 0, 1, 1, 9, none, 0, none, 0, none, 0);
    case 4:
        return hpkebatch_sntrup761_recipient(&lent.context, lent.enc, lent.sk, 0, 1, 1, 9, none, 0, none, 0, none, 0);
    case 5:
        return hpkebatch_sntrup761_ask(&lent.asked, seed, 2, lent.pk, 7, 1, 1, (const uint8_t *)"ask", 3, lent.request,
                                       HPKEBATCH_SNTRUP761_REQUEST_SIZE + 3);
    case 6:
        return hpkebatch_sntrup761_answer(lent.sk, 7, lent.request, HPKEBATCH_SNTRUP761_REQUEST_SIZE + 3, seed, 16,
                                          (const uint8_t *)"told", 4, lent.question, 3, lent.response,
                                          sizeof lent.response);
    case 7:
        return hpkebatch_take(&lent.asked, lent.response, sizeof lent.response, lent.reply, 4);
    case 8:
        return hpkebatch_sntrup857_keygen(seed, 0, lent.pk, lent.sk);
    case 9:
        return hpkebatch_sntrup857_encap(seed, 1, lent.pk, lent.enc, lent.session);
    case 10:
        return hpkebatch_sntrup857_decap(lent.enc, lent.sk, lent.session);
    case 11:
        return hpkebatch_sntrup857_sender(&lent.context, lent.enc, seed, 1, lent.pk, 0, 1, 1, 9, none, 0, none, 0, none, 0);
    case 12:
        return hpkebatch_sntrup857_recipient(&lent.context, lent.enc, lent.sk, 0, 1, 1, 9, none, 0, none, 0, none, 0);
    case 13:
        return hpkebatch_sntrup857_ask(&lent.asked, seed, 2, lent.pk, 7, 1, 1, (const uint8_t *)"ask", 3, lent.request,
                                       HPKEBATCH_SNTRUP857_REQUEST_SIZE + 3);
    case 14:
        return hpkebatch_sntrup857_answer(lent.sk, 7, lent.request, HPKEBATCH_SNTRUP857_REQUEST_SIZE + 3, seed, 16,
                                          (const uint8_t *)"told", 4, lent.question, 3, lent.response,
                                          sizeof lent.response);
    case 15:
        return hpkebatch_take(&lent.asked, lent.response, sizeof lent.response, lent.reply, 4);
    case 16:
        return serve("run", seal_batch);
    default:
        return serve("check", judged);
    }
}

#define CALLS 18

/* Other bytes where the call will write. */
static void spoil(int which)
{
    int part = which < 16 ? which % 8 : 8;
    if (part == 0) {
        memset(lent.pk, 7, sizeof lent.pk);
        memset(lent.sk, 7, sizeof lent.sk);
    }
    if (part == 1 || part == 3)
        memset(lent.enc, 7, sizeof lent.enc);
    if (part == 1 || part == 2)
        memset(lent.session, 7, sizeof lent.session);
    if (part == 3 || part == 4)
        memset(&lent.context, 7, sizeof lent.context);
    if (part == 5) {
        memset(&lent.asked, 7, sizeof lent.asked);
        memset(lent.request, 7, sizeof lent.request);
    }
    if (part == 6) {
        memset(lent.question, 7, sizeof lent.question);
        memset(lent.response, 7, sizeof lent.response);
    }
    if (part == 7)
        memset(lent.reply, 7, sizeof lent.reply);
    if (part == 8)
        memset(lent.out, 7, sizeof lent.out);
}

static long refusals, survived;

/* The call, where the allocations of these numbers are refused. A list that can't grow by half again may still grow by
 * what it needs, so one refusal alone may be survived. */
static void try_refused(int which, long from, long to, int may_survive)
{
    lent = before;
    calls = 0;
    refused_from = from;
    refused_to = to;
    uint32_t status = call(which);
    refused_from = refused_to = 0;
    refusals++;
    CHECK(blocks == 0);
    if (status == HPKEBATCH_DONE && may_survive) {
        survived++;
        CHECK(memcmp(&lent, &after, sizeof lent) == 0);
    } else {
        CHECK(status == HPKEBATCH_NO_MEMORY);
        CHECK(memcmp(&lent, &before, sizeof lent) == 0);
    }
}

int main(void)
{
    for (int which = 0; which < CALLS; which++) {
        spoil(which);
        before = lent;
        calls = 0;
        CHECK(call(which) == HPKEBATCH_DONE);
        long needed = calls;
        after = lent;
        CHECK(needed > 0 && blocks == 0);
        CHECK(memcmp(&after, &before, sizeof after) != 0);
        for (long at = 1; at <= needed; at++) {
            try_refused(which, at, at, 1);
            try_refused(which, at, needed, 0);
        }
        lent = after;
    }
    printf("memory: %ld refusals, of which %ld were survived\n", refusals, survived);
    CHECK(survived < refusals / 8);
    return told("memory");
}
