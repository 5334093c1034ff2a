// What the library for C says in words: of a status, and of itself. Written by hand, and no proof covers it.
// tools/library/words.c tests both functions.

#include "hpkebatch.h"

const char *hpkebatch_version(void) { return HPKEBATCH_VERSION; }

const char *hpkebatch_strerror(uint32_t status) {
    switch (status) {
    case HPKEBATCH_DONE: return "the work is done";
    case HPKEBATCH_WRONG_USAGE: return "a length does not fit, or a number names nothing";
    case HPKEBATCH_BAD_BATCH: return "the text is no batch";
    case HPKEBATCH_NO_ROOM: return "the text is larger than the memory that was given for it";
    case HPKEBATCH_NO_MEMORY: return "out of memory";
    case HPKEBATCH_BROKEN: return "the reply is none that run may give for the batch";
    case HPKEBATCH_ROLE: return "a recipient does not seal, and a sender does not open";
    case HPKEBATCH_NOCIPHER: return "the context is export-only";
    case HPKEBATCH_LIMIT: return "the context's numbers are used up";
    case HPKEBATCH_FAILED: return "the tag does not hold: the message was changed, or another one is due";
    case HPKEBATCH_EXPORTSIZE: return "one export gives fewer bytes";
    case HPKEBATCH_EXHAUSTED: return "the seed's stream gives no key: none of its polynomials g has an inverse";
    case HPKEBATCH_NOINVERSE: return "the seed's stream gives no key: its polynomial 3f has no inverse";
    case HPKEBATCH_FORM: return "the bytes encode no secret key";
    case HPKEBATCH_PSKPAIR: return "one of psk and psk_id is missing";
    case HPKEBATCH_PSKEXTRA: return "mode base takes no psk";
    case HPKEBATCH_PSKMISSING: return "mode psk needs a psk";
    case HPKEBATCH_SHORT: return "a part of the message is missing";
    case HPKEBATCH_HEADER: return "the header names another key, or algorithms that do not encrypt here";
    case HPKEBATCH_NONCESIZE: return "the nonce of the response has another size than its AEAD asks for";
    case HPKEBATCH_NO_RANDOM: return "the system gave no random bytes";
    default: return "no status has this number";
    }
}
