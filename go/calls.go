//go:build linux && amd64 && cgo

package hpkebatch

// #cgo CFLAGS: -DLIBRARY
// #include <stdlib.h>
// #include "hpkebatch.h"
//
// // What is answered in place of a call, where the processor lacks what the text uses of x86-64-v2.
// #define NO_PROCESSOR 255
//
// static int processor_is_met(void) {
//     __builtin_cpu_init();
//     return __builtin_cpu_supports("ssse3") && __builtin_cpu_supports("sse4.2") && __builtin_cpu_supports("popcnt");
// }
//
// // The call of the parameter set that a KEM's id names.
// #define OF(kem, call, ...)                                             \
//     (!processor_is_met() ? NO_PROCESSOR                                \
//      : (kem) == 63329    ? hpkebatch_sntrup761_##call(__VA_ARGS__)     \
//                          : hpkebatch_sntrup857_##call(__VA_ARGS__))
//
// static uint32_t keygen(uint16_t kem, const uint8_t *seed, uint64_t stream, uint8_t *public_key, uint8_t *secret_key) {
//     return OF(kem, keygen, seed, stream, public_key, secret_key);
// }
//
// static uint32_t decap(uint16_t kem, const uint8_t *enc, const uint8_t *secret_key, uint8_t *session) {
//     return OF(kem, decap, enc, secret_key, session);
// }
//
// static uint32_t sender(uint16_t kem, hpkebatch_context *context, uint8_t *enc, const uint8_t *seed, uint64_t stream,
//                        const uint8_t *public_key, uint16_t mode, uint16_t kdf, uint16_t aead, uint64_t limit,
//                        const uint8_t *info, size_t info_len, const uint8_t *psk, size_t psk_len,
//                        const uint8_t *psk_id, size_t psk_id_len) {
//     return OF(kem, sender, context, enc, seed, stream, public_key, mode, kdf, aead, limit, info, info_len, psk,
//               psk_len, psk_id, psk_id_len);
// }
//
// static uint32_t recipient(uint16_t kem, hpkebatch_context *context, const uint8_t *enc, const uint8_t *secret_key,
//                           uint16_t mode, uint16_t kdf, uint16_t aead, uint64_t limit, const uint8_t *info,
//                           size_t info_len, const uint8_t *psk, size_t psk_len, const uint8_t *psk_id,
//                           size_t psk_id_len) {
//     return OF(kem, recipient, context, enc, secret_key, mode, kdf, aead, limit, info, info_len, psk, psk_len, psk_id,
//               psk_id_len);
// }
//
// static uint32_t shared(hpkebatch_context *context, uint16_t role, uint16_t mode, uint16_t kem, uint16_t kdf,
//                        uint16_t aead, uint64_t limit, const uint8_t *shared_secret, size_t shared_secret_len,
//                        const uint8_t *info, size_t info_len, const uint8_t *psk, size_t psk_len,
//                        const uint8_t *psk_id, size_t psk_id_len) {
//     return !processor_is_met() ? NO_PROCESSOR
//                                : hpkebatch_context_shared(context, role, mode, kem, kdf, aead, limit, shared_secret,
//                                                           shared_secret_len, info, info_len, psk, psk_len, psk_id,
//                                                           psk_id_len);
// }
//
// // Seals or opens a list. Its additional data stand at `data` one behind another, and its texts behind them: a list of
// // Go's own slices has pointers in it, which cgo lends to no call.
// static uint32_t all(int opens, hpkebatch_context *context, const uint8_t *data, const size_t *sizes, size_t count,
//                     uint8_t *out, size_t out_len) {
//     hpkebatch_bytes *strings = calloc(2 * count + 1, sizeof *strings);
//     if (strings == NULL) return HPKEBATCH_NO_MEMORY;
//     for (size_t i = 0; i < 2 * count; data += sizes[i++])
//         strings[i] = (hpkebatch_bytes){data, sizes[i]};
//     uint32_t status = (opens ? hpkebatch_context_open_all : hpkebatch_context_seal_all)(
//         context, strings, count, strings + count, count, out, out_len);
//     free(strings);
//     return status;
// }
import "C"

import (
	"fmt"
	"unsafe"
)

// Each C call of the package is here. cgo's rules are met so: what is lent has no Go pointers in it, C keeps none of it
// behind a call, and cgo keeps it alive during the call.

const (
	roleSender    = C.HPKEBATCH_SENDER
	roleRecipient = C.HPKEBATCH_RECIPIENT
	modeBase      = C.HPKEBATCH_BASE
	modePSK       = C.HPKEBATCH_PSK
	seedSize      = C.HPKEBATCH_SEED_SIZE
)

// The struct that the library fills and moves on: 136 bytes, and no pointer.
type contextBytes = C.hpkebatch_context

var errorOfStatus = map[C.uint32_t]error{
	C.HPKEBATCH_WRONG_USAGE: ErrUsage,
	C.HPKEBATCH_NO_MEMORY:   ErrNoMemory,
	C.HPKEBATCH_ROLE:        errRole,
	C.HPKEBATCH_NOCIPHER:    ErrExportOnly,
	C.HPKEBATCH_LIMIT:       ErrLimit,
	C.HPKEBATCH_FAILED:      ErrOpen,
	C.HPKEBATCH_EXPORTSIZE:  ErrExportSize,
	C.HPKEBATCH_EXHAUSTED:   errExhausted,
	C.HPKEBATCH_NOINVERSE:   errNoInverse,
	C.HPKEBATCH_FORM:        ErrKey,
	C.HPKEBATCH_PSKPAIR:     errPSKPair,
	C.HPKEBATCH_PSKEXTRA:    errPSKExtra,
	C.HPKEBATCH_PSKMISSING:  errPSKMissing,
	C.NO_PROCESSOR:          ErrProcessor,
}

func errorOf(status C.uint32_t) error {
	if status == C.HPKEBATCH_DONE {
		return nil
	}
	if err, ok := errorOfStatus[status]; ok {
		return err
	}
	return fmt.Errorf("hpkebatch: the library answers status %d", status)
}

// What an empty slice is lent as: the library takes no null pointer.
var noBytes C.uint8_t

// The place where b begins.
func at(b []byte) *C.uint8_t {
	if len(b) == 0 {
		return &noBytes
	}
	return (*C.uint8_t)(unsafe.Pointer(&b[0]))
}

func size(b []byte) C.size_t { return C.size_t(len(b)) }

// A seed's bytes must be drawn at random, and a stream of a seed be used once.
type seed [seedSize]byte

func (s *seed) at() *C.uint8_t { return (*C.uint8_t)(&s[0]) }

func keygen(kem KEM, s *seed, stream uint64, public, private []byte) error {
	return errorOf(C.keygen(C.uint16_t(kem.id), s.at(), C.uint64_t(stream), at(public), at(private)))
}

// isPrivateKey tests that both small polynomials of a private key are encoded well, which the library does as it
// decapsulates.
func isPrivateKey(kem KEM, private []byte) error {
	var session [C.HPKEBATCH_SESSION_SIZE]byte
	defer wipe(session[:])
	return errorOf(C.decap(C.uint16_t(kem.id), at(make([]byte, kem.encSize)), at(private), at(session[:])))
}

// setUpSender fills a context, and enc with the encapsulation.
func setUpSender(c *contextBytes, enc []byte, s *seed, stream uint64, pk *PublicKey, p *parameters) error {
	return errorOf(C.sender(C.uint16_t(pk.kem.id), c, at(enc), s.at(), C.uint64_t(stream), at(pk.bytes),
		C.uint16_t(p.mode), C.uint16_t(p.kdf.id), C.uint16_t(p.aead.id), C.uint64_t(p.limit),
		at(p.info), size(p.info), at(p.psk), size(p.psk), at(p.pskID), size(p.pskID)))
}

func setUpRecipient(c *contextBytes, enc []byte, kem KEM, private []byte, p *parameters) error {
	return errorOf(C.recipient(C.uint16_t(kem.id), c, at(enc), at(private),
		C.uint16_t(p.mode), C.uint16_t(p.kdf.id), C.uint16_t(p.aead.id), C.uint64_t(p.limit),
		at(p.info), size(p.info), at(p.psk), size(p.psk), at(p.pskID), size(p.pskID)))
}

func setUpShared(c *contextBytes, role, kemID uint16, sharedSecret []byte, p *parameters) error {
	return errorOf(C.shared(c, C.uint16_t(role), C.uint16_t(p.mode), C.uint16_t(kemID),
		C.uint16_t(p.kdf.id), C.uint16_t(p.aead.id), C.uint64_t(p.limit), at(sharedSecret), size(sharedSecret),
		at(p.info), size(p.info), at(p.psk), size(p.psk), at(p.pskID), size(p.pskID)))
}

func contextSeal(c *contextBytes, aad, plaintext, out []byte) error {
	return errorOf(C.hpkebatch_context_seal(c, at(aad), size(aad), at(plaintext), size(plaintext), at(out), size(out)))
}

func contextOpen(c *contextBytes, aad, ciphertext, out []byte) error {
	return errorOf(C.hpkebatch_context_open(c, at(aad), size(aad), at(ciphertext), size(ciphertext), at(out), size(out)))
}

// contextAll seals or opens a list.
func contextAll(opens bool, c *contextBytes, aads, texts [][]byte, out []byte) error {
	opening := C.int(0)
	if opens {
		opening = 1
	}
	return withJoined(append(clone(aads), texts...), func(data []byte, sizes []sizeOfC) error {
		return errorOf(C.all(opening, c, at(data), &sizes[0], C.size_t(len(texts)), at(out), size(out)))
	})
}

type sizeOfC = C.size_t

// withJoined lends a use the strings, one behind another, and their sizes, with one more behind them, so that there is a
// first. The bytes are wiped then.
func withJoined(strings [][]byte, use func(data []byte, sizes []sizeOfC) error) error {
	total := 0
	for _, s := range strings {
		total += len(s)
	}
	data, sizes := make([]byte, 0, total), make([]sizeOfC, 0, len(strings)+1)
	for _, s := range strings {
		data, sizes = append(data, s...), append(sizes, size(s))
	}
	defer wipe(data)
	return use(data, append(sizes, 0))
}

func contextExport(c *contextBytes, exporterContext, out []byte) error {
	return errorOf(C.hpkebatch_context_export(c, at(exporterContext), size(exporterContext), at(out), size(out)))
}
