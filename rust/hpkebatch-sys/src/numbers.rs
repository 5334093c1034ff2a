//! Statuses, ids and sizes, under the header's names.

// ---- statuses: those below 8 are the command's, the others are words of its replies

/// the work is done
pub const HPKEBATCH_DONE: u32 = 0;
/// a length doesn't fit, or a number names nothing
pub const HPKEBATCH_WRONG_USAGE: u32 = 2;
/// the text is no batch
pub const HPKEBATCH_BAD_BATCH: u32 = 3;
/// out has fewer bytes than the text
pub const HPKEBATCH_NO_ROOM: u32 = 5;
/// malloc gave none
pub const HPKEBATCH_NO_MEMORY: u32 = 6;
/// the reply is none that `run` may give for the batch
pub const HPKEBATCH_BROKEN: u32 = 7;
/// a recipient doesn't seal, and a sender doesn't open
pub const HPKEBATCH_ROLE: u32 = 8;
/// the context is export-only
pub const HPKEBATCH_NOCIPHER: u32 = 9;
/// the context's numbers are used up
pub const HPKEBATCH_LIMIT: u32 = 10;
/// a tag doesn't hold
pub const HPKEBATCH_FAILED: u32 = 11;
/// more bytes than one export gives
pub const HPKEBATCH_EXPORTSIZE: u32 = 12;
/// the seed's stream gives no key: take another
pub const HPKEBATCH_EXHAUSTED: u32 = 13;
/// the seed's stream gives no key: take another
pub const HPKEBATCH_NOINVERSE: u32 = 14;
/// the bytes encode no secret key
pub const HPKEBATCH_FORM: u32 = 15;
/// one of psk and psk_id is missing
pub const HPKEBATCH_PSKPAIR: u32 = 16;
/// mode base takes no psk
pub const HPKEBATCH_PSKEXTRA: u32 = 17;
/// mode psk needs a psk
pub const HPKEBATCH_PSKMISSING: u32 = 18;
/// a part of the message is missing
pub const HPKEBATCH_SHORT: u32 = 20;
/// the header names another key, or algorithms that don't encrypt here
pub const HPKEBATCH_HEADER: u32 = 21;
/// the nonce of the response has another size than its AEAD asks for
pub const HPKEBATCH_NONCESIZE: u32 = 22;
/// the system gave no random bytes: no call of the library answers it
pub const HPKEBATCH_NO_RANDOM: u32 = 24;

// ---- sizes

/// bytes of a tag
pub const HPKEBATCH_TAG_SIZE: usize = 16;
/// bytes of a seed
pub const HPKEBATCH_SEED_SIZE: usize = 32;
/// bytes of a session key
pub const HPKEBATCH_SESSION_SIZE: usize = 32;
/// bytes of a public key of sntrup761
pub const HPKEBATCH_SNTRUP761_PUBLIC_SIZE: usize = 1158;
/// bytes of a secret key of sntrup761
pub const HPKEBATCH_SNTRUP761_SECRET_SIZE: usize = 1763;
/// bytes of an encapsulation of sntrup761
pub const HPKEBATCH_SNTRUP761_ENC_SIZE: usize = 1039;
/// bytes of a public key of sntrup857
pub const HPKEBATCH_SNTRUP857_PUBLIC_SIZE: usize = 1322;
/// bytes of a secret key of sntrup857
pub const HPKEBATCH_SNTRUP857_SECRET_SIZE: usize = 1999;
/// bytes of an encapsulation of sntrup857
pub const HPKEBATCH_SNTRUP857_ENC_SIZE: usize = 1184;

// ---- roles, modes, and the ids of a suite

/// the role of who seals
pub const HPKEBATCH_SENDER: u16 = 0;
/// the role of who opens
pub const HPKEBATCH_RECIPIENT: u16 = 1;
/// mode base (RFC 9180, 5.1.1)
pub const HPKEBATCH_BASE: u16 = 0;
/// mode psk (RFC 9180, 5.1.2)
pub const HPKEBATCH_PSK: u16 = 1;
/// sntrup761, by an id of this library's own
pub const HPKEBATCH_SNTRUP761: u16 = 63329;
/// sntrup857, by an id of this library's own
pub const HPKEBATCH_SNTRUP857: u16 = 63575;
/// HKDF-SHA256 (RFC 9180, 7.2)
pub const HPKEBATCH_HKDF_SHA256: u16 = 1;
/// HKDF-SHA384 (RFC 9180, 7.2)
pub const HPKEBATCH_HKDF_SHA384: u16 = 2;
/// HKDF-SHA512 (RFC 9180, 7.2)
pub const HPKEBATCH_HKDF_SHA512: u16 = 3;
/// AES-128-GCM (RFC 9180, 7.3)
pub const HPKEBATCH_AES_128_GCM: u16 = 1;
/// AES-256-GCM (RFC 9180, 7.3)
pub const HPKEBATCH_AES_256_GCM: u16 = 2;
/// export-only (RFC 9180, 7.3)
pub const HPKEBATCH_EXPORT_ONLY: u16 = 65535;

// ---- Oblivious HTTP (RFC 9458)

/// bytes of a request beside its text, by sntrup761: header, encapsulation and tag
pub const HPKEBATCH_SNTRUP761_REQUEST_SIZE: usize = 1062;
/// bytes of a request beside its text, by sntrup857
pub const HPKEBATCH_SNTRUP857_REQUEST_SIZE: usize = 1207;
/// bytes of the nonce of a response by AES-128-GCM
pub const HPKEBATCH_AES_128_NONCE_SIZE: usize = 16;
/// bytes of the nonce of a response by AES-256-GCM
pub const HPKEBATCH_AES_256_NONCE_SIZE: usize = 32;
