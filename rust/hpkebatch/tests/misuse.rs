//! What types don't rule out is refused by name, and leaves all as it was. (The compiler's refusals
//! are tests in the documents of [`hpkebatch::Sender`] and of its siblings.)

use hpkebatch::TAG_SIZE;
use hpkebatch::{Aead, Error, Kdf, Kem, Parameters, Psk, PublicKey, Recipient, SecretKey, Sender};

const KEMS: [Kem; 2] = [Kem::Sntrup761, Kem::Sntrup857];

fn is_send<T: Send>() {}

#[test]
fn keys_and_contexts_go_to_other_threads() {
    is_send::<SecretKey>();
    is_send::<PublicKey>();
    is_send::<Sender>();
    is_send::<Recipient>();
}

#[test]
fn both_ends_agree_in_each_suite() {
    let psk = Psk {
        secret: &[7; 32],
        id: b"team",
    };
    for kem in KEMS {
        let key = SecretKey::generate(kem).unwrap();
        for kdf in [Kdf::HkdfSha256, Kdf::HkdfSha384, Kdf::HkdfSha512] {
            for aead in [Aead::Aes128Gcm, Aead::Aes256Gcm] {
                for psk in [None, Some(psk)] {
                    both_ends_agree(
                        &key,
                        &Parameters {
                            kdf,
                            aead,
                            psk,
                            ..Parameters::new(b"i")
                        },
                    );
                }
            }
        }
    }
}

fn both_ends_agree(key: &SecretKey, parameters: &Parameters<'_>) {
    let mut sender = Sender::new(&key.public_key(), parameters).unwrap();
    let mut recipient = Recipient::new(key, sender.enc(), parameters).unwrap();
    for size in [0, 1, 100] {
        let (text, mut sealed, mut opened) =
            (vec![5; size], vec![0; size + TAG_SIZE], vec![0; size]);
        sender.seal(b"aad", &text, &mut sealed).unwrap();
        recipient.open(b"aad", &sealed, &mut opened).unwrap();
        assert_eq!(opened, text);
    }
    assert_eq!((sender.number(), recipient.number()), (3, 3));
}

#[test]
fn two_generated_keys_and_two_senders_differ() {
    for kem in KEMS {
        let (one, other) = (
            SecretKey::generate(kem).unwrap(),
            SecretKey::generate(kem).unwrap(),
        );
        assert_ne!(one.public_key(), other.public_key());
        let parameters = Parameters::new(b"");
        let sender = || Sender::new(&one.public_key(), &parameters).unwrap();
        assert_ne!(sender().enc(), sender().enc());
    }
}

#[test]
fn keys_of_another_size_are_refused() {
    for kem in KEMS {
        for size in [
            0,
            kem.public_size() - 1,
            kem.public_size() + 1,
            kem.secret_size(),
        ] {
            assert_eq!(
                PublicKey::from_bytes(kem, &vec![0; size]),
                Err(Error::WrongUsage)
            );
        }
        for size in [
            0,
            kem.secret_size() - 1,
            kem.secret_size() + 1,
            kem.public_size(),
        ] {
            let key = SecretKey::from_bytes(kem, &vec![0; size]);
            assert_eq!(key.err(), Some(Error::WrongUsage));
        }
    }
}

#[test]
fn an_encapsulation_of_another_size_is_refused() {
    let key = SecretKey::generate(Kem::Sntrup761).unwrap();
    let size = Kem::Sntrup761.enc_size();
    for size in [0, size - 1, size + 1, Kem::Sntrup857.enc_size()] {
        let recipient = Recipient::new(&key, &vec![0; size], &Parameters::new(b""));
        assert_eq!(recipient.err(), Some(Error::WrongUsage));
    }
}

#[test]
fn bytes_that_encode_no_key_are_refused() {
    let key = SecretKey::from_bytes(Kem::Sntrup761, &[0xff; 1763]).unwrap();
    let recipient = Recipient::new(&key, &[0; 1039], &Parameters::new(b""));
    assert_eq!(recipient.err(), Some(Error::Form));
}

#[test]
fn half_a_psk_and_no_limit_are_refused() {
    let bob = SecretKey::generate(Kem::Sntrup761).unwrap().public_key();
    let why = |parameters: Parameters<'_>| Sender::new(&bob, &parameters).err();
    let with = |secret, id| Parameters {
        psk: Some(Psk { secret, id }),
        ..Parameters::new(b"")
    };
    assert_eq!(why(with(b"secret", b"")), Some(Error::PskPair));
    assert_eq!(why(with(b"", b"id")), Some(Error::PskPair));
    assert_eq!(why(with(b"", b"")), Some(Error::PskMissing));
    assert_eq!(
        why(Parameters {
            limit: 0,
            ..Parameters::new(b"")
        }),
        Some(Error::WrongUsage)
    );
}

#[test]
fn outputs_of_another_size_are_refused() {
    let shared = |limit| Parameters {
        limit,
        ..Parameters::new(b"")
    };
    let mut sender = Sender::from_shared_secret(1, &[7; 32], &shared(1)).unwrap();
    let mut recipient = Recipient::from_shared_secret(1, &[7; 32], &shared(1)).unwrap();
    let (mut sealed, mut opened) = ([9; 22], [9; 6]);
    for size in [0, 20, 22] {
        let refused = sender.seal(b"", b"hello", &mut sealed[..size]);
        assert_eq!(refused, Err(Error::WrongUsage));
    }
    assert_eq!((sender.number(), sealed), (0, [9; 22]));
    sender.seal(b"", b"hello", &mut sealed[..21]).unwrap();
    for size in [0, 4, 6] {
        let refused = recipient.open(b"", &sealed[..21], &mut opened[..size]);
        assert_eq!(refused, Err(Error::WrongUsage));
    }
    assert_eq!(
        recipient.open(b"", &sealed[..15], &mut []),
        Err(Error::Failed)
    );
    assert_eq!((recipient.number(), opened), (0, [9; 6]));
    recipient
        .open(b"", &sealed[..21], &mut opened[..5])
        .unwrap();
    assert_eq!(opened, *b"hello\x09");
    assert_eq!(sender.seal(b"", b"", &mut [0; 16]), Err(Error::Limit));
    assert_eq!(sender.export(b"", &mut [0; 8161]), Err(Error::ExportSize));
}

#[test]
fn buffers_with_no_room_for_a_tag_are_refused() {
    let parameters = Parameters::new(b"");
    let mut sender = Sender::from_shared_secret(1, &[7; 32], &parameters).unwrap();
    let mut recipient = Recipient::from_shared_secret(1, &[7; 32], &parameters).unwrap();
    for size in [0, 15] {
        let mut buffer = vec![9; size];
        let sealed = sender.seal_in_place(b"", &mut buffer);
        assert_eq!(sealed, Err(Error::WrongUsage));
        let opened = recipient.open_in_place(b"", &mut buffer);
        assert_eq!(opened.err(), Some(Error::Failed));
        assert!(buffer.iter().all(|byte| *byte == 9));
    }
    assert_eq!((sender.number(), recipient.number()), (0, 0));
}

#[test]
fn a_message_out_of_order_waits_for_its_turn() {
    let parameters = Parameters::new(b"");
    let mut sender = Sender::from_shared_secret(1, &[7; 32], &parameters).unwrap();
    let mut recipient = Recipient::from_shared_secret(1, &[7; 32], &parameters).unwrap();
    let (mut first, mut second, mut text) = ([0; 17], [0; 17], [0; 1]);
    sender.seal(b"", b"1", &mut first).unwrap();
    sender.seal(b"", b"2", &mut second).unwrap();
    assert_eq!(recipient.open(b"", &second, &mut text), Err(Error::Failed));
    recipient.open(b"", &first, &mut text).unwrap();
    assert_eq!(recipient.open(b"", &first, &mut text), Err(Error::Failed));
    recipient.open(b"", &second, &mut text).unwrap();
    assert_eq!((&text, recipient.number()), (b"2", 2));
}

#[test]
fn an_export_only_suite_exports() {
    let parameters = Parameters {
        aead: Aead::ExportOnly,
        ..Parameters::new(b"")
    };
    let mut sender = Sender::from_shared_secret(1, &[7; 32], &parameters).unwrap();
    let mut recipient = Recipient::from_shared_secret(1, &[7; 32], &parameters).unwrap();
    assert_eq!(sender.seal(b"", b"", &mut [0; 16]), Err(Error::NoCipher));
    assert_eq!(recipient.open(b"", &[0; 16], &mut []), Err(Error::NoCipher));
    let mut exported = [0; 32];
    sender.export(b"channel", &mut exported).unwrap();
    assert_ne!(exported, [0; 32]);
}

#[test]
fn a_thread_with_a_small_stack_is_served() {
    let calls = || KEMS.map(|kem| both_ends_agree_and_export(&SecretKey::generate(kem).unwrap()));
    let thread = std::thread::Builder::new().stack_size(SMALL_STACK);
    thread.spawn(calls).unwrap().join().unwrap();
}

/// What the library asks for (`hpkebatch.h`): here for the whole thread.
const SMALL_STACK: usize = 128 * 1024;

fn both_ends_agree_and_export(key: &SecretKey) {
    both_ends_agree(key, &Parameters::new(b"info"));
    let sender = Sender::new(&key.public_key(), &Parameters::new(b"info")).unwrap();
    sender.export(b"", &mut [0; 32]).unwrap();
}

#[test]
fn nothing_secret_is_printed() {
    let key = SecretKey::generate(Kem::Sntrup761).unwrap();
    let psk = Psk {
        secret: b"secret",
        id: b"id",
    };
    let parameters = Parameters {
        psk: Some(psk),
        ..Parameters::new(b"")
    };
    let sender = Sender::new(&key.public_key(), &parameters).unwrap();
    let recipient = Recipient::new(&key, sender.enc(), &parameters).unwrap();
    assert_eq!(format!("{key:?}"), "SecretKey(Sntrup761)");
    assert_eq!(format!("{sender:?}"), "Sender { number: 0, .. }");
    assert_eq!(format!("{recipient:?}"), "Recipient { number: 0, .. }");
    assert_eq!(format!("{psk:?}"), "Psk { id: [105, 100], .. }");
}
