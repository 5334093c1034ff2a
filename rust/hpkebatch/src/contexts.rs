//! The two ends of a context (RFC 9180, 5).

use crate::error::Error;
use crate::keys::{PublicKey, RandomSeed, SecretKey};
use crate::library::{Context, Seed};
use crate::suites::{Parameters, MOST_ENC, TAG_SIZE};
use core::fmt;
use hpkebatch_sys::{HPKEBATCH_RECIPIENT, HPKEBATCH_SENDER};

#[cfg(feature = "alloc")]
use alloc::vec::Vec;

/// The end that seals. Each message takes the next number, from 0 on.
///
/// Dropped, its keys are zeroed. One thread at a time has it, and none gets a copy, since a number
/// that two messages have gives both away:
///
/// ```compile_fail,E0599
/// use hpkebatch::{Kem, Parameters, SecretKey, Sender};
///
/// let bob = SecretKey::generate(Kem::Sntrup761).unwrap().public_key();
/// let sender = Sender::new(&bob, &Parameters::default()).unwrap();
/// let copy = sender.clone();
/// ```
///
/// Two threads can't seal at once, and not even look at once. Put it into a `Mutex`, or send it:
///
/// ```compile_fail,E0277
/// use hpkebatch::{Kem, Parameters, SecretKey, Sender};
///
/// let bob = SecretKey::generate(Kem::Sntrup761).unwrap().public_key();
/// let sender = Sender::new(&bob, &Parameters::default()).unwrap();
/// std::thread::scope(|scope| {
///     scope.spawn(|| sender.export(b"", &mut [0; 32]));
///     scope.spawn(|| sender.export(b"", &mut [0; 32]));
/// });
/// ```
///
/// ```compile_fail,E0499
/// use hpkebatch::{Kem, Parameters, SecretKey, Sender};
///
/// let bob = SecretKey::generate(Kem::Sntrup761).unwrap().public_key();
/// let mut sender = Sender::new(&bob, &Parameters::default()).unwrap();
/// std::thread::scope(|scope| {
///     scope.spawn(|| sender.seal(b"", b"", &mut [0; 16]));
///     scope.spawn(|| sender.seal(b"", b"", &mut [0; 16]));
/// });
/// ```
///
/// ```
/// use hpkebatch::{Kem, Parameters, SecretKey, Sender};
/// use std::sync::Mutex;
///
/// let bob = SecretKey::generate(Kem::Sntrup761)?.public_key();
/// let sender = Mutex::new(Sender::new(&bob, &Parameters::default())?);
/// std::thread::scope(|scope| {
///     for _ in 0..2 {
///         scope.spawn(|| sender.lock().unwrap().seal(b"", b"", &mut [0; 16]));
///     }
/// });
/// assert_eq!(sender.lock().unwrap().number(), 2);
/// # Ok::<(), hpkebatch::Error>(())
/// ```
///
/// It has no call to open with:
///
/// ```compile_fail,E0599
/// use hpkebatch::{Kem, Parameters, SecretKey, Sender};
///
/// let bob = SecretKey::generate(Kem::Sntrup761).unwrap().public_key();
/// let mut sender = Sender::new(&bob, &Parameters::default()).unwrap();
/// sender.open(b"", &[0; 16], &mut []);
/// ```
pub struct Sender {
    context: Context,
    /// The encapsulation, and zero bytes behind it.
    enc: [u8; MOST_ENC],
    enc_size: usize,
}

impl Sender {
    const fn empty(enc_size: usize) -> Self {
        Self {
            context: Context::empty(),
            enc: [0; MOST_ENC],
            enc_size,
        }
    }

    /// Sets a sender up for the owner of a public key, with a fresh encapsulation (RFC 9180, 5.1,
    /// SetupBaseS and SetupPSKS).
    ///
    /// # Errors
    ///
    /// [`Error::WrongUsage`] where the limit is 0, [`Error::PskPair`], [`Error::PskMissing`],
    /// [`Error::NoMemory`] and [`Error::NoRandom`].
    ///
    /// ```
    /// use hpkebatch::{Kem, Parameters, SecretKey, Sender};
    ///
    /// let bob = SecretKey::generate(Kem::Sntrup761)?.public_key();
    /// let sender = Sender::new(&bob, &Parameters::new(b"order 7"))?;
    /// assert_eq!(sender.enc().len(), 1039); // send it ahead
    /// # Ok::<(), hpkebatch::Error>(())
    /// ```
    pub fn new(to: &PublicKey, parameters: &Parameters<'_>) -> Result<Self, Error> {
        Self::of_seed(to, &RandomSeed::new()?.as_seed(), parameters)
    }

    pub(crate) fn of_seed(
        to: &PublicKey,
        seed: &Seed<'_>,
        parameters: &Parameters<'_>,
    ) -> Result<Self, Error> {
        let mut sender = Self::empty(to.kem().enc_size());
        let Self { context, enc, .. } = &mut sender;
        context.set_up_sender(to, enc, seed, parameters)?;
        Ok(sender)
    }

    /// Sets a sender up for a shared secret that another KEM gave, whose id is `kem` (RFC 9180,
    /// 5.1, KeySchedule). Use a shared secret for one sender, and once.
    ///
    /// # Errors
    ///
    /// [`Error::WrongUsage`] where the limit is 0, [`Error::PskPair`] and [`Error::PskMissing`].
    ///
    /// ```
    /// use hpkebatch::{Parameters, Recipient, Sender};
    ///
    /// let (x25519, shared_secret) = (0x20, [7; 32]); // both ends have it from that KEM
    /// let mut sender = Sender::from_shared_secret(x25519, &shared_secret, &Parameters::new(b""))?;
    /// let mut recipient =
    ///     Recipient::from_shared_secret(x25519, &shared_secret, &Parameters::new(b""))?;
    ///
    /// let mut sealed = [0; 16 + hpkebatch::TAG_SIZE];
    /// sender.seal(b"", b"Meet me at noon.", &mut sealed)?;
    /// let mut text = [0; 16];
    /// recipient.open(b"", &sealed, &mut text)?;
    /// assert_eq!(&text, b"Meet me at noon.");
    /// # Ok::<(), hpkebatch::Error>(())
    /// ```
    pub fn from_shared_secret(
        kem: u16,
        shared_secret: &[u8],
        parameters: &Parameters<'_>,
    ) -> Result<Self, Error> {
        let mut sender = Self::empty(0);
        let context = &mut sender.context;
        context.set_up_shared(HPKEBATCH_SENDER, kem, shared_secret, parameters)?;
        Ok(sender)
    }

    /// The encapsulation, from which the recipient makes its own context. It isn't secret. A sender
    /// of a shared secret has none.
    ///
    /// ```
    /// use hpkebatch::{Kem, Parameters, Recipient, SecretKey, Sender};
    ///
    /// let key = SecretKey::generate(Kem::Sntrup761)?;
    /// let sender = Sender::new(&key.public_key(), &Parameters::new(b""))?;
    /// let recipient = Recipient::new(&key, sender.enc(), &Parameters::new(b""))?;
    /// # Ok::<(), hpkebatch::Error>(())
    /// ```
    #[must_use]
    pub fn enc(&self) -> &[u8] {
        &self.enc[..self.enc_size]
    }

    /// Seals a text at the next number (RFC 9180, 5.2, ContextS.Seal): fills `out` with the
    /// ciphertext and its tag. `out` has [`TAG_SIZE`](crate::TAG_SIZE) bytes more than the text.
    ///
    /// `aad` isn't sent: the recipient opens with the same.
    ///
    /// # Errors
    ///
    /// - [`Error::WrongUsage`]: `out` has another size, or the text more than 2^36 − 32 bytes.
    /// - [`Error::NoCipher`], [`Error::Limit`]: the context doesn't seal, or doesn't seal any more.
    ///
    /// ```
    /// use hpkebatch::{Error, Kem, Parameters, SecretKey, Sender, TAG_SIZE};
    ///
    /// let bob = SecretKey::generate(Kem::Sntrup761)?.public_key();
    /// let mut sender = Sender::new(&bob, &Parameters { limit: 1, ..Parameters::new(b"") })?;
    /// let mut out = [0; 5 + TAG_SIZE];
    /// sender.seal(b"aad", b"hello", &mut out)?;
    /// assert_eq!(sender.seal(b"aad", b"hello", &mut out), Err(Error::Limit));
    /// # Ok::<(), hpkebatch::Error>(())
    /// ```
    pub fn seal(&mut self, aad: &[u8], text: &[u8], out: &mut [u8]) -> Result<(), Error> {
        self.context.seal(aad, text, out)
    }

    /// [`Sender::seal`] into a new `Vec`.
    ///
    /// # Errors
    ///
    /// Those of [`Sender::seal`], and [`Error::NoMemory`].
    ///
    /// ```
    /// use hpkebatch::{Kem, Parameters, SecretKey, Sender};
    ///
    /// let bob = SecretKey::generate(Kem::Sntrup761)?.public_key();
    /// let mut sender = Sender::new(&bob, &Parameters::new(b""))?;
    /// assert_eq!(sender.seal_to_vec(b"", b"hello")?.len(), 5 + hpkebatch::TAG_SIZE);
    /// # Ok::<(), hpkebatch::Error>(())
    /// ```
    #[cfg(feature = "alloc")]
    pub fn seal_to_vec(&mut self, aad: &[u8], text: &[u8]) -> Result<Vec<u8>, Error> {
        let mut out = zeros(text.len() + TAG_SIZE)?;
        self.seal(aad, text, &mut out)?;
        Ok(out)
    }

    /// Seals at the next number, as [`Sender::seal`], in place: the text is `buffer` without its
    /// last [`TAG_SIZE`](crate::TAG_SIZE) bytes, and these get the tag.
    ///
    /// # Errors
    ///
    /// - [`Error::WrongUsage`]: `buffer` has no room for a tag, or more than 2^36 − 16 bytes.
    /// - [`Error::NoCipher`], [`Error::Limit`]: as with [`Sender::seal`].
    ///
    /// ```
    /// use hpkebatch::{Kem, Parameters, SecretKey, Sender, TAG_SIZE};
    ///
    /// let bob = SecretKey::generate(Kem::Sntrup761)?.public_key();
    /// let mut sender = Sender::new(&bob, &Parameters::new(b""))?;
    /// let mut buffer = [0; 5 + TAG_SIZE];
    /// buffer[..5].copy_from_slice(b"hello");
    /// sender.seal_in_place(b"", &mut buffer)?;
    /// assert_ne!(&buffer[..5], b"hello");
    /// # Ok::<(), hpkebatch::Error>(())
    /// ```
    pub fn seal_in_place(&mut self, aad: &[u8], buffer: &mut [u8]) -> Result<(), Error> {
        self.context.seal_in_place(aad, buffer)
    }

    /// Fills `out` with a secret that the recipient exports too (RFC 9180, 5.3, Context.Export).
    ///
    /// # Errors
    ///
    /// [`Error::ExportSize`]: `out` has more than 255 times the bytes of the KDF's hash.
    ///
    /// ```
    /// use hpkebatch::{Kem, Parameters, SecretKey, Sender};
    ///
    /// let bob = SecretKey::generate(Kem::Sntrup761)?.public_key();
    /// let sender = Sender::new(&bob, &Parameters::new(b""))?;
    /// let mut key = [0; 32];
    /// sender.export(b"channel", &mut key)?;
    /// # Ok::<(), hpkebatch::Error>(())
    /// ```
    pub fn export(&self, exporter_context: &[u8], out: &mut [u8]) -> Result<(), Error> {
        self.context.export(exporter_context, out)
    }

    /// The number of the next message: so many were sealed.
    ///
    /// ```
    /// use hpkebatch::{Kem, Parameters, SecretKey, Sender};
    ///
    /// let bob = SecretKey::generate(Kem::Sntrup761)?.public_key();
    /// let mut sender = Sender::new(&bob, &Parameters::new(b""))?;
    /// sender.seal(b"", b"", &mut [0; 16])?;
    /// assert_eq!(sender.number(), 1);
    /// # Ok::<(), hpkebatch::Error>(())
    /// ```
    #[must_use]
    pub const fn number(&self) -> u64 {
        self.context.number()
    }
}

/// With its number, and none of its keys.
impl fmt::Debug for Sender {
    fn fmt(&self, out: &mut fmt::Formatter<'_>) -> fmt::Result {
        let mut sender = out.debug_struct("Sender");
        sender
            .field("number", &self.number())
            .finish_non_exhaustive()
    }
}

/// The end that opens. Messages open in the order in which they were sealed.
///
/// Dropped, its keys are zeroed. As with a [`Sender`], one thread at a time has it, and none gets a
/// copy:
///
/// ```compile_fail,E0599
/// use hpkebatch::{Parameters, Recipient};
///
/// let recipient = Recipient::from_shared_secret(0x20, &[7; 32], &Parameters::new(b"")).unwrap();
/// let copy = recipient.clone();
/// ```
///
/// ```compile_fail,E0277
/// use hpkebatch::{Parameters, Recipient};
///
/// let recipient = Recipient::from_shared_secret(0x20, &[7; 32], &Parameters::new(b"")).unwrap();
/// std::thread::scope(|scope| {
///     scope.spawn(|| recipient.export(b"", &mut [0; 32]));
/// });
/// ```
///
/// It has no call to seal with:
///
/// ```compile_fail,E0599
/// use hpkebatch::{Parameters, Recipient};
///
/// let mut recipient =
///     Recipient::from_shared_secret(0x20, &[7; 32], &Parameters::new(b"")).unwrap();
/// recipient.seal(b"", b"", &mut [0; 16]);
/// ```
pub struct Recipient {
    context: Context,
}

impl Recipient {
    const fn empty() -> Self {
        Self {
            context: Context::empty(),
        }
    }

    /// Sets a recipient up from a sender's encapsulation (RFC 9180, 5.1, SetupBaseR and SetupPSKR).
    ///
    /// If `enc` was changed, the context is another, and each opening answers [`Error::Failed`].
    ///
    /// # Errors
    ///
    /// - [`Error::WrongUsage`]: `enc` has another size than [`Kem::enc_size`](crate::Kem::enc_size),
    ///   or the limit is 0.
    /// - [`Error::Form`]: the key's bytes encode none.
    /// - [`Error::PskPair`], [`Error::PskMissing`] and [`Error::NoMemory`].
    ///
    /// ```
    /// use hpkebatch::{Kem, Parameters, Recipient, SecretKey, Sender};
    ///
    /// let key = SecretKey::generate(Kem::Sntrup761)?;
    /// let parameters = Parameters::new(b"order 7");
    /// let sender = Sender::new(&key.public_key(), &parameters)?;
    /// let recipient = Recipient::new(&key, sender.enc(), &parameters)?;
    /// assert_eq!(recipient.number(), 0);
    /// # Ok::<(), hpkebatch::Error>(())
    /// ```
    pub fn new(key: &SecretKey, enc: &[u8], parameters: &Parameters<'_>) -> Result<Self, Error> {
        let mut recipient = Self::empty();
        recipient.context.set_up_recipient(key, enc, parameters)?;
        Ok(recipient)
    }

    /// Sets a recipient up for a shared secret that another KEM gave, whose id is `kem` (RFC 9180,
    /// 5.1, KeySchedule). [`Sender::from_shared_secret`] shows both ends.
    ///
    /// # Errors
    ///
    /// Those of [`Sender::from_shared_secret`].
    ///
    /// ```
    /// use hpkebatch::{Parameters, Recipient};
    ///
    /// let recipient = Recipient::from_shared_secret(0x20, &[7; 32], &Parameters::new(b""))?;
    /// assert_eq!(recipient.number(), 0);
    /// # Ok::<(), hpkebatch::Error>(())
    /// ```
    pub fn from_shared_secret(
        kem: u16,
        shared_secret: &[u8],
        parameters: &Parameters<'_>,
    ) -> Result<Self, Error> {
        let mut recipient = Self::empty();
        let context = &mut recipient.context;
        context.set_up_shared(HPKEBATCH_RECIPIENT, kem, shared_secret, parameters)?;
        Ok(recipient)
    }

    /// Opens a message at the next number (RFC 9180, 5.2, ContextR.Open): if its tag holds, fills
    /// `out` with the text. `out` has [`TAG_SIZE`](crate::TAG_SIZE) bytes fewer than `ct`.
    ///
    /// # Errors
    ///
    /// - [`Error::Failed`]: the tag doesn't hold, or `ct` has no room for one and `out` is empty. The
    ///   number stays, and `out` too.
    /// - [`Error::WrongUsage`]: `out` has another size.
    /// - [`Error::NoCipher`], [`Error::Limit`]: the context doesn't open, or doesn't open any more.
    ///
    /// ```
    /// use hpkebatch::{Error, Kem, Parameters, Recipient, SecretKey, Sender, TAG_SIZE};
    ///
    /// let key = SecretKey::generate(Kem::Sntrup761)?;
    /// let parameters = Parameters::new(b"order 7");
    /// let mut sender = Sender::new(&key.public_key(), &parameters)?;
    /// let mut sealed = [0; 5 + TAG_SIZE];
    /// sender.seal(b"aad", b"hello", &mut sealed)?;
    ///
    /// let mut recipient = Recipient::new(&key, sender.enc(), &parameters)?;
    /// let mut text = [0; 5];
    /// assert_eq!(recipient.open(b"other", &sealed, &mut text), Err(Error::Failed));
    /// recipient.open(b"aad", &sealed, &mut text)?;
    /// assert_eq!(&text, b"hello");
    /// # Ok::<(), hpkebatch::Error>(())
    /// ```
    pub fn open(&mut self, aad: &[u8], ct: &[u8], out: &mut [u8]) -> Result<(), Error> {
        self.context.open(aad, ct, out)
    }

    /// [`Recipient::open`] into a new `Vec`.
    ///
    /// # Errors
    ///
    /// Those of [`Recipient::open`], and [`Error::NoMemory`].
    ///
    /// ```
    /// use hpkebatch::{Kem, Parameters, Recipient, SecretKey, Sender};
    ///
    /// let key = SecretKey::generate(Kem::Sntrup761)?;
    /// let mut sender = Sender::new(&key.public_key(), &Parameters::new(b""))?;
    /// let sealed = sender.seal_to_vec(b"", b"hello")?;
    /// let mut recipient = Recipient::new(&key, sender.enc(), &Parameters::new(b""))?;
    /// assert_eq!(recipient.open_to_vec(b"", &sealed)?, b"hello");
    /// # Ok::<(), hpkebatch::Error>(())
    /// ```
    #[cfg(feature = "alloc")]
    pub fn open_to_vec(&mut self, aad: &[u8], ct: &[u8]) -> Result<Vec<u8>, Error> {
        let mut out = zeros(ct.len().saturating_sub(TAG_SIZE))?;
        self.open(aad, ct, &mut out)?;
        Ok(out)
    }

    /// Opens at the next number, as [`Recipient::open`], in place: if the tag holds, the text stands
    /// where its ciphertext was, and is given back without the tag behind it.
    ///
    /// # Errors
    ///
    /// - [`Error::Failed`]: the tag doesn't hold, or `buffer` has no room for one. The number stays,
    ///   and `buffer` too.
    /// - [`Error::NoCipher`], [`Error::Limit`]: as with [`Recipient::open`].
    ///
    /// ```
    /// use hpkebatch::{Error, Kem, Parameters, Recipient, SecretKey, Sender};
    ///
    /// let key = SecretKey::generate(Kem::Sntrup761)?;
    /// let mut sender = Sender::new(&key.public_key(), &Parameters::new(b""))?;
    /// let mut buffer = sender.seal_to_vec(b"", b"hello")?;
    /// let mut recipient = Recipient::new(&key, sender.enc(), &Parameters::new(b""))?;
    /// assert_eq!(recipient.open_in_place(b"other", &mut buffer), Err(Error::Failed));
    /// assert_eq!(recipient.open_in_place(b"", &mut buffer)?, b"hello");
    /// # Ok::<(), hpkebatch::Error>(())
    /// ```
    pub fn open_in_place<'a>(
        &mut self,
        aad: &[u8],
        buffer: &'a mut [u8],
    ) -> Result<&'a mut [u8], Error> {
        self.context.open_in_place(aad, buffer)?;
        let text = buffer.len() - TAG_SIZE;
        Ok(&mut buffer[..text])
    }

    /// Fills `out` with a secret that the sender exports too (RFC 9180, 5.3, Context.Export).
    ///
    /// # Errors
    ///
    /// [`Error::ExportSize`]: `out` has more than 255 times the bytes of the KDF's hash.
    ///
    /// ```
    /// use hpkebatch::{Parameters, Recipient, Sender};
    ///
    /// let sender = Sender::from_shared_secret(0x20, &[7; 32], &Parameters::new(b""))?;
    /// let recipient = Recipient::from_shared_secret(0x20, &[7; 32], &Parameters::new(b""))?;
    /// let (mut one, mut other) = ([0; 32], [0; 32]);
    /// sender.export(b"channel", &mut one)?;
    /// recipient.export(b"channel", &mut other)?;
    /// assert_eq!(one, other);
    /// # Ok::<(), hpkebatch::Error>(())
    /// ```
    pub fn export(&self, exporter_context: &[u8], out: &mut [u8]) -> Result<(), Error> {
        self.context.export(exporter_context, out)
    }

    /// The number of the next message: so many were opened.
    ///
    /// ```
    /// use hpkebatch::{Parameters, Recipient};
    ///
    /// let recipient = Recipient::from_shared_secret(0x20, &[7; 32], &Parameters::new(b""))?;
    /// assert_eq!(recipient.number(), 0);
    /// # Ok::<(), hpkebatch::Error>(())
    /// ```
    #[must_use]
    pub const fn number(&self) -> u64 {
        self.context.number()
    }
}

/// With its number, and none of its keys.
impl fmt::Debug for Recipient {
    fn fmt(&self, out: &mut fmt::Formatter<'_>) -> fmt::Result {
        let mut recipient = out.debug_struct("Recipient");
        recipient
            .field("number", &self.number())
            .finish_non_exhaustive()
    }
}

/// So many zero bytes, or [`Error::NoMemory`].
#[cfg(feature = "alloc")]
fn zeros(size: usize) -> Result<Vec<u8>, Error> {
    let mut bytes = Vec::new();
    bytes.try_reserve_exact(size).map_err(|_| Error::NoMemory)?;
    bytes.resize(size, 0);
    Ok(bytes)
}
