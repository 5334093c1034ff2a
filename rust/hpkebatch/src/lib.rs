#![cfg_attr(feature = "alloc", doc = include_str!("../README.md"))]
#![cfg_attr(
    not(feature = "alloc"),
    doc = "HPKE (RFC 9180) over Streamlined NTRU Prime."
)]
#![no_std]
#![deny(unsafe_code)]

#[cfg(feature = "alloc")]
extern crate alloc;

mod contexts;
mod error;
pub mod for_tests;
mod keys;
mod library;
mod suites;

pub use contexts::{Recipient, Sender};
pub use error::Error;
pub use keys::{PublicKey, SecretKey};
pub use suites::{Aead, Kdf, Kem, Parameters, Psk, TAG_SIZE};
