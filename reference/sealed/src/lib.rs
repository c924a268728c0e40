//! A side down to its bytes, written from docs/PROTOCOL.md and the standards that it names, and from nothing else.
#![forbid(unsafe_code)]

pub mod chacha20;
pub mod chains;
mod fields;
pub mod hkdf;
pub mod hmac;
pub mod keybox;
pub mod message;
pub mod numbers;
pub mod page;
pub mod sealing;
pub mod secrets;
pub mod sha256;
pub mod side;

#[cfg(test)]
mod hex;
