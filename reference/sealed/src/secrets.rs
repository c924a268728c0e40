//! The values of 32 bytes that a side works with, each kind a type of its own.

/// The public half of a key.
#[derive(Clone, Copy, Debug, PartialEq, Eq)]
pub struct PublicHalf(pub [u8; 32]);

/// What two keys have in common.
#[derive(Clone, Debug, PartialEq, Eq)]
pub struct JointSecret(pub [u8; 32]);

/// A root; root n goes into link n.
#[derive(Clone, Debug, PartialEq, Eq)]
pub struct RootKey(pub [u8; 32]);

/// The value of a link's chain at a place.
#[derive(Clone, Debug, PartialEq, Eq)]
pub struct ChainKey(pub [u8; 32]);

/// The key of one message.
#[derive(Clone, Debug, PartialEq, Eq)]
pub struct MessageKey(pub [u8; 32]);
