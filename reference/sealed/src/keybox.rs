//! The key box of a side, as far as the side can see it.

use crate::secrets::{JointSecret, PublicHalf};

/// Draws keys and keeps their secret halves: the one in force and, until a page is written, one beside it.
///
/// The law of two boxes: key a with b's public half gives what key b with a's public half gives.
pub trait KeyBox {
    /// Draws a key beside the one in force and gives its public half; none where there is no further key.
    /// A key that was drawn is never drawn again.
    fn draw(&mut self) -> Option<PublicHalf>;

    /// The joint secret of the box's own key with the public half `own`, and the half `other`;
    /// none where the box has no such key or doesn't take the other half.
    fn joint(&self, own: &PublicHalf, other: &PublicHalf) -> Option<JointSecret>;

    /// A page that names this public half stands: its key is in force, and every other key is forgotten.
    /// The half of no key of its own changes nothing.
    fn keep(&mut self, named: &PublicHalf);
}
