//! An independent model of two sides that talk, written from docs/PROTOCOL.md and from nothing else.
#![forbid(unsafe_code)]

pub mod command;
pub mod layout;
pub mod play;
pub mod programs;
pub mod recipe;
pub mod rule;
pub mod side;
pub mod text;
