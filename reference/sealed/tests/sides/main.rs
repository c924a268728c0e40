//! Sides through all that the library lets be seen: talks, refusals, damage and pages.

mod damage;
mod pages;
mod pair;
mod refusals;
mod talk;
mod worked;
