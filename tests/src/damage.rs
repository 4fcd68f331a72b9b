//! Basins, boards, contents and books that break one rule each, with what 01 and 02 say of
//! them; extreme legal values; and random damage without a claim.
//!
//! Expected number and place are written down here from the rules, never asked
//! of an engine. Where an edit breaks a second rule as a matter of course, it
//! breaks it at the same record or at a later one, so the place stands.

use std::sync::LazyLock;

mod amounts;
mod base;
mod boards;
mod books;
mod contents;
mod edits;
mod kinds;
mod legal;
mod patterns;
mod priority;
mod random;
mod reservoirs;
mod returns;
mod stations;

pub use base::rich_base;
pub use boards::{impossible_board, Extreme, IMPOSSIBLE, POSSIBLE};
pub use books::{broken_books, random_book_damage};
pub use contents::not_packed;
pub use edits::Edit;
pub use legal::LEGAL;
pub use random::random_damage;

/// Name, refusal number, and the edit that breaks the rule.
pub type Broken = (&'static str, u64, Edit);

/// The refusal numbers, each with names and edits.
const BY_NUMBER: &[(u64, &[(&str, Edit)])] = &[
    (2, stations::BROKEN),
    (3, reservoirs::BROKEN),
    (4, patterns::BROKEN),
    (5, priority::BROKEN),
    (5, kinds::BROKEN),
    (5, returns::BROKEN),
    (5, amounts::BROKEN),
];

/// Every rule of the records, broken, in the order of the numbers.
pub static BROKEN: LazyLock<Vec<Broken>> = LazyLock::new(|| {
    let numbered = |&(number, edits): &(u64, &'static [(&'static str, Edit)])| {
        edits.iter().map(move |&(name, edit)| (name, number, edit))
    };
    BY_NUMBER.iter().flat_map(numbered).collect()
});
