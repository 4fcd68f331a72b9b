//! A plain telling of the river ledger's rules in ordinary Rust, written from the
//! rules document ("01", see [`engine`]) alone, for comparison with the checked engine.
//!
//! * [`engine`]: check, fresh, month, stock, a right's short months, the years of a book, a store
//!   of named boards; the tally of a list of months.
//! * [`listing`]: what programs `riverrun` and `riveryear` print; [`retold`]: a listing
//!   against the tally.
//! * [`generate`], [`damage`]: valid basins and books, and those that break one rule.
//! * [`calls`], [`run`]: the calls by each engine, for tests worked out by hand.
//! * [`cases`], [`runs`], [`years`], [`plan`]: what programs `rivercheck`, `riverrun`,
//!   `riveryear` and `riverplan` are run on, with what they print.
//! * [`seeds`]: where the long comparisons begin.
//! * `ffi` (feature `native`): the static library's C functions; [`lent`]: lists for them;
//!   `asked` (likewise): short months by both engines.

#[cfg(feature = "native")]
pub mod asked;
pub mod calls;
pub mod cases;
pub mod damage;
pub mod engine;
pub mod examples;
#[cfg(feature = "native")]
pub mod ffi;
pub mod generate;
pub mod lent;
pub mod listing;
pub mod plan;
pub mod retold;
pub mod run;
pub mod runs;
pub mod seeds;
pub mod years;
