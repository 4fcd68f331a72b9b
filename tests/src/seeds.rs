//! Where the long comparisons begin and how long they are, as the environment has it.

use std::env;

/// The first seed, of `RIVER_SEED` or 0.
pub fn first_seed() -> u64 {
    from_environment("RIVER_SEED").unwrap_or(0)
}

pub fn from_environment(name: &str) -> Option<u64> {
    let text = env::var(name).ok()?;
    Some(text.parse().unwrap_or_else(|_| panic!("{name} is not a number: {text}")))
}
