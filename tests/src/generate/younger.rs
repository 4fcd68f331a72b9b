//! Rights that come after those of a basin in its list, or in their place.

use super::bodies::right_of_kind;
use super::Rng;
use crate::engine::records::*;

const FIRST_DATE: u32 = 18_000_101;
const LAST_DATE: u32 = 20_991_231;
const LAST_PERMIT: u32 = 999_999_999;

/// So many rights of these kinds, in order, all younger than the last of the basin; fewer where
/// that one is undated and its permit leaves no room.
pub fn younger_rights(
    rng: &mut Rng,
    basin: &Basin,
    kinds: &[u8],
    count: usize,
    amount_limit: u32,
) -> Vec<Right> {
    let mut last = basin.rights.last().map_or((FIRST_DATE, 0), |right| (right.date, right.permit));
    let mut rights = Vec::new();
    while rights.len() < count {
        let Some((date, permit)) = next_priority(rng, last) else { break };
        let kind = *rng.pick(kinds);
        rights.push(Right { date, permit, ..right_of_kind(rng, basin, kind, amount_limit) });
        last = (date, permit);
    }
    rights
}

/// A later date and permit, often the very next; none after the last permit of the undated.
fn next_priority(rng: &mut Rng, (date, permit): (u32, u32)) -> Option<(u32, u32)> {
    let permits_left = LAST_PERMIT - permit;
    if permits_left > 0 && (date == UNDATED || rng.chance(40)) {
        let step = *rng.pick(&[1, 1, 30, 1_000_000]);
        return Some((date, permit + rng.between(1, step.min(permits_left as u64)) as u32));
    }
    if date == UNDATED {
        return None;
    }
    let later = date + *rng.pick(&[1, 1, 100, 10_000]);
    let date = if later > LAST_DATE || rng.chance(3) { UNDATED } else { later };
    let permits = *rng.pick(&[5, LAST_PERMIT as u64]);
    Some((date, rng.between(1, permits) as u32))
}

/// The same right with another's schedule and yearly limit.
pub fn with_other_amounts(rng: &mut Rng, basin: &Basin, right: &Right, most: u32) -> Right {
    let Right { months, limit, amounts, .. } = right_of_kind(rng, basin, right.kind, most);
    Right { months, limit, amounts, ..right.clone() }
}

/// The same right with another's row and reservoir, consumption and returns.
pub fn at_another_place(rng: &mut Rng, basin: &Basin, right: &Right) -> Right {
    let &Right { permit, date, months, limit, amounts, .. } = right;
    let other = right_of_kind(rng, basin, right.kind, 1);
    Right { permit, date, months, limit, amounts, ..other }
}
