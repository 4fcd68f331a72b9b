//! What the damages are made of: a place chosen at random, and a change of its record.

use crate::engine::records::*;
use crate::examples::{pattern, stations};
use crate::generate::Rng;

/// Changes a valid basin and tells the place at fault; `None` if the basin has
/// nothing that could be damaged this way.
pub type Edit = fn(&mut Basin, &mut Rng) -> Option<usize>;

pub fn only_stations(basin: &mut Basin, list: &[(u32, u8)], place: usize) -> Option<usize> {
    *basin = Basin { stations: stations(list), ..Basin::default() };
    Some(place)
}

/// A place after the first, if there is one.
pub fn later_place(rng: &mut Rng, count: usize) -> Option<usize> {
    (count > 1).then(|| rng.below(count - 1) + 1)
}

pub fn any_place(rng: &mut Rng, count: usize) -> Option<usize> {
    (count > 0).then(|| rng.below(count))
}

pub fn edit_reservoir(
    basin: &mut Basin,
    rng: &mut Rng,
    edit: impl Fn(&mut Reservoir),
) -> Option<usize> {
    let place = any_place(rng, basin.reservoirs.len())?;
    edit(&mut basin.reservoirs[place]);
    Some(place)
}

pub fn edit_pattern(basin: &mut Basin, rng: &mut Rng, percents: &[u8]) -> Option<usize> {
    let place = any_place(rng, basin.patterns.len())?;
    basin.patterns[place] = pattern(percents);
    Some(place)
}

/// Edits one of the rights that fit.
pub fn edit_right(
    basin: &mut Basin,
    rng: &mut Rng,
    fits: impl Fn(&Right) -> bool,
    edit: impl FnOnce(&mut Right),
) -> Option<usize> {
    let fitting: Vec<usize> =
        (0..basin.rights.len()).filter(|&place| fits(&basin.rights[place])).collect();
    let place = fitting[any_place(rng, fitting.len())?];
    edit(&mut basin.rights[place]);
    Some(place)
}

pub fn any(_: &Right) -> bool {
    true
}

pub fn diverts(right: &Right) -> bool {
    right.kind == DIRECT || right.kind == PROJECT
}

pub fn without_points(right: &Right) -> bool {
    diverts(right) && right.points == 0
}

pub fn with_points(right: &Right) -> bool {
    diverts(right) && (1..=4).contains(&right.points)
}

pub fn of_kind(kind: u8) -> impl Fn(&Right) -> bool {
    move |right| right.kind == kind
}

/// A place whose right and the one before it fit.
pub fn after_a_right(
    basin: &Basin,
    rng: &mut Rng,
    fits: impl Fn(&Right, &Right) -> bool,
) -> Option<usize> {
    let rights = &basin.rights;
    let fitting: Vec<usize> =
        (1..rights.len()).filter(|&place| fits(&rights[place - 1], &rights[place])).collect();
    Some(fitting[any_place(rng, fitting.len())?])
}

/// The last right that has a date.
pub fn last_dated(basin: &Basin) -> Option<usize> {
    basin.rights.iter().rposition(|right| right.date != UNDATED)
}

/// Percents for return points at the right's own row.
pub fn points(right: &mut Right, percents: &[u8]) {
    right.points = percents.len() as u8;
    for place in 0..4 {
        right.returns[place] = match percents.get(place) {
            Some(&percent) => ReturnPoint { row: right.row, percent },
            None => ReturnPoint { row: 0, percent: 0 },
        };
    }
}
