//! Pairs of basins that agree in stations, reservoirs, patterns and their elder rights, with
//! months that both can run: the same board, the same runoff.

use river_tests::damage::POSSIBLE;
use river_tests::engine::board::{BOARD, SHORT, TAKEN};
use river_tests::engine::records::*;
use river_tests::engine::{fresh, month, report};
use river_tests::generate::*;

/// The later rights that a basin gets for those it has. Its elder ones are all that it has yet.
type Change = fn(&mut Rng, &Basin, &[Right]) -> Vec<Right>;

pub const CHANGES: &[(&str, Change)] = &[
    ("later rights dropped", |_, _, _| Vec::new()),
    ("others in their place", |rng, elders, _| {
        let room = MOST_RIGHTS - elders.rights.len();
        let count = if rng.chance(5) { room } else { rng.below(room.min(40) + 1) };
        let most = any_amount(rng);
        younger_rights(rng, elders, kinds_of(elders), count, most)
    }),
    ("more after them, up to 256", |rng, elders, later| {
        let mut all = elders.clone();
        all.rights.extend_from_slice(later);
        let most = any_amount(rng);
        let count = MOST_RIGHTS - all.rights.len();
        [later, &younger_rights(rng, &all, kinds_of(elders), count, most)].concat()
    }),
    ("all of one kind", |rng, elders, later| {
        let kind = *rng.pick(kinds_of(elders));
        let count = later.len().max(rng.below(10)).min(MOST_RIGHTS - elders.rights.len());
        let most = any_amount(rng);
        younger_rights(rng, elders, &[kind], count, most)
    }),
    ("with other amounts, months and limits", |rng, elders, later| {
        let most = any_amount(rng);
        later.iter().map(|right| with_other_amounts(rng, elders, right, most)).collect()
    }),
    ("at other rows, with other returns", |rng, elders, later| {
        later.iter().map(|right| at_another_place(rng, elders, right)).collect()
    }),
    (SAME, |_, _, later| later.to_vec()),
];

/// Here nothing at all may differ.
pub const SAME: &str = "the same list again";

/// Few units, a usual volume, or as much as a right can ask.
pub fn any_amount(rng: &mut Rng) -> u32 {
    *rng.pick(&[25, 5000, 1_000_000_000])
}

/// What the two calls of a month are lent; the reports differ in content, and mostly in length.
pub struct Call {
    pub runoff: Vec<u32>,
    pub board: Vec<u64>,
    pub reports: [Vec<u64>; 2],
}

/// All of it depends on the seed alone.
pub struct Pair {
    pub seed: u64,
    /// Place in [`CHANGES`].
    pub change: usize,
    /// How many rights both have from the first on.
    pub elders: usize,
    pub basins: [Basin; 2],
    pub files: [Vec<u8>; 2],
    /// Whether the first month is run on the fresh board.
    pub fresh: bool,
    pub calls: Vec<Call>,
}

const CALLS: usize = 3;

impl Pair {
    pub fn draw(seed: u64) -> Pair {
        let rng = &mut Rng::new(seed);
        let change = seed as usize % CHANGES.len();
        let river = any_river(rng);
        let elders = any_elders(rng, river.basin.rights.len());
        let mut changed = river.basin.clone();
        let later = changed.rights.split_off(elders);
        let other = (CHANGES[change].1)(rng, &changed, &later);
        changed.rights.extend(other);
        let mut basins = [river.basin.clone(), changed];
        if rng.chance(50) {
            basins.swap(0, 1);
        }
        let files = [basins[0].encode(), basins[1].encode()];
        let fresh = rng.chance(30);
        let mut pair = Pair { seed, change, elders, basins, files, fresh, calls: Vec::new() };
        pair.draw_calls(rng, &river);
        pair
    }

    /// Months that follow each other: each on the board that one of the two basins was left on.
    fn draw_calls(&mut self, rng: &mut Rng, river: &River) {
        let mut board = if self.fresh { fresh_board(river) } else { any_board(rng, river) };
        for _ in 0..CALLS {
            self.make_possible(&mut board);
            let call = self.call(rng, river, &board);
            let which = rng.below(2);
            month(&self.files[which], &call.runoff, &mut board, &mut call.reports[which].clone());
            self.calls.push(call);
        }
    }

    fn call(&self, rng: &mut Rng, river: &River, board: &[u64]) -> Call {
        let reports = self.basins.each_ref().map(|basin| {
            let length = basin.report_length() + *rng.pick(&[0, 0, 1, 2, 50, report::LONGEST]);
            (0..length).map(|_| rng.word()).collect()
        });
        Call { runoff: river.runoff(rng), board: board.to_vec(), reports }
    }

    /// Makes a board of one of them possible for both: of a right nothing is taken that
    /// either limit forbids, and no word stands where either has no right.
    fn make_possible(&self, board: &mut [u64]) {
        for place in 0..MOST_RIGHTS {
            let [one, other] = self.basins.each_ref().map(|basin| basin.rights.get(place));
            let limit = |right: Option<&Right>| right.map_or(0, |right| right.limit as u64);
            let taken = &mut board[TAKEN + place];
            *taken = limit(one).min(limit(other)).min(*taken);
            if one.is_none() || other.is_none() {
                board[SHORT + place] = 0;
            }
        }
    }

    pub fn at(&self) -> String {
        format!(
            "RIVER_SEED={}, {}, {} elder rights",
            self.seed, CHANGES[self.change].0, self.elders
        )
    }
}

/// None, all, or any number between.
fn any_elders(rng: &mut Rng, rights: usize) -> usize {
    match rng.below(6) {
        0 => 0,
        1 => rights,
        _ => rng.below(rights + 1),
    }
}

fn fresh_board(river: &River) -> Vec<u64> {
    let mut board = vec![7; BOARD];
    assert_eq!(fresh(&river.file, &mut board), (0, 0));
    board
}

/// Any possible board, now and then an extreme one.
pub fn any_board(rng: &mut Rng, river: &River) -> Vec<u64> {
    let mut board = river.possible_board(rng);
    if rng.chance(30) {
        let &(_, edit) = rng.pick(POSSIBLE);
        edit(&river.basin, &mut board);
    }
    board
}
