//! The static library's calls on a store against the plain engine's: lists of calls on stores
//! of any bytes, with names that meet, some calls spoilt; every length that matters; every
//! number of a board. Answers, the whole store and the whole board are compared. Feature
//! `native`.
//!
//! `RIVER_SEED` is the first seed, `RIVER_STORE_CALLS` how many calls the lists are to have. A
//! list depends on its seed alone, so `RIVER_SEED=n RIVER_STORE_CALLS=1` runs the one that a
//! message names.

mod compare;

use compare::{Ask, Compared, Kind, KINDS};
use river_tests::engine::board::{BOARD, SHORT};
use river_tests::engine::store::{board_at, name_at, Name, NAME_BYTES, NO_NAME, STORE_BYTES};
use river_tests::generate::{any_name, any_numbers, any_store, Rng, NAMES};
use river_tests::seeds::{first_seed, from_environment};

const CALLS: usize = 40_000;

/// Spoils a call, mostly so that it is refused.
type Spoil = fn(&mut Ask, &mut Rng);

const SPOILS: &[(&str, Spoil)] = &[
    ("store too short", |ask, rng| {
        ask.store.truncate(*rng.pick(&[0, 1, 32, STORE_BYTES - 8, STORE_BYTES - 1]))
    }),
    ("store too long", |ask, rng| {
        ask.store.resize(*rng.pick(&[STORE_BYTES + 1, STORE_BYTES + 8, 2 * STORE_BYTES]), 1)
    }),
    ("name too short", |ask, rng| ask.name.truncate(rng.below(NAME_BYTES))),
    ("name too long", |ask, rng| ask.name.resize(*rng.pick(&[9, 10, 16]), 0)),
    ("name of zeros", |ask, _| ask.name.fill(0)),
    ("board too short", |ask, rng| {
        ask.board.truncate(*rng.pick(&[0, 1, SHORT, BOARD - 1, BOARD - 1]))
    }),
    ("board too long", |ask, rng| ask.board.resize(*rng.pick(&[BOARD + 1, 2 * BOARD]), 1)),
];

/// A name that stands in the store, zeros where the entry is empty, or any of all.
fn asked_name(store: &[u8], rng: &mut Rng) -> Vec<u8> {
    let there = store[name_at(rng.below(4))].to_vec();
    if rng.chance(40) {
        there
    } else {
        any_name(rng).to_vec()
    }
}

/// A list on one store, each call on what the one before left of store and board.
fn compare_list(seed: u64, compared: &mut Compared, spoilt: &mut [usize]) {
    let rng = &mut Rng::new(seed);
    let (mut store, mut board) = (any_store(rng), any_numbers(rng));
    for number in 0..*rng.pick(&[10, 30, 60]) {
        let kind = *rng.pick(&[Kind::Save, Kind::Save, Kind::Recall, Kind::Recall, Kind::Drop]);
        if rng.chance(30) {
            board = any_numbers(rng);
        }
        let mut ask = Ask { kind, name: asked_name(&store, rng), store, board };
        let mut at = format!("RIVER_SEED={seed}, call {number}");
        let whole = (ask.store.clone(), ask.board.clone());
        let spoils = if rng.chance(15) { *rng.pick(&[1, 1, 2]) } else { 0 };
        for _ in 0..spoils {
            let which = rng.below(SPOILS.len());
            let (name, spoil) = SPOILS[which];
            spoil(&mut ask, rng);
            at += &format!(", {name}");
            spoilt[which] += 1;
        }
        let answer = compared.compare(&mut ask, &at);
        (store, board) = if spoils == 0 { (ask.store, ask.board) } else { whole };
        assert!(spoils > 0 || [0, 11, 12].contains(&answer.0), "{at}: {answer:?}");
    }
}

#[test]
fn lists_of_store_calls() {
    let calls = from_environment("RIVER_STORE_CALLS").map_or(CALLS, |calls| calls as usize);
    let (mut compared, mut spoilt) = (Compared::default(), [0; SPOILS.len()]);
    let mut seed = first_seed();
    while compared.all() < calls {
        compare_list(seed, &mut compared, &mut spoilt);
        seed += 1;
    }
    compared.print("lists of calls");
    println!("    seeds {} to {}", first_seed(), seed - 1);
    for ((name, _), times) in SPOILS.iter().zip(&spoilt) {
        println!("    {times} calls: {name}");
    }
    // A short run by hand need not meet everything.
    if calls >= CALLS {
        let [saves, recalls, drops] = compared.numbers;
        assert!([0, 6, 11, 12].iter().all(|&number: &usize| saves[number] > 200), "{compared:?}");
        for told in [recalls, drops] {
            assert!([0, 6, 11].iter().all(|&number: &usize| told[number] > 200), "{compared:?}");
        }
        assert!(spoilt.iter().all(|&times| times > 200), "{spoilt:?}");
    }
}

const ASKED: [Name; 3] = [NAMES[0], NAMES[5], NO_NAME];

/// Lengths of store, name and board around the right ones, each with each.
fn lengths() -> Vec<[usize; 3]> {
    let mut all = Vec::new();
    for store in [0, 1, 7, 8, 31, 32, STORE_BYTES - 1, STORE_BYTES, STORE_BYTES + 1] {
        for name in 0..10 {
            for board in [0, 1, BOARD - 1, BOARD, BOARD + 1] {
                all.push([store, name, board]);
            }
        }
    }
    all
}

/// On a full and on an empty store, by a name that is there, one that is not, and zeros: 6 comes
/// before 11 and 12, and a drop looks at no board.
#[test]
fn every_length_that_matters() {
    let mut compared = Compared::default();
    let mut compare = |whole: &[u8], kind: Kind, name: &[u8], lengths: [usize; 3]| {
        let board = vec![5; lengths[2]];
        let mut ask = Ask { kind, store: whole.to_vec(), name: name.to_vec(), board };
        ask.store.resize(lengths[0], 0);
        ask.name.resize(lengths[1], 0);
        let fits = lengths[..2] == [STORE_BYTES, NAME_BYTES]
            && (lengths[2] == BOARD || matches!(kind, Kind::Drop));
        let at = format!("{kind:?}, lengths {lengths:?}");
        let answer = compared.compare(&mut ask, &at);
        assert_eq!(answer.0 != 6, fits, "{at}: {answer:?}");
    };
    for names in [[NAMES[0]; 4], [NO_NAME; 4]] {
        let mut whole = any_store(&mut Rng::new(7));
        whole[..name_at(3).end].copy_from_slice(&names.concat());
        for lengths in lengths() {
            for (kind, name) in KINDS.iter().flat_map(|&kind| ASKED.map(|name| (kind, name))) {
                compare(&whole, kind, &name, lengths);
            }
        }
    }
    compared.print("lengths");
}

/// Each number of each entry's board in turn with one bit set, of 64: nothing else is written,
/// and it is recalled whole.
#[test]
fn every_number_of_every_entry() {
    let mut compared = Compared::default();
    for entry in 0..4 {
        let mut store = vec![0xa5; STORE_BYTES];
        for place in 0..BOARD {
            let name = NAMES[(place + entry) % 4];
            store[name_at(entry)].copy_from_slice(&name);
            let mut board = vec![0; BOARD];
            board[place] = 1 << ((place + 16 * entry) % 64);
            let at = format!("entry {entry}, place {place}");
            let name = name.to_vec();
            let mut ask = Ask { kind: Kind::Save, store, name, board: board.clone() };
            assert_eq!(compared.compare(&mut ask, &at), (0, 0), "{at}");
            (ask.kind, ask.board) = (Kind::Recall, vec![77; BOARD]);
            assert_eq!(compared.compare(&mut ask, &at), (0, 0), "{at}");
            assert!(ask.board == board, "{at}");
            store = ask.store;
            let others =
                [&store[name_at(3).end..board_at(entry).start], &store[board_at(entry).end..]];
            assert!(others.concat().iter().all(|&byte| byte == 0xa5), "{at}");
        }
    }
    compared.print("every number of every entry");
}
