//! Contents that are not packed, and counts out of range: refusal 1.

use crate::engine::records::*;
use crate::examples::{direct, pattern, reservoir, stations};

pub(super) fn put(file: &mut [u8], at: usize, number: u32) {
    file[at..at + 4].copy_from_slice(&number.to_le_bytes());
}

/// Files whose contents are not packed or whose counts are out of range; every
/// one is to be answered 1, 0.
pub fn not_packed(base: &Basin) -> Vec<(String, Vec<u8>)> {
    let file = base.encode();
    let mut all: Vec<(String, Vec<u8>)> = Vec::new();
    for length in 0..CONTENTS_BYTES {
        all.push((format!("cut to {length} bytes"), file[..length].to_vec()));
    }
    all.push(("contents alone".into(), file[..CONTENTS_BYTES].to_vec()));
    all.push(("one byte shorter".into(), file[..file.len() - 1].to_vec()));
    for more in [1, STATION_BYTES, PATTERN_BYTES, RESERVOIR_BYTES, RIGHT_BYTES] {
        let longer = [&file[..], &vec![0; more]].concat();
        all.push((format!("{more} bytes longer"), longer));
    }
    counts_out_of_range(base, &mut all);
    let names = ["stations", "reservoirs", "patterns", "rights"];
    for (entry, name) in names.into_iter().enumerate() {
        wrong_counts(&file, entry, name, &mut all);
        wrong_offsets(&file, entry, name, &mut all);
        all.push((format!("gap before {name}"), with_gap(&file, entry)));
    }
    bodies_out_of_order(base, &mut all);
    all
}

/// One record too many or too few, packed as if the count were allowed.
fn counts_out_of_range(base: &Basin, all: &mut Vec<(String, Vec<u8>)>) {
    let mut add = |name: &str, basin: Basin| all.push((name.into(), basin.encode()));
    add("no station", Basin::default());
    add("no station, the rest there", Basin { stations: Vec::new(), ..base.clone() });
    let list: Vec<_> = (1..=65).map(|n| (n, 1)).collect();
    add("65 stations", Basin { stations: stations(&list), ..Basin::default() });
    let lake = reservoir(0, 10, 0, [(0, 0), (1, 0), (2, 0), (3, 0)]);
    add("9 reservoirs", Basin { reservoirs: vec![lake; 9], ..base.clone() });
    add("17 patterns", Basin { patterns: vec![pattern(&[100]); 17], ..base.clone() });
    let many = |count: u32| (1..=count).map(|permit| direct(permit, UNDATED, 0, 1)).collect();
    add("257 rights", Basin { rights: many(257), ..base.clone() });
    add("512 rights", Basin { rights: many(512), ..base.clone() });
}

fn wrong_counts(file: &[u8], entry: usize, name: &str, all: &mut Vec<(String, Vec<u8>)>) {
    let at = 8 * entry + 4;
    let count = u32_at(file, at);
    // Adding 2^29 or 2^30 leaves count × record length as it was modulo 2^32.
    let wraps = if entry == 0 { 1 << 29 } else { 1 << 30 };
    let wrong = [
        ("one less", count.wrapping_sub(1)),
        ("one more", count + 1),
        ("256 more", count + 256),
        ("65536 more", count + 65536),
        ("2^31 more", count + (1 << 31)),
        ("a body of the same length modulo 2^32", count + wraps),
        ("2^32 - 1", u32::MAX),
    ];
    for (what, number) in wrong {
        let mut file = file.to_vec();
        put(&mut file, at, number);
        all.push((format!("count of {name} {what}"), file));
    }
}

fn wrong_offsets(file: &[u8], entry: usize, name: &str, all: &mut Vec<(String, Vec<u8>)>) {
    let at = 8 * entry;
    let offset = u32_at(file, at);
    let wrong = [
        ("one less", offset - 1),
        ("one more", offset + 1),
        ("0", 0),
        ("a record further", offset + 4),
        ("2^31 more", offset + (1 << 31)),
        ("2^32 - 1", u32::MAX),
    ];
    for (what, number) in wrong {
        let mut file = file.to_vec();
        put(&mut file, at, number);
        all.push((format!("offset of {name} {what}"), file));
    }
}

/// A zero byte before a body, this and the later offsets moved along.
fn with_gap(file: &[u8], entry: usize) -> Vec<u8> {
    let mut file = file.to_vec();
    file.insert(u32_at(&file, 8 * entry) as usize, 0);
    for later in entry..4 {
        let offset = u32_at(&file, 8 * later);
        put(&mut file, 8 * later, offset + 1);
    }
    file
}

/// Reservoirs in front of the stations, patterns behind the rights; every
/// offset tells where the body is.
fn bodies_out_of_order(base: &Basin, all: &mut Vec<(String, Vec<u8>)>) {
    let file = base.encode();
    let start = |entry: usize| u32_at(&file, 8 * entry) as usize;
    let swapped = |first: usize, second: usize, end: usize| {
        let mut moved = file.clone();
        let long = end - start(second);
        moved[start(first)..end].rotate_left(start(second) - start(first));
        put(&mut moved, 8 * second, start(first) as u32);
        put(&mut moved, 8 * first, (start(first) + long) as u32);
        moved
    };
    if !base.reservoirs.is_empty() {
        all.push(("reservoirs before stations".into(), swapped(0, 1, start(2))));
    }
    if !base.patterns.is_empty() && !base.rights.is_empty() {
        all.push(("rights before patterns".into(), swapped(2, 3, file.len())));
    }
}
