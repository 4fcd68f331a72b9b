//! A listing read line by line against the tally, which shares nothing of the month
//! with the engine that the listing comes from.

use crate::engine::records::{u32_at, Right, RIGHT_BYTES};
use crate::engine::tally::{PastMonth, Tally};

/// Asserts that a text is the listing of two files: the header, the lines of every
/// month that the tally accepts and, after them, these lines. Answers how many
/// months there were.
pub fn assert_listing(text: &str, basin: &[u8], months: &[u8], ending: &[&str]) -> usize {
    assert!(text.ends_with('\n') && !text.contains("\n\n"));
    let mut lines = text.lines();
    assert_eq!(lines.next(), Some("MONTH PERMIT RIVER STORE WHY AT"));
    let mut tally = Tally::new(basin);
    let mut listed = 0;
    if accepted(&mut tally) {
        for part in months.chunks(4 * u32_at(basin, 4) as usize) {
            let runoff: Vec<u32> =
                part.as_chunks().0.iter().map(|&n| u32::from_le_bytes(n)).collect();
            if part.len() % 4 != 0 || tally.call(&runoff, 5000).0 != 0 {
                break;
            }
            assert_month(&mut lines, listed, basin, &tally);
            listed += 1;
        }
    }
    assert_eq!(lines.collect::<Vec<_>>(), ending);
    listed
}

/// Whether the file is accepted: of a call without lists a sound file is the one
/// that leaves the lists to complain of.
fn accepted(tally: &mut Tally) -> bool {
    tally.call(&[], 0) == (6, 0)
}

/// The lines of one month.
fn assert_month<'a>(
    lines: &mut impl Iterator<Item = &'a str>,
    number: usize,
    basin: &[u8],
    tally: &Tally,
) {
    let past: &PastMonth = tally.months.last().unwrap();
    let rights = basin[u32_at(basin, 24) as usize..].as_chunks::<RIGHT_BYTES>().0;
    for (record, grant) in rights.iter().zip(&past.grants) {
        let (permit, why) = (Right::decode(record).permit, grant.reason.number());
        let (river, store) = (grant.from_river, grant.from_storage);
        let line = format!("{number} {permit} {river} {store} {why} {}", grant.station);
        assert_eq!(lines.next(), Some(&line[..]));
    }
    let outflow = past.flow.last().unwrap();
    let evaporation: i128 = past.evaporation.iter().sum();
    let storage: i128 = tally.storages.iter().sum();
    let pending: i128 = tally.pending_returns().iter().flatten().sum();
    let end = format!("{number} end {outflow} {evaporation} {storage} {pending}");
    assert_eq!(lines.next(), Some(&end[..]));
}
