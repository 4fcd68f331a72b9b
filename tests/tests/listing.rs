//! The listing against the tally, for the Provo River sample and random rivers.

use river_tests::examples::months_bytes;
use river_tests::generate::{any_river, Rng};
use river_tests::listing::listing;
use river_tests::retold::assert_listing;

const PROVO: &[u8] = include_bytes!("../../samples/provo.basin.bin");
const PROVO_MONTHS: &[u8] = include_bytes!("../../samples/provo.months.bin");

#[test]
fn provo_runs_twenty_four_months() {
    let text = listing(PROVO, PROVO_MONTHS);
    assert_eq!(text.lines().count(), 1 + 24 * (10 + 1));
    assert_eq!(assert_listing(&text, PROVO, PROVO_MONTHS, &[]), 24);
}

#[test]
fn random_rivers() {
    let (mut months, mut lines) = (0, 0);
    for seed in 0..150 {
        let rng = &mut Rng::new(seed);
        let river = any_river(rng);
        let sheets: Vec<u32> = (0..15).flat_map(|_| river.runoff(rng)).collect();
        let sheets = months_bytes(&sheets);
        let text = listing(&river.file, &sheets);
        months += assert_listing(&text, &river.file, &sheets, &[]);
        lines += text.lines().count();
    }
    assert_eq!(months, 150 * 15);
    println!("{months} months of 150 rivers, {lines} lines of listings");
}
