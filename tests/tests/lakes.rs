//! Lake areas on a straight line (02, No. 1), worked out by hand and asked of every engine.

use river_tests::calls::by_each;
use river_tests::engine::records::Basin;
use river_tests::examples::{reservoir, stations};
use river_tests::run::Run;

/// Areas at storages, as the evaporation of one October of depth 1 shows them; no area may
/// be above its storage.
fn assert_areas(table: [(u32, u32); 4], capacity: u32, areas: &[(u32, u64)]) {
    by_each(|calls| {
        for &(start, area) in areas {
            let mut lake = reservoir(0, capacity, start, table);
            lake.depths[0] = 1;
            let basin =
                Basin { stations: stations(&[(1, 1)]), reservoirs: vec![lake], ..Basin::default() };
            let mut run = Run::of(calls, &basin);
            run.month(&[0]);
            assert_eq!(run.evaporation(), [area], "{table:?} at {start}");
        }
    });
}

/// From 20 acres down to 4. What is floored is the distance from the lower pair's area: at
/// 250 that is 10 x 250 / 300, or 8, where from the upper pair 10 + 1 would be left. The
/// table ends below the capacity.
#[test]
fn areas_that_fall() {
    let table = [(0, 20), (300, 10), (500, 10), (900, 4)];
    let falling = [(100, 17), (200, 14), (250, 12), (299, 11)];
    assert_areas(table, 1000, &falling);
    assert_areas(table, 1000, &[(300, 10), (301, 10), (499, 10), (500, 10)]);
    assert_areas(table, 1000, &[(501, 10), (566, 10), (567, 9), (600, 9), (800, 6), (899, 5)]);
    assert_areas(table, 1000, &[(900, 4), (901, 4), (1000, 4)]);
}

/// Areas 0 and 1,000,000, storages up to 2^32 - 1.
#[test]
fn areas_of_extreme_tables() {
    let full = 2_000_000_000;
    let down_at_last = [(0, 1_000_000), (1, 0), (2, 1_000_000), (u32::MAX, 0)];
    assert_areas(down_at_last, full, &[(1, 0), (full, 534_339), (full - 1, 534_339)]);
    let up_at_first = [(0, 0), (u32::MAX - 2, 1_000_000), (u32::MAX - 1, 0), (u32::MAX, 1)];
    assert_areas(up_at_first, full, &[(4294, 0), (4295, 1), (8590, 2), (full, 465_661)]);
    let flat = [(0, 1), (u32::MAX - 2, 1), (u32::MAX - 1, 0), (u32::MAX, 1_000_000)];
    assert_areas(flat, full, &[(1, 1), (full, 1)]);
    let passed = [(0, 0), (1, 1_000_000), (2, 0), (3, 1_000_000)];
    assert_areas(passed, full, &[(2, 0), (1_000_000, 1_000_000), (full, 1_000_000)]);
}
