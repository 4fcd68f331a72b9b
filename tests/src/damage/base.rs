//! A basin to damage.

use crate::engine::records::*;
use crate::examples::{direct, instream, pattern, project, reservoir, stations, storage};

/// A basin that has everything an [`super::Edit`] may look for.
pub fn rich_base() -> Basin {
    // 10 and 20 join at 30, that at 40; 50 joins at 60.
    let orders = [(10, 2), (20, 3), (30, 2), (40, 1), (50, 2), (60, 1), (70, 1)];
    let table = [(0, 1), (1000, 20), (2000, 30), (3000, 40)];
    let mut lakes = vec![
        reservoir(2, 4000, 1000, table),
        reservoir(0, 500, 500, table),
        reservoir(4, 900, 0, table),
    ];
    lakes[0].depths = [3; MONTHS];
    Basin {
        stations: stations(&orders),
        reservoirs: lakes,
        patterns: vec![pattern(&[100]), pattern(&[50, 30, 20]), pattern(&[0, 0, 60, 40])],
        rights: vec![
            direct(5, 18700101, 3, 100),
            direct(6, 18700101, 3, 200).returning(50, 1, &[(4, 60), (6, 40)]),
            instream(7, 18800101, 5, 50),
            storage(8, 18900101, 2, 0, 300, 3000),
            project(9, 18950101, 5, 0, 400),
            project(4, 19000101, 6, 1, 400).returning(0, 2, &[(6, 25), (6, 25), (6, 25), (6, 25)]),
            storage(10, 19100101, 0, 1, 300, 100),
            direct(11, 19200101, 1, 80).returning(33, 0, &[(1, 100)]),
            direct(12, UNDATED, 2, 80).returning(90, 1, &[(3, 1), (3, 2), (6, 97)]),
            instream(13, UNDATED, 0, 5),
            direct(14, UNDATED, 6, 5),
        ],
    }
}
