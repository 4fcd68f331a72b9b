//! Paths, walked row by row (01, The path of a row).

use crate::engine::records::Station;

/// The row that a row flows into: the next one of its order or of one less.
pub fn row_below(stations: &[Station], row: usize) -> Option<usize> {
    let order = stations[row].order as i32;
    (row + 1..stations.len()).find(|&later| {
        let other = stations[later].order as i32;
        other == order || other == order - 1
    })
}

/// A row and all rows downstream of it.
pub fn path(stations: &[Station], row: usize) -> Vec<usize> {
    let mut rows = vec![row];
    if let Some(below) = row_below(stations, row) {
        rows.extend(path(stations, below));
    }
    rows
}
