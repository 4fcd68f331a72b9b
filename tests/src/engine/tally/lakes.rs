//! The area of a lake at a storage.

use crate::engine::records::Pair;

/// Read off the line between the two pairs around the storage, or the last area.
pub fn area(area_capacity: &[Pair; 4], storage: i128) -> i128 {
    for pairs in area_capacity.windows(2) {
        let [low_storage, high_storage] = [pairs[0].storage as i128, pairs[1].storage as i128];
        let [low_area, high_area] = [pairs[0].area as i128, pairs[1].area as i128];
        if storage < high_storage {
            let up = storage - low_storage;
            let way = high_storage - low_storage;
            return if low_area < high_area {
                low_area + (high_area - low_area) * up / way
            } else {
                low_area - (low_area - high_area) * up / way
            };
        }
    }
    area_capacity[3].area as i128
}
