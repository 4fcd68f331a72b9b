//! What a grant returns, share by share, and what of that goes deep.

use crate::engine::records::*;

/// All shares returned by a grant: return row, months after the grant, amount.
pub fn shares(basin: &Basin, right: &Right, grant: i128) -> Vec<(usize, usize, i128)> {
    let mut all = Vec::new();
    for (row, part) in parts(right, grant) {
        let by_month = split(part, &basin.patterns[right.pattern as usize]);
        for (lag, share) in by_month.into_iter().enumerate() {
            all.push((row, lag, share));
        }
    }
    all
}

/// What of a grant goes deep: of each point's part what the pattern's percents, all
/// together, leave of it (02, No. 5).
pub fn deep_loss(basin: &Basin, right: &Right, grant: i128) -> i128 {
    let lost = |(_, part): (usize, i128)| {
        let pattern = &basin.patterns[right.pattern as usize];
        let sum: i128 = pattern.iter().map(|&percent| percent as i128).sum();
        part - part * sum / 100
    };
    parts(right, grant).into_iter().map(lost).sum()
}

/// What a grant returns at each point: its row and its part. Kinds 3 and 4 return nothing.
fn parts(right: &Right, grant: i128) -> Vec<(usize, i128)> {
    if right.kind != DIRECT && right.kind != PROJECT {
        return Vec::new();
    }
    let returned = grant - grant * right.efficiency as i128 / 100;
    let points = &right.returns[..right.points as usize];
    let percents: Vec<u8> = points.iter().map(|point| point.percent).collect();
    points.iter().map(|point| point.row as usize).zip(split(returned, &percents)).collect()
}

/// A share is what it adds to the part that is due by the percents up to it, rounded
/// down.
pub fn split(amount: i128, percents: &[u8]) -> Vec<i128> {
    let up_to = |count: usize| {
        let sum: i128 = percents[..count].iter().map(|&p| p as i128).sum();
        amount * sum / 100
    };
    (0..percents.len()).map(|place| up_to(place + 1) - up_to(place)).collect()
}
