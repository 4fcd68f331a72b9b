//! The rules of the rights: refusal 5 (01, The basin file).

use super::{any_above, refuse_first, Refusal};
use crate::engine::network::Network;
use crate::engine::records::*;
use crate::engine::sections::Sections;
use crate::engine::slip::{Slip, Telling};

pub fn judge_rights<T: Telling>(
    telling: &T,
    sections: &Sections,
    network: &Network,
) -> Result<(), Refusal> {
    let mut key_before = None;
    refuse_first(telling, 5, sections.rights.len(), |place| {
        let right = Right::decode(&sections.rights[place]);
        let key = order_key(telling, &right);
        let out_of_order = key_before.is_some_and(|before| {
            key < before || (key == before && !telling.slips(Slip::EqualRightsAccepted))
        });
        key_before = Some(key);
        out_of_order
            || permit_or_date_at_fault(telling, &right)
            || kind_at_fault(telling, &right, sections, network)
            || returns_at_fault(telling, &right, sections, network)
            || amounts_at_fault(telling, &right)
    })
}

/// What rights are sorted by: the date, and permits among equal dates. The date of
/// undated rights is above every other, so the number alone puts them last.
fn order_key<T: Telling>(telling: &T, right: &Right) -> (u32, u32) {
    if telling.slips(Slip::PermitsUnique) {
        return (right.permit, 0);
    }
    if telling.slips(Slip::UndatedFirst) && right.date == UNDATED {
        return (0, right.permit);
    }
    (right.date, right.permit)
}

/// A permit has nine digits at most. A date lies between two numbers, whether or not
/// there is such a day, or is that of undated rights.
fn permit_or_date_at_fault<T: Telling>(telling: &T, right: &Right) -> bool {
    let latest = if telling.slips(Slip::DateAboveRange) { UNDATED } else { 20_991_231 };
    let dated = (18_000_101..=latest).contains(&right.date)
        && (a_calendar_day(right.date) || !telling.slips(Slip::DateAsCalendar));
    !(1..=999_999_999).contains(&right.permit) || !(dated || right.date == UNDATED)
}

/// Only for the slip: the rules compare dates as numbers and know no calendar.
fn a_calendar_day(date: u32) -> bool {
    (1..=12).contains(&(date / 100 % 100)) && (1..=31).contains(&(date % 100))
}

/// Row, reservoir and yearly limit of each kind.
fn kind_at_fault<T: Telling>(
    telling: &T,
    right: &Right,
    sections: &Sections,
    network: &Network,
) -> bool {
    if right.row as usize >= sections.stations.len() {
        return true;
    }
    let lake_row = sections.reservoirs.get(right.reservoir as usize).map(|r| r[0]);
    let row = right.row as usize;
    let reservoir_fits = match right.kind {
        DIRECT => right.reservoir == NONE,
        INSTREAM => right.reservoir == NONE || telling.slips(Slip::InstreamReservoirNotTested),
        // Water released there flows past the right.
        PROJECT => lake_row.is_some_and(|lake_row| {
            (network.on_path(row, lake_row as usize) || telling.slips(Slip::ProjectOffPath))
                && !(telling.slips(Slip::ProjectBelowLake) && right.row == lake_row)
        }),
        // It stores what flows past its reservoir.
        STORAGE => lake_row.is_some_and(|lake_row| {
            lake_row == right.row || telling.slips(Slip::StorageRowNotCompared)
        }),
        _ => false,
    };
    // Only a storage right has a limit for the year, and it has one.
    let limit_fits = match right.kind {
        STORAGE => (1..=2_000_000_000).contains(&right.limit),
        _ => right.limit == 0 || telling.slips(Slip::LimitForAll),
    };
    !reservoir_fits || !limit_fits
}

/// Efficiency, pattern and return points.
fn returns_at_fault<T: Telling>(
    telling: &T,
    right: &Right,
    sections: &Sections,
    network: &Network,
) -> bool {
    let points = right.points as usize;
    if points > 4 {
        return true;
    }
    // Pairs behind the points in use hold nothing.
    let unused = &right.returns[points..];
    if unused.iter().any(|pair| pair.row != 0 || pair.percent != 0)
        && !telling.slips(Slip::UnusedPairsNotTested)
    {
        return true;
    }
    if right.kind == INSTREAM || right.kind == STORAGE {
        // They divert nothing that could return.
        return right.efficiency != 0 || right.pattern != NONE || points != 0;
    }
    if points == 0 {
        // Nothing returns, so all is consumed and no pattern is named.
        return (right.efficiency != 100
            && !(telling.slips(Slip::NoPointsAnyEfficiency) && right.efficiency < 100))
            || (right.pattern != NONE && !telling.slips(Slip::NoPointsAnyPattern));
    }
    // What is not consumed returns, by one of the patterns of the file.
    (right.efficiency > 100 && !telling.slips(Slip::EfficiencyAbove100))
        || right.pattern as usize >= sections.patterns.len()
        || points_at_fault(telling, right, sections.stations.len(), network)
}

/// A return comes back at no earlier row than the right's, on its path or not; each
/// point takes part of it, and all points together the whole.
fn points_at_fault<T: Telling>(telling: &T, right: &Right, rows: usize, network: &Network) -> bool {
    let mut sum = 0;
    for point in &right.returns[..right.points as usize] {
        let before = point.row < right.row && !telling.slips(Slip::ReturnRowAnywhere);
        let least = 1 - telling.slips(Slip::ReturnPercentZero) as u8;
        if before || point.row as usize >= rows || !(least..=100).contains(&point.percent) {
            return true;
        }
        if telling.slips(Slip::ReturnRowOnPath)
            && !network.on_path(point.row as usize, right.row as usize)
        {
            return true;
        }
        sum += point.percent as u32;
    }
    if telling.slips(Slip::ReturnSumModulo) {
        sum &= 255;
    }
    sum != 100
}

/// The months word has no bit beyond the twelve months; amounts have a limit.
fn amounts_at_fault<T: Telling>(telling: &T, right: &Right) -> bool {
    let asked = if telling.slips(Slip::AmountLimitFirstOnly) { 1 } else { MONTHS };
    (right.months >> 12 != 0 && !telling.slips(Slip::MonthBitsNotTested))
        || any_above(&right.amounts[..asked], 1_000_000_000)
}
