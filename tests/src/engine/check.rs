//! The rules of the basin file: refusals 1 to 5 (01, The basin file; The path of a row).

mod rights;

use super::network::Network;
use super::records::*;
use super::sections::{find_sections, Sections};
use super::slip::{Slip, Telling};
use super::Answer;

/// Number and place of what is turned down.
#[derive(Clone, Copy, Debug, PartialEq, Eq)]
pub struct Refusal {
    pub number: u64,
    pub place: u64,
}

impl Refusal {
    pub fn answer(self) -> Answer {
        (self.number, self.place)
    }
}

/// An accepted file: its bodies, and the downstream path of every row.
pub struct Judged<'a> {
    pub sections: Sections<'a>,
    pub network: &'a Network,
}

/// Judges a whole file. Of several refusals the lowest number counts, so the bodies
/// are judged in the order of their numbers. The caller lends the room for the
/// network, so that it is never copied.
pub fn judge<'a, T: Telling>(
    telling: &T,
    file: &'a [u8],
    network: &'a mut Network,
) -> Result<Judged<'a>, Refusal> {
    let sections = find_sections(telling, file)?;
    network.fill(telling, sections.stations);
    judge_stations(telling, sections.stations, network)?;
    judge_reservoirs(telling, &sections)?;
    judge_patterns(telling, &sections)?;
    rights::judge_rights(telling, &sections, network)?;
    Ok(Judged { sections, network })
}

/// Refuses with `number` at the first place whose record is at fault.
#[inline(always)]
fn refuse_first<T: Telling>(
    telling: &T,
    number: u64,
    places: usize,
    mut at_fault: impl FnMut(usize) -> bool,
) -> Result<(), Refusal> {
    let mut last = None;
    for place in 0..places {
        if at_fault(place) {
            let refusal = Refusal { number, place: place as u64 };
            if !telling.slips(Slip::LastAtFault) {
                return Err(refusal);
            }
            last = Some(refusal);
        }
    }
    last.map_or(Ok(()), Err)
}

// ---- 2: stations ----

fn judge_stations<T: Telling>(
    telling: &T,
    stations: &[[u8; STATION_BYTES]],
    network: &Network,
) -> Result<(), Refusal> {
    let last = stations.len() - 1;
    let mut number_before = 0;
    refuse_first(telling, 2, stations.len(), |row| {
        let station = Station::decode(&stations[row]);
        let number_after = stations.get(row + 1).map_or(u32::MAX, |s| u32_at(s, 0));
        let out_of_order = if telling.slips(Slip::EarlierNeighbourAtFault) {
            station.number >= number_after
        } else if telling.slips(Slip::EqualStationNumbers) {
            station.number < number_before
        } else {
            // Of two neighbours out of order the later is at fault.
            station.number <= number_before
        };
        number_before = station.number;
        out_of_order
            || station_at_fault(telling, &station)
            || if row == last {
                last_row_at_fault(telling, &station)
            } else {
                // Every other row flows into a later one.
                !network.has_row_below(row) && !telling.slips(Slip::FindsNoneAccepted)
            }
    })
}

/// A number of six digits at most, not 0; an order from 1 to 8; zeros in what is left.
fn station_at_fault<T: Telling>(telling: &T, station: &Station) -> bool {
    let highest_order = 8 + telling.slips(Slip::OrderNineAccepted) as u8;
    !(1..=999_999).contains(&station.number)
        || !(1..=highest_order).contains(&station.order)
        || (station.zeros != [0; 3] && !telling.slips(Slip::StationZerosNotTested))
}

/// The last row has no row below; it is on the main river.
fn last_row_at_fault<T: Telling>(telling: &T, station: &Station) -> bool {
    station.order != 1 && !telling.slips(Slip::LastOrderNotTested)
}

// ---- 3: reservoirs ----

fn judge_reservoirs<T: Telling>(telling: &T, sections: &Sections) -> Result<(), Refusal> {
    let rows = sections.stations.len();
    refuse_first(telling, 3, sections.reservoirs.len(), |place| {
        let reservoir = Reservoir::decode(&sections.reservoirs[place]);
        reservoir.row as usize >= rows
            || (reservoir.zeros != [0; 3] && !telling.slips(Slip::ReservoirZerosNotTested))
            || capacity_at_fault(telling, &reservoir)
            || table_at_fault(telling, &reservoir)
            // Ten feet in a month at most.
            || (any_above(&reservoir.depths, 1000)
                && !telling.slips(Slip::DepthLimitNotTested))
    })
}

/// A reservoir holds something, within a limit, and at the start no more than it can.
fn capacity_at_fault<T: Telling>(telling: &T, reservoir: &Reservoir) -> bool {
    let least = 1 - telling.slips(Slip::CapacityZeroAccepted) as u32;
    !(least..=2_000_000_000).contains(&reservoir.capacity)
        || reservoir.start > reservoir.capacity
        || (telling.slips(Slip::StartBelowCapacity) && reservoir.start == reservoir.capacity)
}

/// The table begins with an empty reservoir and goes up. Nothing ties its storages to
/// the capacity; areas have a limit and need not rise.
fn table_at_fault<T: Telling>(telling: &T, reservoir: &Reservoir) -> bool {
    let pairs = &reservoir.area_capacity;
    let area_limit = 1_000_000 - telling.slips(Slip::AreaLimitTight) as u32;
    let falls = |a: Pair, b: Pair| {
        b.storage < a.storage
            || (b.storage == a.storage && !telling.slips(Slip::TableMayStand))
            || (telling.slips(Slip::AreasMustRise) && b.area < a.area)
    };
    (pairs[0].storage != 0 && !telling.slips(Slip::TableFromAnywhere))
        || falls(pairs[0], pairs[1])
        || falls(pairs[1], pairs[2])
        || falls(pairs[2], pairs[3])
        || pairs.iter().any(|pair| pair.area > area_limit)
        || (telling.slips(Slip::TableWithinCapacity) && pairs[3].storage > reservoir.capacity)
}

// ---- 4: patterns ----

/// No more comes back than is returned, and all of it may go deep (02, No. 5).
fn judge_patterns<T: Telling>(telling: &T, sections: &Sections) -> Result<(), Refusal> {
    refuse_first(telling, 4, sections.patterns.len(), |place| {
        let mut sum: u32 = sections.patterns[place].iter().map(|&p| p as u32).sum();
        if telling.slips(Slip::PatternSumModulo) {
            sum &= 255;
        }
        (sum > 100 && !telling.slips(Slip::PatternSumNotTested))
            || (sum < 100 && telling.slips(Slip::PatternBelow100Refused))
            || (sum == 0 && telling.slips(Slip::PatternOfZerosRefused))
    })
}

/// Whether a number is above the limit. All are looked at, as valid files are the
/// usual ones and a loop without a way out is the faster.
#[inline(always)]
fn any_above<N: Copy + PartialOrd>(numbers: &[N], limit: N) -> bool {
    numbers.iter().fold(false, |above, &number| above | (number > limit))
}
