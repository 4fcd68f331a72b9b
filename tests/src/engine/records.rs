//! The records of the basin file, read from bytes and written back.
//!
//! Decoding loses nothing and judges nothing: a record that breaks a rule is
//! decoded as it stands, so that the rules can be asked of it afterwards.

use super::report;

/// Length of the table of contents (01, The basin file).
pub const CONTENTS_BYTES: usize = 32;
pub const STATION_BYTES: usize = 8;
pub const RESERVOIR_BYTES: usize = 68;
pub const PATTERN_BYTES: usize = 12;
pub const RIGHT_BYTES: usize = 76;

pub const MOST_STATIONS: usize = 64;
pub const MOST_RESERVOIRS: usize = 8;
pub const MOST_PATTERNS: usize = 16;
pub const MOST_RIGHTS: usize = 256;
pub const MONTHS: usize = 12;
/// Most runoff of a row in a month (01, The board and one month).
pub const MOST_RUNOFF: u32 = 1_000_000_000;

/// A right to divert what the river carries.
pub const DIRECT: u8 = 1;
/// A right to divert that a reservoir makes up for where the river does not do.
pub const PROJECT: u8 = 2;
/// A right to flow left in the river.
pub const INSTREAM: u8 = 3;
/// A right to store.
pub const STORAGE: u8 = 4;

/// The byte that stands for "no reservoir" and for "no pattern".
pub const NONE: u8 = 255;
/// The date of an undated right.
pub const UNDATED: u32 = 99_999_999;

/// One station; its place in the file is its row.
#[derive(Clone, Debug, PartialEq, Eq)]
pub struct Station {
    pub number: u32,
    /// Stream order: 1 is the main river.
    pub order: u8,
    pub zeros: [u8; 3],
}

/// One pair of the area-capacity table.
#[derive(Clone, Copy, Debug, PartialEq, Eq)]
pub struct Pair {
    pub storage: u32,
    pub area: u32,
}

#[derive(Clone, Debug, PartialEq, Eq)]
pub struct Reservoir {
    pub row: u8,
    pub zeros: [u8; 3],
    pub capacity: u32,
    pub start: u32,
    pub area_capacity: [Pair; 4],
    /// Hundredths of a foot evaporated in each month.
    pub depths: [u16; MONTHS],
}

/// A delay pattern: the percents returned 0 to 11 months after diversion.
pub type Pattern = [u8; MONTHS];

/// One return flow station of a right, with its percent of the returned water.
#[derive(Clone, Copy, Debug, PartialEq, Eq)]
pub struct ReturnPoint {
    pub row: u8,
    pub percent: u8,
}

#[derive(Clone, Debug, PartialEq, Eq)]
pub struct Right {
    pub permit: u32,
    /// Priority date, yyyymmdd, compared only as a number.
    pub date: u32,
    pub kind: u8,
    pub row: u8,
    pub reservoir: u8,
    pub efficiency: u8,
    pub pattern: u8,
    /// Number of return points in use.
    pub points: u8,
    /// Bit m is set when month m is in use.
    pub months: u16,
    pub limit: u32,
    /// Diversion schedule.
    pub amounts: [u32; MONTHS],
    pub returns: [ReturnPoint; 4],
}

#[inline(always)]
pub fn u16_at(bytes: &[u8], at: usize) -> u16 {
    u16::from_le_bytes([bytes[at], bytes[at + 1]])
}

#[inline(always)]
pub fn u32_at(bytes: &[u8], at: usize) -> u32 {
    u32::from_le_bytes([bytes[at], bytes[at + 1], bytes[at + 2], bytes[at + 3]])
}

impl Station {
    #[inline(always)]
    pub fn decode(record: &[u8; STATION_BYTES]) -> Station {
        Station {
            number: u32_at(record, 0),
            order: record[4],
            zeros: [record[5], record[6], record[7]],
        }
    }

    pub fn encode(&self, out: &mut Vec<u8>) {
        out.extend(self.number.to_le_bytes());
        out.push(self.order);
        out.extend(self.zeros);
    }
}

impl Reservoir {
    #[inline(always)]
    pub fn decode(record: &[u8; RESERVOIR_BYTES]) -> Reservoir {
        Reservoir {
            row: record[0],
            zeros: [record[1], record[2], record[3]],
            capacity: u32_at(record, 4),
            start: u32_at(record, 8),
            area_capacity: std::array::from_fn(|pair| Pair {
                storage: u32_at(record, 12 + 8 * pair),
                area: u32_at(record, 16 + 8 * pair),
            }),
            depths: std::array::from_fn(|m| u16_at(record, 44 + 2 * m)),
        }
    }

    pub fn encode(&self, out: &mut Vec<u8>) {
        out.push(self.row);
        out.extend(self.zeros);
        out.extend(self.capacity.to_le_bytes());
        out.extend(self.start.to_le_bytes());
        for pair in self.area_capacity {
            out.extend(pair.storage.to_le_bytes());
            out.extend(pair.area.to_le_bytes());
        }
        for depth in self.depths {
            out.extend(depth.to_le_bytes());
        }
    }
}

impl Right {
    #[inline(always)]
    pub fn decode(record: &[u8; RIGHT_BYTES]) -> Right {
        Right {
            permit: u32_at(record, 0),
            date: u32_at(record, 4),
            kind: record[8],
            row: record[9],
            reservoir: record[10],
            efficiency: record[11],
            pattern: record[12],
            points: record[13],
            months: u16_at(record, 14),
            limit: u32_at(record, 16),
            amounts: std::array::from_fn(|m| u32_at(record, 20 + 4 * m)),
            returns: std::array::from_fn(|point| ReturnPoint {
                row: record[68 + 2 * point],
                percent: record[69 + 2 * point],
            }),
        }
    }

    pub fn encode(&self, out: &mut Vec<u8>) {
        out.extend(self.permit.to_le_bytes());
        out.extend(self.date.to_le_bytes());
        out.extend([self.kind, self.row, self.reservoir]);
        out.extend([self.efficiency, self.pattern, self.points]);
        out.extend(self.months.to_le_bytes());
        out.extend(self.limit.to_le_bytes());
        for amount in self.amounts {
            out.extend(amount.to_le_bytes());
        }
        for point in self.returns {
            out.extend([point.row, point.percent]);
        }
    }
}

/// A whole basin in decoded form, for the tally, the generator and the damages.
/// The month call itself reads the caller's bytes and does not build one.
#[derive(Clone, Debug, Default, PartialEq, Eq)]
pub struct Basin {
    pub stations: Vec<Station>,
    pub reservoirs: Vec<Reservoir>,
    pub patterns: Vec<Pattern>,
    pub rights: Vec<Right>,
}

impl Basin {
    /// The file of this basin, packed as it has to be, whatever the records say.
    pub fn encode(&self) -> Vec<u8> {
        let counts = [
            (self.stations.len(), STATION_BYTES),
            (self.reservoirs.len(), RESERVOIR_BYTES),
            (self.patterns.len(), PATTERN_BYTES),
            (self.rights.len(), RIGHT_BYTES),
        ];
        let mut file = Vec::new();
        let mut offset = CONTENTS_BYTES;
        for (count, bytes) in counts {
            file.extend((offset as u32).to_le_bytes());
            file.extend((count as u32).to_le_bytes());
            offset += count * bytes;
        }
        self.stations.iter().for_each(|s| s.encode(&mut file));
        self.reservoirs.iter().for_each(|r| r.encode(&mut file));
        self.patterns.iter().for_each(|p| file.extend(p));
        self.rights.iter().for_each(|r| r.encode(&mut file));
        file
    }

    /// How many numbers a report of this basin holds.
    pub fn report_length(&self) -> usize {
        report::length(self.rights.len(), self.stations.len(), self.reservoirs.len())
    }
}
