//! What is turned down: the file by its check, a call by the lists it is told of.

use crate::engine::check::{judge, Refusal};
use crate::engine::network::Network;
use crate::engine::records::*;
use crate::engine::slip::Faithful;
use crate::engine::Answer;

/// Decodes an accepted file; the check decides which are.
pub fn decode(file: &[u8]) -> Result<Basin, Refusal> {
    let mut network = Network::room();
    let judged = judge(&Faithful, file, &mut network)?;
    Ok(Basin {
        stations: judged.sections.stations.iter().map(Station::decode).collect(),
        reservoirs: judged.sections.reservoirs.iter().map(Reservoir::decode).collect(),
        patterns: judged.sections.patterns.to_vec(),
        rights: judged.sections.rights.iter().map(Right::decode).collect(),
    })
}

/// What is turned down of a sound file. A board kept by the rules is never the cause,
/// so 6 and 8 are left.
pub fn refused(basin: &Basin, runoff: &[u32], report_length: usize) -> Option<Answer> {
    if runoff.len() != basin.stations.len() || report_length < basin.report_length() {
        return Some((6, 0));
    }
    let over = runoff.iter().position(|&number| number > MOST_RUNOFF)?;
    Some((8, over as u64))
}
