//! Random damage, without a claim about its answer.

use crate::engine::records::*;
use crate::generate::Rng;

/// Flips, cuts, extensions, copied and exchanged stretches; one to three of them.
pub fn random_damage(rng: &mut Rng, file: &[u8]) -> Vec<u8> {
    let mut file = file.to_vec();
    for _ in 0..rng.below(3) + 1 {
        damage_once(rng, &mut file);
    }
    file
}

fn damage_once(rng: &mut Rng, file: &mut Vec<u8>) {
    if file.len() <= CONTENTS_BYTES {
        file.push(rng.word() as u8);
        return;
    }
    let at = match rng.below(12) {
        0 => rng.below(CONTENTS_BYTES),
        _ => CONTENTS_BYTES + rng.below(file.len() - CONTENTS_BYTES),
    };
    match rng.below(24) {
        0 => file.truncate(at),
        1 => {
            file.insert(at, 0);
        }
        2 => file.extend(vec![0; rng.below(80)]),
        3 => {
            file.remove(at);
        }
        4..=7 => file[at] = *rng.pick(&[0, 1, 2, 8, 9, 99, 100, 101, 254, 255]),
        8..=11 => file[at] = file[at].wrapping_add(1),
        12..=15 => file[at] = file[at].wrapping_sub(1),
        16 => exchange_rights(rng, file),
        _ => file[at] ^= 1 << rng.below(8),
    }
}

/// Exchanges two rights, or copies one over the other.
fn exchange_rights(rng: &mut Rng, file: &mut [u8]) {
    let body = u32_at(file, 24) as usize;
    let Some(rights) = file.get_mut(body..) else {
        return;
    };
    let count = rights.len() / RIGHT_BYTES;
    if count < 2 {
        return;
    }
    let (one, other) = (rng.below(count) * RIGHT_BYTES, rng.below(count) * RIGHT_BYTES);
    if rng.chance(50) {
        rights.copy_within(one..one + RIGHT_BYTES, other);
    } else {
        for byte in 0..RIGHT_BYTES {
            rights.swap(one + byte, other + byte);
        }
    }
}
