//! Damage to a file's bytes: truncations, flipped bits, wrong counts, bytes too
//! many, names that are no UTF-8, and bytes that were never a file.

use crate::file::LIMITS;
use crate::rng::Rng;
use crate::write::{write, write_with_offsets};

/// Files up to this length are swept.
const SMALL: usize = 110;

/// Truncation `number` of the seed's small files, taken one after the other,
/// each cut at every length from 0 to one below its own.
pub fn truncation(seed: u64, number: u64) -> Vec<u8> {
    let mut left = number as usize;
    for index in 0.. {
        let mut rng = Rng::new(!seed, index);
        let mut bytes = write(&super::whole(&mut rng));
        if bytes.len() > SMALL {
            continue;
        }
        if left < bytes.len() {
            bytes.truncate(left);
            return bytes;
        }
        left -= bytes.len();
    }
    unreachable!("there is always a further small file")
}

pub fn damaged(rng: &mut Rng) -> Vec<u8> {
    if rng.chance(8) {
        return random_bytes(rng);
    }
    let mut file = super::whole(rng);
    if rng.chance(10) {
        super::fault::faults(rng, &mut file);
    }
    if rng.chance(12) {
        super::names::spoil(rng, &mut file);
        return write(&file);
    }
    let (mut bytes, offsets) = write_with_offsets(&file);
    let times = 1 + rng.weighted(&[80, 15, 5]);
    for _ in 0..times {
        damage(rng, &mut bytes, &offsets);
    }
    bytes
}

fn random_bytes(rng: &mut Rng) -> Vec<u8> {
    let length = rng.below(64);
    let small = rng.chance(50);
    let byte = |rng: &mut Rng| {
        if small {
            rng.below(4) as u8
        } else {
            rng.bits() as u8
        }
    };
    (0..length).map(|_| byte(rng)).collect()
}

fn damage(rng: &mut Rng, bytes: &mut Vec<u8>, offsets: &[usize; 10]) {
    if bytes.is_empty() {
        return;
    }
    let at = rng.below(bytes.len());
    match rng.weighted(&[20, 25, 15, 20, 8, 6, 6]) {
        0 => bytes.truncate(at),
        1 => bytes[at] ^= 1 << rng.below(8),
        2 => bytes[at] = [0, 0x80, 0xFF, rng.bits() as u8][rng.below(4)],
        3 => wrong_count(rng, bytes, offsets),
        4 => bytes.extend((0..rng.within(1, 3)).map(|_| 0)),
        5 => bytes.insert(at, rng.bits() as u8),
        _ => {
            bytes.remove(at);
        }
    }
}

fn wrong_count(rng: &mut Rng, bytes: &mut Vec<u8>, offsets: &[usize; 10]) {
    let section = rng.below(10);
    let at = offsets[section];
    if at + 2 > bytes.len() {
        return;
    }
    let old = u16::from_le_bytes([bytes[at], bytes[at + 1]]);
    let limit = LIMITS[section] as u16;
    let choices = [
        limit,
        limit + 1,
        0xFFFF,
        old.wrapping_add(1),
        old.wrapping_sub(1),
    ];
    let new = choices[rng.weighted(&[15, 30, 10, 30, 15])];
    bytes[at..at + 2].copy_from_slice(&new.to_le_bytes());
    if rng.chance(15) {
        bytes.truncate(at + 2);
    }
}
