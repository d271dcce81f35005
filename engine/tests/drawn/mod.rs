//! The fixed list's files, cut short and damaged, the same on every machine.
#![allow(dead_code)] // each test file uses some

use super::files::unhex;

const LIST: &str = include_str!("../../../oracle/fixed/pairs.txt");

/// Every file of the fixed list.
pub fn fixed() -> Vec<Vec<u8>> {
    let pairs = LIST.lines().filter(|line| !line.starts_with('#'));
    let files = pairs.filter_map(|pair| pair.split_once("= "));
    files.map(|(file, _)| unhex(file)).collect()
}

/// SplitMix64.
pub struct Rng(pub u64);

impl Rng {
    pub fn bits(&mut self) -> u64 {
        self.0 = self.0.wrapping_add(0x9E37_79B9_7F4A_7C15);
        let mut z = self.0;
        z = (z ^ (z >> 30)).wrapping_mul(0xBF58_476D_1CE4_E5B9);
        z = (z ^ (z >> 27)).wrapping_mul(0x94D0_49BB_1331_11EB);
        z ^ (z >> 31)
    }

    /// A number below `end`, which is not 0.
    pub fn below(&mut self, end: usize) -> usize {
        (self.bits() % end as u64) as usize
    }
}

/// Changes a byte or two: small numbers most often, since most fields are.
pub fn damaged(rng: &mut Rng, file: &[u8]) -> Vec<u8> {
    let mut bytes = file.to_vec();
    for _ in 0..1 + rng.below(3) {
        if bytes.is_empty() {
            break;
        }
        let at = rng.below(bytes.len());
        match rng.below(8) {
            0 => bytes[at] = rng.bits() as u8,
            1 => bytes[at] ^= 1 << rng.below(8),
            2 => bytes.insert(at, rng.below(4) as u8),
            3 => drop(bytes.remove(at)),
            4 => bytes[at] = bytes[at].wrapping_add(1),
            5 => bytes[at] = bytes[at].wrapping_sub(1),
            _ => bytes[at] = rng.below(12) as u8,
        }
    }
    bytes
}

/// Hands on the fixed list, every truncation of its small files, and as many
/// damaged copies as are asked for.
pub fn each(damages: usize, mut visit: impl FnMut(&[u8])) {
    let files = fixed();
    files.iter().for_each(|file| visit(file));
    for file in files.iter().filter(|file| file.len() <= 400) {
        (0..file.len()).for_each(|length| visit(&file[..length]));
    }
    let mut rng = Rng(7);
    for _ in 0..damages {
        let file = &files[rng.below(files.len())];
        if file.len() <= 4_000 {
            visit(&damaged(&mut rng, file));
        }
    }
}
