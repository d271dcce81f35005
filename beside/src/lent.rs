//! Memory that is lent to a call, with guards on both sides of it.

use oracle::rng::Rng;

const GUARD: usize = 64;
/// Starts differ by up to so many bytes, so that no alignment is relied on.
const SHIFTS: usize = 16;

pub struct Lent {
    bytes: Vec<u8>,
    start: usize,
    end: usize,
    /// What stood before and behind when it was lent.
    front: Vec<u8>,
    back: Vec<u8>,
}

impl Lent {
    /// So many bytes, all of them random.
    pub fn random(rng: &mut Rng, length: usize) -> Self {
        let start = GUARD + rng.below(SHIFTS);
        let end = start + length;
        let bytes = random_bytes(rng, end + GUARD);
        Self {
            start,
            end,
            front: bytes[..start].to_vec(),
            back: bytes[end..].to_vec(),
            bytes,
        }
    }

    pub fn copy_of(rng: &mut Rng, bytes: &[u8]) -> Self {
        let mut lent = Self::random(rng, bytes.len());
        lent.slice_mut().copy_from_slice(bytes);
        lent
    }

    pub fn slice(&self) -> &[u8] {
        &self.bytes[self.start..self.end]
    }

    pub fn slice_mut(&mut self) -> &mut [u8] {
        &mut self.bytes[self.start..self.end]
    }

    /// Whether both guards are as they were.
    pub fn guarded(&self) -> bool {
        self.bytes[..self.start] == self.front && self.bytes[self.end..] == self.back
    }
}

fn random_bytes(rng: &mut Rng, length: usize) -> Vec<u8> {
    let mut bytes = vec![0; length];
    for chunk in bytes.chunks_mut(8) {
        chunk.copy_from_slice(&rng.bits().to_le_bytes()[..chunk.len()]);
    }
    bytes
}

#[cfg(test)]
mod tests {
    use super::*;

    #[test]
    fn a_changed_guard_is_seen() {
        let mut rng = Rng::new(1, 1);
        for length in [0, 1, 100] {
            let mut lent = Lent::random(&mut rng, length);
            lent.slice_mut().fill(7);
            assert!(lent.guarded());
            for at in [0, lent.start - 1, lent.end, lent.bytes.len() - 1] {
                lent.bytes[at] ^= 1;
                assert!(!lent.guarded());
                lent.bytes[at] ^= 1;
            }
            assert!(lent.guarded());
        }
    }

    #[test]
    fn a_copy_is_one() {
        let lent = Lent::copy_of(&mut Rng::new(1, 2), b"abc");
        assert_eq!(lent.slice(), b"abc");
        assert!(lent.guarded());
    }
}
