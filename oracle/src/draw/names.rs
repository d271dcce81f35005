//! Names: well-formed ones of every length of character, and ones that are not.

use crate::file::RuleFile;
use crate::rng::Rng;

/// The first and the last character of each row of RFC 3629's grammar but for
/// the first row, and some that people write.
pub const CHARACTERS: [char; 20] = [
    '\u{80}',
    '\u{7FF}',
    '\u{800}',
    '\u{FFF}',
    '\u{1000}',
    '\u{CFFF}',
    '\u{D000}',
    '\u{D7FF}',
    '\u{E000}',
    '\u{FFFF}',
    '\u{10000}',
    '\u{3FFFF}',
    '\u{40000}',
    '\u{FFFFF}',
    '\u{100000}',
    '\u{10FFFF}',
    '\u{E9}',
    '\u{5B57}',
    '\u{20AC}',
    '\u{1F600}',
];

/// Bytes that the grammar has nowhere: overlong forms, surrogates, numbers above
/// 10FFFF, bytes that begin nothing, and characters that are not finished.
pub const FAULTS: [&[u8]; 20] = [
    &[0x80],
    &[0xBF],
    &[0xC0, 0x80],
    &[0xC1, 0xBF],
    &[0xC3],
    &[0xC3, 0x7F],
    &[0xC3, 0xC0],
    &[0xE0, 0x80, 0x80],
    &[0xE0, 0x9F, 0xBF],
    &[0xE2, 0x82],
    &[0xE2, 0x82, 0x7F],
    &[0xED, 0xA0, 0x80],
    &[0xED, 0xBF, 0xBF],
    &[0xF0, 0x80, 0x80, 0x80],
    &[0xF0, 0x8F, 0xBF, 0xBF],
    &[0xF0, 0x9F, 0x98],
    &[0xF4, 0x90, 0x80, 0x80],
    &[0xF5, 0x80, 0x80, 0x80],
    &[0xFE],
    &[0xFF],
];

/// The most characters that fit into a name whatever they are.
const LONGEST: usize = 63;

pub fn name(rng: &mut Rng) -> Vec<u8> {
    let length = match rng.weighted(&[8, 40, 25, 15, 8, 4, 4]) {
        6 => rng.within(12, LONGEST),
        length => length,
    };
    text(rng, length)
}

/// So many characters, most of them ASCII.
pub fn text(rng: &mut Rng, length: usize) -> Vec<u8> {
    let character = |rng: &mut Rng| match rng.weighted(&[12, 66, 8, 6, 8]) {
        0 => '\0',
        1 => ['a', 'b', 'c'][rng.below(3)],
        2 => '\u{7F}',
        3 => char::from(rng.below(0x80) as u8),
        _ => CHARACTERS[rng.below(CHARACTERS.len())],
    };
    let text: String = (0..length).map(|_| character(rng)).collect();
    text.into_bytes()
}

/// Bytes that are no UTF-8: a fault between characters, or a text that ends in
/// the middle of one.
pub fn ill_formed(rng: &mut Rng) -> Vec<u8> {
    let before = [0, 1, 14, 15, 16, 17, rng.below(50)][rng.below(7)];
    let mut bytes = text(rng, before);
    if rng.chance(75) {
        bytes.extend(FAULTS[rng.below(FAULTS.len())]);
        let behind = rng.below(5);
        bytes.extend(text(rng, behind));
        return bytes;
    }
    let last = CHARACTERS[rng.below(CHARACTERS.len())].to_string();
    bytes.extend(&last.as_bytes()[..rng.within(1, last.len() - 1)]);
    bytes
}

/// One of the file's names, or a first one, is no UTF-8.
pub fn spoil(rng: &mut Rng, file: &mut RuleFile) {
    if file.names.is_empty() {
        file.names.push(vec![]);
    }
    let at = rng.below(file.names.len());
    file.names[at] = ill_formed(rng);
}

#[cfg(test)]
mod tests {
    use super::*;

    #[test]
    fn good_names_are_good_and_bad_ones_bad() {
        let mut rng = Rng::new(41, 0);
        let mut long = 0;
        for _ in 0..20_000 {
            let good = name(&mut rng);
            assert!(good.len() <= 255 && std::str::from_utf8(&good).is_ok());
            long += usize::from(good.len() >= 16 && !good.is_ascii());
            let bad = ill_formed(&mut rng);
            assert!(bad.len() <= 255, "{bad:02x?}");
            assert!(std::str::from_utf8(&bad).is_err(), "{bad:02x?}");
        }
        assert!(long > 200, "{long}");
    }
}
