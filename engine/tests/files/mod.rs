//! Small rule files, as bytes.
#![allow(dead_code)] // each test file uses some

/// The bytes of hex digits; blanks between them are skipped.
pub fn unhex(text: &str) -> Vec<u8> {
    let digits: Vec<u8> = text
        .chars()
        .filter(|digit| !digit.is_whitespace())
        .map(|digit| digit.to_digit(16).expect("a hex digit") as u8)
        .collect();
    assert!(digits.len().is_multiple_of(2));
    digits
        .chunks(2)
        .map(|pair| pair[0] * 16 + pair[1])
        .collect()
}

pub fn d1() -> Vec<u8> {
    unhex(
        "0300 04726f6f6d 03746167 016b
         0300 00 01 04020000000001000100
         0100 0200ffff
         0300 000700000000000000 060200 08020000000001000100
         0000 0000 0000 0000 0000
         0100 000002000000",
    )
}

pub fn d1_plan() -> Vec<u8> {
    unhex(
        "0100 0200 0000 0100 02 00 0900 028000000000000007 0000 0200 036b 010000 0100 00
         0000 0000 0000 0000 0000 0000",
    )
}

/// A file with these sections, as hex, and the other ones empty.
fn with(sections: &[(usize, &str)]) -> Vec<u8> {
    let text = |section| sections.iter().find(|(at, _)| *at == section);
    (0..10)
        .flat_map(|section| unhex(text(section).map_or("0000", |(_, text)| text)))
        .collect()
}

const NAMES: (usize, &str) = (0, "0100 0161");

/// A file for each of the refusals 1, 3 to 14 and 19, which come from the file
/// alone; each is at its boundary where it has one.
pub fn refused() -> Vec<(u8, Vec<u8>)> {
    let mut deep = String::from("2100 00");
    for ty in 0..32 {
        deep.push_str(&format!("0401 0000 {ty:02x}00"));
    }
    let steps = format!("0100 0000 0000 20 {} 0000", "00000000".repeat(32));
    vec![
        (1, vec![0; sinalvento::MAX_FILE + 1]),
        (3, vec![0]),
        (4, unhex("0102")),
        (5, unhex("0000 0100 06")),
        (6, unhex("0100 01 80")),
        (7, vec![0; 21]),
        (8, with(&[(1, "0100 03 0000")])),
        (9, with(&[NAMES, (1, "0100 0401 0000 0000")])),
        (10, with(&[NAMES, (1, "0200 00 0402 0000 0000 0000 0000")])),
        (11, with(&[NAMES, (1, &deep)])),
        (12, with(&[NAMES, (3, "0200 04 0802 0000 0000 0000 0000")])),
        (13, with(&[NAMES, (3, "0100 04"), (4, "0100 0000 05 0000")])),
        (14, with(&[(6, &steps)])),
        (
            19,
            with(&[
                (1, "0100 00"),
                (2, "0100 0000 ffff"),
                (3, "0100 02 00"),
                (9, "0100 0000 0000 0000"),
            ]),
        ),
    ]
}
