//! Mold sheets (A.2 of paper 02): the manual's example, sheets by hand of every level row, and every
//! refusal at several places.
//!
//! ```text
//! level     12                 the defect action level
//! plan      0/3/2              its S/T/L in whole fields, checked against the grader
//! fields    3 3 2 6 3          positive fields, unit by unit
//! cusum     0 0 0 2 2          checked against the grader, as is the next
//! standing  m m m f m
//! ```
//!
//! A row `code` has the codes (1, 2, ... if it is missing).

use crate::text::tenths;
use crate::Cases;
use grader::generate_mold::mold_sheet;
use grader::mold::{self, Sheet, LEVELS};
use grader::peach::p10;

#[rustfmt::skip]
const SHEETS: &[(&str, &str)] = &[
    // Source document 000: "DEFECT ACTION LEVEL: 12%", S 0, T 3, "TOTAL POS. FIELDS", CuSums and
    // "MEETS/FAILS". L is read from 'Reset to "L" (2)'. Filled in: codes.
    ("mold, computing, example 2", "
        level     12
        plan      0/3/2
        fields    3 3 2 6 3
        cusum     0 0 0 2 2
        standing  m m m f m
    "),
    // Every level row. Unit 1 tells S, unit 2 tells T; unit 3 comes to L (with level 5 it is there
    // already, and fails), and one field more fails; a count equal to T stays at L. Then below zero.
    ("mold, level 5", "
        level     5
        plan      0/1/1
        fields    2 1 2 1 0 0 25 1 0
        cusum     1 1 1 1 0 0 1  1 0
        standing  m m f m m m f  m m
    "),
    ("mold, level 10", "
        level     10
        plan      1/2/3
        fields    2 2 4 3 2 0 0 0 5
        cusum     1 1 3 3 3 1 0 0 3
        standing  m m m f m m m m m
    "),
    ("mold, level 12", "
        level     12
        plan      0/3/2
        fields    4 3 4 4 3 0 0 5 6
        cusum     1 1 2 2 2 0 0 2 2
        standing  m m m f m m m m f
    "),
    ("mold, level 15", "
        level     15
        plan      1/3/3
        fields    3 3 5 4 3 0 0 6 7
        cusum     1 1 3 3 3 0 0 3 3
        standing  m m m f m m m m f
    "),
    ("mold, level 20", "
        level     20
        plan      0/5/2
        fields    6 5 6 6 5 0 4 8 4
        cusum     1 1 2 2 2 0 0 2 1
        standing  m m m f m m m f m
    "),
    ("mold, level 25", "
        level     25
        plan      1/6/3
        fields    6 6 8 7 6 0 5 9 10
        cusum     1 1 3 3 3 0 0 3 3
        standing  m m m f m m m m f
    "),
    // Failures in a row start nothing: the CuSum stays at L, and none of three clean units recovers.
    ("mold, failures in a row", "
        level     15
        plan      1/3/3
        fields    25 25 4 3 25 9 0 0 0 9
        cusum     3  3  3 3 3  3 0 0 0 3
        standing  f  f  f m f  f m m m f
    "),
    // Every code is allowed, and none matters.
    ("mold, codes", "
        level     10
        plan      1/2/3
        code      65535 0 256 255 7 7 8 7 10000
        fields    5     2 1   0   6 9 0 2 1
        cusum     3     3 2   0   3 3 1 1 0
        standing  f     m m   m   f f m m m
    "),
    // No field and every field.
    ("mold, 0 and 25 fields", "
        level     25
        plan      1/6/3
        fields    0 25 0 25 25 0
        cusum     0 3  0 3  3  0
        standing  m f  m f  f  m
    "),
];

/// Makes the sheet and panics if the grader does not print what the text has.
fn sheet(name: &str, text: &str) -> Vec<u8> {
    let row = |wanted: &str| {
        let mut rows = text.lines().filter_map(|line| {
            let mut words = line.split_whitespace();
            (words.next() == Some(wanted)).then(|| words.collect::<Vec<&str>>())
        });
        rows.next()
    };
    let needed = |wanted: &str| row(wanted).unwrap_or_else(|| panic!("{name}: no {wanted}"));
    let level: u8 = needed("level")[0].parse().expect("a level");
    let level_row = LEVELS.iter().position(|&known| known == level).expect("a level of A.2") as u8;
    let grader::sheet::Numbers { s, t, l } = mold::numbers(level_row);
    let plan: Vec<i64> = needed("plan")[0].split('/').map(tenths).collect();
    assert_eq!([s, t, l], plan[..], "{name}: the grader on the left");
    let fields: Vec<u8> =
        needed("fields").iter().map(|word| word.parse().expect("a number")).collect();
    let mut made = mold_sheet(level_row, &fields);
    let codes = row("code").unwrap_or_default();
    assert!([0, fields.len()].contains(&codes.len()), "{name}: codes");
    for (unit, code) in made.units.iter_mut().zip(codes) {
        unit.code = code.parse().expect("a code");
    }
    let (cusums, standings) = (needed("cusum"), needed("standing"));
    assert!(cusums.len() == fields.len() && standings.len() == fields.len(), "{name}: units");
    let line = |(place, cusum): (usize, &&str)| {
        let (code, standing, cusum) = (made.units[place].code, standings[place], tenths(cusum));
        format!("{} {code} {standing} {}.{}\n", place + 1, cusum / 10, cusum % 10)
    };
    let expected: String = cusums.iter().enumerate().map(line).collect();
    let bytes = made.bytes();
    assert_eq!(mold::print_checked(&bytes, true), expected, "{name}: the grader on the left");
    bytes
}

/// Units of many counts, in turn.
fn many(level_row: u8, units: usize) -> Sheet {
    let fields: Vec<u8> = (0..units).map(|unit| (5 * unit % 11) as u8).collect();
    mold_sheet(level_row, &fields)
}

pub fn add(cases: &mut Cases) {
    for (name, text) in SHEETS {
        cases.add(name, sheet(name, text));
    }
    for (level_row, level) in LEVELS.into_iter().enumerate() {
        let none = mold_sheet(level_row as u8, &[]);
        cases.add(&format!("mold, level {level}, no unit"), none.bytes());
    }
    // 1,000 units are accepted; the 1,001st is refused at its mark, 3 + 1,000 x 5.
    cases.add("mold, unit 1,000", many(3, 1_000).bytes());
    cases.refused("mold, unit 1,001", many(3, 1_001).bytes(), 12, 5_003);
}

/// Bytes put over a sheet at a place, and the number and offset of the refusal.
type Edit = (usize, &'static [u8], u32, usize);

/// Level 10 and four units, at the offsets 3, 8, 13, 18; 23 bytes.
fn undamaged() -> Vec<u8> {
    mold_sheet(1, &[2, 3, 0, 25]).bytes()
}

#[rustfmt::skip]
const EDITS: &[Edit] = &[
    // 1: the first mark is another one: of a plan, of a unit, of a result, turned round, none.
    (0, &[0x4C], 1, 0), (1, &[0x45], 1, 0), (0, &[0x50, 0x4C], 1, 0), (0, &[0x4D, 0x55], 1, 0),
    (0, &[0x4D, 0x52], 1, 0), (0, &[0x44, 0x4D], 1, 0), (0, &[0, 0], 1, 0),
    // 16: the level row; 12 and 25 are levels, and no rows.
    (2, &[6], 16, 0), (2, &[7], 16, 0), (2, &[12], 16, 0), (2, &[25], 16, 0), (2, &[128], 16, 0),
    (2, &[255], 16, 0),
    // 6: marks of a tally sheet's unit, redesignation and break, of an opening, of a result, of mixed
    // letters, of none.
    (3, &[0x53, 0x55], 6, 3), (3, &[0x4D, 0x44], 6, 3), (3, &[0x4D, 0x52], 6, 3),
    (8, &[0x52, 0x44], 6, 8), (8, &[0x42, 0x4B], 6, 8), (13, &[0x47, 0x52], 6, 13),
    (13, &[0x55, 0x4D], 6, 13), (18, &[0x6D, 0x75], 6, 18), (18, &[0x00, 0x00], 6, 18),
    (18, &[0x53, 0x55], 6, 18), (3, &[0x4C], 6, 3), (19, &[0x54], 6, 18),
    // 17: 26, 27, 128 and 255 fields, in each unit.
    (7, &[26], 17, 3), (7, &[255], 17, 3), (12, &[26], 17, 8), (12, &[128], 17, 8),
    (17, &[27], 17, 13), (22, &[26], 17, 18), (22, &[255], 17, 18),
    // The first that applies: 1 before 16, 16 before 6, 16 before 17, 6 before 17.
    (1, &[0x45, 6], 1, 0), (2, &[6, 0x53, 0x55], 16, 0), (2, &[6, 0x4D, 0x55, 0, 1, 26], 16, 0),
    (3, &[0x53, 0x55, 0, 1, 26], 6, 3), (18, &[0x53, 0x55, 0, 4, 26], 6, 18),
    // The first record met: 17 before 6, 6 before 17, 17 before 17.
    (7, &[26, 0x53, 0x55], 17, 3), (3, &[0x53, 0x55, 0, 1, 2, 0x4D, 0x55, 0, 2, 26], 6, 3),
    (12, &[27, 0x4D, 0x55, 0, 3, 26], 17, 8),
];

/// What is left of the sheet's bytes, and the number and offset.
#[rustfmt::skip]
const CUTS: [(usize, u32, usize); 15] = [
    // 1: under 3 bytes.
    (0, 1, 0), (1, 1, 0), (2, 1, 0),
    // 6: one byte of a unit left.
    (4, 6, 3), (9, 6, 8), (14, 6, 13), (19, 6, 18),
    // 7: units cut short, from the mark alone to all but the last byte.
    (5, 7, 3), (6, 7, 3), (7, 7, 3), (10, 7, 8), (12, 7, 8), (16, 7, 13), (20, 7, 18), (22, 7, 18),
];

pub fn add_refusals(cases: &mut Cases) {
    // The sheet that is damaged below is accepted as it is.
    let base = undamaged();
    assert_eq!(base.len(), 23);
    cases.add("mold, the sheet for the refusals", base.clone());
    for &(at, bytes, number, offset) in EDITS {
        let mut sheet = base.clone();
        sheet[at..at + bytes.len()].copy_from_slice(bytes);
        let name = format!("mold, number {number}, bytes {bytes:02X?} at {at}");
        cases.refused(&name, sheet, number, offset);
    }
    for (length, number, offset) in CUTS {
        let name = format!("mold, number {number}, cut to {length} bytes");
        cases.refused(&name, base[..length].to_vec(), number, offset);
    }
    // 6: one byte behind the last record, also where it is the first of a mark.
    for byte in [0x4D, 0x55, 0x53, 0x00, 0x0A] {
        let sheet = [&base[..], &[byte]].concat();
        cases.refused(&format!("mold, number 6, a last byte {byte:02X}"), sheet, 6, 23);
    }
    // 15: one byte more than is taken for a sheet, whatever the bytes are.
    let long = [&base[..], &vec![0; 65_537 - base.len()]].concat();
    cases.refused("mold, number 15, 65,537 bytes", long, 15, 65_536);
    // 7 where the last byte left would be too many fields; 17 in a record before one that is cut
    // short; 17 where a byte is lost, so that the next mark is read as fields.
    let cut = [&base[..], &[0x4D, 0x55, 26, 26]].concat();
    cases.refused("mold, 7 and not 17", cut, 7, 23);
    let [mut both, mut lost] = [base.clone(), base.clone()];
    both[12] = 26;
    cases.refused("mold, 17 before 7", both[..22].to_vec(), 17, 8);
    lost.remove(6);
    cases.refused("mold, a byte lost", lost, 17, 3);
    // Behind 1,000 units: 6 and 7 before 12, 12 before 17; 17 in the 1,000th before 12; 12 with more
    // behind it.
    let full = many(5, 1_000).bytes();
    for (name, more, number) in [
        ("mold, 6 before 12", &[0x4D][..], 6),
        ("mold, 7 before 12", &[0x4D, 0x55, 0, 1], 7),
        ("mold, 12 before 17", &[0x4D, 0x55, 0, 1, 26], 12),
        ("mold, 12 before 6", &[0x4D, 0x55, 0, 1, 2, 0], 12),
    ] {
        cases.refused(name, [&full[..], more].concat(), number, 5_003);
    }
    let mut last = many(5, 1_001).bytes();
    last[5_002] = 26;
    cases.refused("mold, 17 before 12", last, 17, 4_998);
    // A tally sheet is no mold sheet.
    cases.refused("mold, the peach sheet", p10(), 1, 0);
}
