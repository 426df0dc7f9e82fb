//! Warehouse lots (A.8 of paper 02): the examples of document 003, lots by hand for each sentence of A.8,
//! cells of the table, and every refusal. The sentences in quotation marks are those of A.8 where no paper
//! is named.

use crate::Cases;
use grader::generate_lot::table_cases;
use grader::lot::{Lot, AQLS, LOT_SIZE, MARK, MOST_DEFECTS, NUMBERS};

const LETTERS: [char; 4] = ['A', 'B', 'C', 'S'];
const CLASSES: [&str; 4] = ["critical", "severe", "major", "total"];
const KINDS: [&str; 4] = ["critical", "severe", "major", "minor"];

/// No defect, prerequisite A, at 13 sample units. Every AQL rises from A to B and from B to C, and so
/// does its acceptance number: critical 2, 3, 4; severe 3, 4, 6; major 4, 6, 7; total 6, 7, 15.
const LOT: Lot = Lot {
    sample_units: 13,
    aqls: [[10, 15, 25, 40], [15, 25, 40, 50], [25, 40, 50, 125]],
    counts: [0; 4],
    prerequisite: 0,
};

/// Classes, each with the counts at the acceptance numbers of A, B and C, total by minor. Total admits
/// the others wherever their class does.
const NUMBERS_OF_LOT: [[u16; 3]; 4] = [[2, 3, 4], [3, 4, 6], [4, 6, 7], [6, 7, 15]];

/// A lot of this grade.
fn graded(cases: &mut Cases, name: &str, lot: Lot, letter: char) {
    assert_eq!(grader::lot::print(&lot.bytes()), format!("lot {letter}\n"), "{name}");
    cases.add(&format!("lot, {name}"), lot.bytes());
}

fn refused(cases: &mut Cases, name: &str, lot: Vec<u8>, number: u32) {
    cases.refused(&format!("lot, {name}"), lot, number, 0);
}

/// With so many of one kind.
fn of_kind(kind: usize, count: u16) -> Lot {
    let mut lot = LOT;
    lot.counts[kind] = count;
    lot
}

/// With these AQLs of a class at A, B and C.
fn with_class(mut lot: Lot, class: usize, aqls: [u16; 3]) -> Lot {
    for (grade, aql) in aqls.into_iter().enumerate() {
        lot.aqls[grade][class] = aql;
    }
    lot
}

pub fn add(cases: &mut Cases) {
    // Document 003, example 17: AQLs alone, of which 6.5, 10.0, 20.0 and 25.0 are not listed.
    let example = Lot {
        sample_units: 6,
        aqls: [[10, 15, 40, 125], [15, 40, 65, 200], [25, 65, 100, 250]],
        counts: [0; 4],
        prerequisite: 0,
    };
    let name = "document 003, example 17; sample units, counts and prerequisite filled in";
    refused(cases, name, example.bytes(), 21);
    // Document 003, example 19: a tally of defects, with the AQLs of A alone.
    let example = Lot { aqls: [[10, 15, 40, 125]; 3], counts: [1, 1, 3, 2], ..example };
    graded(cases, "document 003, example 19; B and C filled in as A", example, 'A');
    for (name, counts, letter) in [
        ("with one more major", [1, 1, 4, 2], 'A'),
        ("with one more critical", [2, 1, 3, 2], 'S'),
        ("with one more severe", [1, 2, 3, 2], 'S'),
        ("with two more major and one less minor", [1, 1, 5, 1], 'S'),
        ("with two more minor", [1, 1, 3, 4], 'S'),
    ] {
        let name = format!("document 003, example 19 {name}");
        graded(cases, &name, Lot { counts, ..example }, letter);
    }
    add_grades(cases);
    add_counts(cases);
}

/// "The defect grade is the best that admits all classes, and Substandard exactly if none does; the lot
/// grade is the worse of it and the prerequisite."
fn add_grades(cases: &mut Cases) {
    for (class, name) in CLASSES.into_iter().enumerate() {
        for (grade, number) in NUMBERS_OF_LOT[class].into_iter().enumerate() {
            let at = format!("{name} at the number of {}", LETTERS[grade]);
            graded(cases, &at, of_kind(class, number), LETTERS[grade]);
            let above = format!("{name} one above the number of {}", LETTERS[grade]);
            // The next grade has a larger number, and admits it.
            graded(cases, &above, of_kind(class, number + 1), LETTERS[grade + 1]);
        }
    }
    for (defects, critical) in [0, 3, 4, 5].into_iter().enumerate() {
        for prerequisite in 0..4 {
            let [by_defects, given] = [defects, prerequisite].map(|grade| LETTERS[grade]);
            let name = format!("defect grade {by_defects}, prerequisite {given}");
            let lot = Lot { prerequisite: prerequisite as u8, ..of_kind(0, critical) };
            graded(cases, &name, lot, LETTERS[defects.max(prerequisite)]);
        }
    }
    // AQL 12.5 for total at every grade: the other classes decide.
    let apart = with_class(LOT, 3, [125; 3]);
    for (name, counts, letter) in [
        ("critical B and severe C", [3, 5, 0, 0], 'C'),
        ("critical C and severe B", [4, 4, 0, 0], 'C'),
        ("critical B and major S", [3, 0, 8, 0], 'S'),
        ("severe B, the rest A", [2, 4, 4, 5], 'B'),
        ("many minor, which are no class", [0, 0, 0, 15], 'A'),
        ("too many in total alone", [2, 3, 4, 7], 'S'),
        ("total at the number by all kinds", [2, 3, 4, 6], 'A'),
    ] {
        graded(cases, name, Lot { counts, ..apart }, letter);
    }
    for (name, counts, letter) in [
        ("total at A by all kinds", [1, 1, 2, 2], 'A'),
        ("total above A by all kinds", [1, 1, 2, 3], 'B'),
        ("total above B by all kinds", [2, 2, 2, 2], 'C'),
        ("total above A without minor", [2, 2, 3, 0], 'B'),
        ("total above B without minor", [2, 2, 4, 0], 'C'),
    ] {
        graded(cases, name, Lot { counts, ..LOT }, letter);
    }
    let equal = Lot { aqls: [[25, 25, 25, 125]; 3], ..LOT };
    graded(cases, "equal AQLs", Lot { counts: [4, 4, 4, 3], ..equal }, 'A');
    graded(cases, "equal AQLs, one above", Lot { counts: [0, 0, 5, 0], ..equal }, 'S');
}

/// Counts with a high byte, and the largest.
fn add_counts(cases: &mut Cases) {
    for (kind, name) in KINDS.into_iter().enumerate() {
        for count in [256, 512, MOST_DEFECTS] {
            graded(cases, &format!("{count} {name}"), of_kind(kind, count), 'S');
        }
    }
    graded(cases, "8,000 in total", Lot { counts: [MOST_DEFECTS; 4], ..LOT }, 'S');
}

/// Of each cell of the table the lots of one class, which changes from cell to cell; of AQL 12.5 those of
/// total, as no other class could be above its number alone.
pub fn add_table(cases: &mut Cases) {
    // Four ways, each with a lot at the number and one above, for each of four classes.
    const LOTS_OF_CLASS: usize = 8;
    for (place, case) in table_cases().into_iter().enumerate() {
        let (class, cell) = (place / LOTS_OF_CLASS % 4, place / LOTS_OF_CLASS / 4);
        let is_largest_aql = cell % AQLS.len() + 1 == AQLS.len();
        if class == if is_largest_aql { 3 } else { cell % 4 } {
            let grade = case.expected.expect("known").grade;
            let line = format!("lot {}\n", LETTERS[usize::from(grade)]);
            let name = format!("lot of the table, {}", place + 1);
            assert_eq!(grader::lot::print(&case.lot), line, "{name}");
            cases.add(&name, case.lot);
        }
    }
}

/// A lot with these grounds and no other.
fn with_grounds(grounds: &[u32]) -> Vec<u8> {
    let has = |number: u32| grounds.contains(&number);
    let mut lot = LOT;
    if has(20) {
        lot.sample_units = 7;
    }
    // The fall stands before the AQL that is not listed.
    if has(22) {
        lot = with_class(lot, 0, [25, 15, 25]);
    }
    if has(21) {
        lot.aqls[2][3] = 126;
    }
    if has(8) {
        lot.counts[3] = MOST_DEFECTS + 1;
    }
    if has(9) {
        lot.prerequisite = 4;
    }
    let mut lot = lot.bytes();
    if has(6) {
        lot[1] = 0x55;
    }
    if has(7) {
        lot.push(0);
    }
    assert_eq!(grader::lot::grounds(&lot), grounds);
    lot
}

pub fn add_refusals(cases: &mut Cases) {
    add_openings(cases);
    for units in [0, 1, 2, 3, 4, 5, 7, 12, 14, 20, 22, 28, 30, 64, 128, 134, 255] {
        let lot = Lot { sample_units: units, ..LOT };
        refused(cases, &format!("{units} sample units"), lot.bytes(), 20);
    }
    add_aqls(cases);
    for (kind, name) in KINDS.into_iter().enumerate() {
        for count in [MOST_DEFECTS + 1, MOST_DEFECTS + 2, 0x0800, 0xD007, u16::MAX] {
            refused(cases, &format!("{count} {name}"), of_kind(kind, count).bytes(), 8);
        }
        let mut lot = Lot { counts: [MOST_DEFECTS; 4], ..LOT };
        lot.counts[kind] += 1;
        refused(cases, &format!("2,001 {name}, the others 2,000"), lot.bytes(), 8);
    }
    for prerequisite in [4, 5, 128, 255] {
        let lot = Lot { prerequisite, ..LOT };
        refused(cases, &format!("prerequisite {prerequisite}"), lot.bytes(), 9);
    }
    add_order(cases);
}

/// "6 (under 2 bytes or a wrong mark) and 7 (length not 36)"
fn add_openings(cases: &mut Cases) {
    refused(cases, "no byte", Vec::new(), 6);
    for (name, first) in [("a mark", MARK[0]), ("another", 0x50)] {
        refused(cases, &format!("the first byte of {name} alone"), vec![first], 6);
    }
    for mark in [
        [0x54, 0x4C],
        [0x4C, 0x55],
        [0x4D, 0x54],
        [0x50, 0x4C],
        [0x53, 0x55],
        [0x52, 0x44],
        [0x42, 0x4B],
        [0x47, 0x52],
        [0x4D, 0x44],
        [0x4D, 0x55],
        [0x4D, 0x52],
        [0x6C, 0x74],
        [0x4C, 0x4C],
        [0x54, 0x54],
        [0, 0],
    ] {
        let lot = [&mark[..], &LOT.bytes()[2..]].concat();
        for length in [LOT_SIZE, 2, LOT_SIZE - 1] {
            refused(cases, &format!("mark {mark:02X?}, {length} bytes"), lot[..length].into(), 6);
        }
    }
    refused(cases, "a byte before the mark", [vec![0], LOT.bytes()].concat(), 6);
    let long = LOT.bytes().repeat(9);
    for length in [2, 3, 11, 26, 27, 34, 35, 37, 38, 72, 292] {
        refused(cases, &format!("{length} bytes"), long[..length].into(), 7);
    }
}

/// "21, an AQL not listed; 22, an AQL falling from A to B or B to C"
fn add_aqls(cases: &mut Cases) {
    #[rustfmt::skip]
    const UNLISTED: [u16; 44] = [
        9, 11, 14, 16, 24, 26, 39, 41, 49, 51, 124, 126,
        2_560, 3_840, 6_400, 10_240, 12_800, 32_000,
        100, 150, 250, 400, 500, 1_250,
        1, 2, 4, 5, 12, 13,
        266, 271, 281, 296, 306, 381,
        65, 85, 200, 330, 1_000, 1_500,
        0, u16::MAX,
    ];
    for (place, aql) in UNLISTED.into_iter().enumerate() {
        let (grade, class) = (place / 4 % 3, place % 4);
        let mut lot = LOT;
        lot.aqls[grade][class] = aql;
        let name = format!("AQL of {aql} tenths at {} {}", LETTERS[grade], CLASSES[class]);
        refused(cases, &name, lot.bytes(), 21);
    }
    // Each place by itself, without a fall: what is next to the listed one on the side that is free.
    for (grade, letter) in LETTERS.into_iter().take(3).enumerate() {
        for (class, name) in CLASSES.into_iter().enumerate() {
            let mut lot = LOT;
            let listed = &mut lot.aqls[grade][class];
            *listed = if grade == 0 { *listed - 1 } else { *listed + 1 };
            refused(cases, &format!("unlisted at {letter} {name}"), lot.bytes(), 21);
        }
    }
    for (class, name) in CLASSES.into_iter().enumerate() {
        for (fall, aqls) in [
            ("A to B, at C as at A", [25, 15, 25]),
            ("A to B, at C above A", [25, 15, 40]),
            ("A to B, at C below A", [40, 15, 25]),
            ("A to B, at C as at B", [25, 15, 15]),
            ("B to C, at C as at A", [15, 25, 15]),
            ("B to C, at C above A", [10, 25, 15]),
            ("B to C, at C below A", [15, 25, 10]),
            ("A to B and B to C", [125, 50, 10]),
        ] {
            let lot = with_class(LOT, class, aqls).bytes();
            refused(cases, &format!("{name} falls from {fall}"), lot, 22);
        }
    }
}

/// "they come in that order after 6 [...] and 7 [...], and before 8 and 9": every two grounds, and all
/// from each on.
fn add_order(cases: &mut Cases) {
    for (place, first) in NUMBERS.into_iter().enumerate() {
        for second in &NUMBERS[place + 1..] {
            let name = format!("grounds {first} and {second}");
            refused(cases, &name, with_grounds(&[first, *second]), first);
        }
        if place + 2 < NUMBERS.len() {
            let name = format!("all grounds from {first} on");
            refused(cases, &name, with_grounds(&NUMBERS[place..]), first);
        }
    }
}
