//! Prints `crates/mold_demands/specs/MoldSheets.antt`: whole mold sheets (A.2 of paper 02) in bytes,
//! with the answers and the result bytes that the independent grader gives for them, to be proved of
//! the definitions by computation. What stands with each sheet by hand, from the papers, holds the
//! grader to what the sheet is to show: letters and CuSums for an accepted one, else number and
//! offset.

#[path = "../antt.rs"]
mod antt;

use antt::{abbreviations, part_lines, raw, Expected, Part};
use grader::mold::{self, LEVELS, RESULT_SIZE};
use grader::rules::step;
use grader::sheet::Numbers;
use grader::Answer;

/// A sheet that is proved by computing has at most so many records, the opening among them.
const MOST_RECORDS: usize = 9;

struct Mold;
type Case = antt::Case<Mold>;
type Group = antt::Group<Mold>;

impl antt::Kind for Mold {
    /// For each unit m or f and the CuSum, as printed.
    type ByHand = &'static str;
    const RESULT_SIZE: usize = RESULT_SIZE;

    fn grade(sheet: &[u8], results: &mut [u8]) -> Answer {
        mold::grade_traced(sheet, results, true).0
    }

    fn print(sheet: &[u8]) -> String {
        mold::print(sheet)
    }

    fn hold(name: &str, standings: &Self::ByHand, _results: &[u8], printed: &str) {
        let found = printed.lines().map(|line| line.split(' ').skip(2).collect());
        assert_eq!(found.collect::<Vec<String>>().join(" "), *standings, "{name}");
    }

    fn list(case: &Case) -> String {
        assert!(case.parts.len() <= MOST_RECORDS, "{}", case.name);
        format!("\n    {}", part_lines(&case.parts))
    }
}

// ---- records

/// The opening with this level row.
fn opening(level_row: u8) -> Part {
    let comment = match LEVELS.get(usize::from(level_row)) {
        Some(level) => format!("level {level}"),
        None => format!("level row {level_row}"),
    };
    Part { bytes: vec![0x4D, 0x44, level_row], comment }
}

fn unit(code: u16, fields: u8) -> Part {
    let bytes = mold::Unit { code, fields }.bytes().to_vec();
    Part { bytes, comment: format!("{code}: {fields}") }
}

fn case(
    name: &'static str,
    shows: &'static str,
    parts: Vec<Part>,
    expected: Expected<&'static str>,
) -> Case {
    Case { name, shows, opening: Vec::new(), parts, full: false, expected }
}

fn accepted(
    name: &'static str,
    shows: &'static str,
    level_row: u8,
    units: &[(u16, u8)],
    standings: &'static str,
) -> Case {
    let units = units.iter().map(|&(code, fields)| unit(code, fields));
    let parts = [opening(level_row)].into_iter().chain(units).collect();
    case(name, shows, parts, Expected::Accepted(standings))
}

fn refused(
    number: u32,
    offset: usize,
    name: &'static str,
    shows: &'static str,
    parts: Vec<Part>,
) -> Case {
    case(name, shows, parts, Expected::Number(number, Some(offset)))
}

// ---- the sheets

fn groups() -> Vec<Group> {
    vec![
        Group {
            name: "LevelSheets",
            field: "levels",
            title: "the manual's example and every level row",
            cases: levels(),
        },
        Group {
            name: "UnitSheets",
            field: "units",
            title: "CuSums and failures, fields and codes",
            cases: units(),
        },
        Group { name: "RefusedSheets", field: "refusals", title: "refusals", cases: refusals() },
    ]
}

/// In each row's sheet: T-S+1 fields, which come to 1; T, which stays there; T+L-1, which comes to L
/// and meets; T+1, one field more than L, which fails; T, which stays at the L that it left.
fn levels() -> Vec<Case> {
    let mut cases = vec![
        accepted(
            "level 5",
            "S 0, T 1, L 1. Unit 1 comes to L and so tells S, as 2 would fail and 0 would be lower; units 2\n\
             and 3 are at L exactly and meet, unit 4 has one field more and fails, unit 5 goes on from L.",
            0,
            &[(1, 2), (2, 1), (3, 1), (4, 2), (5, 1)],
            "m1.0 m1.0 m1.0 f1.0 m1.0",
        ),
        accepted(
            "level 10",
            "S 1, T 2, L 3. Unit 1 tells S; unit 3 is at L exactly and meets, unit 4 has one field more and\n\
             fails, unit 5 goes on from L.",
            1,
            &[(1, 2), (2, 2), (3, 4), (4, 3), (5, 2)],
            "m1.0 m1.0 m3.0 f3.0 m3.0",
        ),
        accepted(
            "level 12",
            "S 0, T 3, L 2. As for level 10.",
            2,
            &[(1, 4), (2, 3), (3, 4), (4, 4), (5, 3)],
            "m1.0 m1.0 m2.0 f2.0 m2.0",
        ),
        accepted(
            "level 15",
            "S 1, T 3, L 3. As for level 10.",
            3,
            &[(1, 3), (2, 3), (3, 5), (4, 4), (5, 3)],
            "m1.0 m1.0 m3.0 f3.0 m3.0",
        ),
        accepted(
            "level 20",
            "S 0, T 5, L 2. As for level 10.",
            4,
            &[(1, 6), (2, 5), (3, 6), (4, 6), (5, 5)],
            "m1.0 m1.0 m2.0 f2.0 m2.0",
        ),
        accepted(
            "level 25",
            "S 1, T 6, L 3. As for level 10.",
            5,
            &[(1, 6), (2, 6), (3, 8), (4, 7), (5, 6)],
            "m1.0 m1.0 m3.0 f3.0 m3.0",
        ),
    ];
    for (level_row, case) in cases.iter().enumerate() {
        told_from_neighbours(level_row as u8, case);
    }
    let manual = accepted(
        "the manual example",
        "Computing, example 2, of source document 000: defect action level 12, S 0, T 3, L 2.",
        2,
        &[(1, 3), (2, 3), (3, 2), (4, 6), (5, 3)],
        "m0.0 m0.0 m0.0 f2.0 m2.0",
    );
    cases.insert(0, manual);
    cases
}

/// Panics unless an S, T or L that is one field larger or smaller shows in the sheet: S already at its
/// first unit.
fn told_from_neighbours(level_row: u8, case: &Case) {
    let sheet = mold::read(&case.bytes()).expect("an accepted sheet");
    let standings = |numbers: Numbers, units: usize| {
        let mut cusum = numbers.s;
        let after = |unit: &mold::Unit| {
            let step = step(cusum, 10 * i64::from(unit.fields), numbers);
            cusum = step.cusum;
            (step.fails, step.cusum)
        };
        sheet.units[..units].iter().map(after).collect::<Vec<_>>()
    };
    let (Numbers { s, t, l }, all) = (mold::numbers(level_row), sheet.units.len());
    for by in [-10, 10] {
        for (what, wrong, units) in [
            ("S", Numbers { s: s + by, t, l }, 1),
            ("T", Numbers { s, t: t + by, l }, all),
            ("L", Numbers { s, t, l: l + by }, all),
        ] {
            let right = standings(Numbers { s, t, l }, units);
            assert_ne!(standings(wrong, units), right, "{}: {what} by {by} tenths", case.name);
        }
    }
}

fn units() -> Vec<Case> {
    vec![
        accepted(
            "below zero",
            "Level 25, T 6. Unit 1 comes to 1+0-6, below zero, and unit 2 starts from 0: with -5 it would\n\
             come to -3. Unit 3 comes to 2+3-6, and unit 4 from 0 to L.",
            5,
            &[(1, 0), (2, 8), (3, 3), (4, 9)],
            "m0.0 m2.0 m0.0 m3.0",
        ),
        accepted(
            "two failures",
            "Level 10, 1/2/3. Two failures in a row start nothing: there is no step 3. Unit 3 goes on from L,\n\
             and from S it would come to 1.",
            1,
            &[(1, 5), (2, 5), (3, 2), (4, 0)],
            "f3.0 f3.0 m3.0 m1.0",
        ),
        accepted(
            "no recovery",
            "Level 12, 0/3/2. Three units without a positive field behind two failures change nothing before\n\
             them, and unit 6 goes on from 0.",
            2,
            &[(1, 9), (2, 9), (3, 0), (4, 0), (5, 0), (6, 4)],
            "f2.0 f2.0 m0.0 m0.0 m0.0 m1.0",
        ),
        accepted(
            "every field positive",
            "Level 15, 1/3/3. 25 fields are not above 25. No raw value is carried on: unit 2 comes to 3+0-3.",
            3,
            &[(1, 25), (2, 0), (3, 25)],
            "f3.0 m0.0 f3.0",
        ),
        accepted(
            "large codes",
            "Level 5, 0/1/1. A code of two large bytes, and once more; a code that reads as a mark. Every code\n\
             is allowed, and none stands in the result.",
            0,
            &[(65_534, 2), (65_534, 2), (0x4D55, 1)],
            "m1.0 f1.0 m1.0",
        ),
        accepted(
            "no unit",
            "The opening alone: accepted, and every buffer is kept as it is.",
            5,
            &[],
            "",
        ),
    ]
}

fn refusals() -> Vec<Case> {
    let first = || unit(1, 1);
    vec![
        refused(
            1,
            0,
            "two bytes",
            "1: the mark of an opening without a level row.",
            vec![raw(&[0x4D, 0x44], "two bytes")],
        ),
        refused(
            1,
            0,
            "another mark",
            "1: the first mark is that of a unit.",
            vec![raw(&[0x4D, 0x55, 0], "the mark of a unit"), first()],
        ),
        refused(
            1,
            0,
            "the mark of a tally sheet",
            "1: the first mark is that of a plan.",
            vec![raw(&[0x50, 0x4C, 0], "the mark of a plan"), first()],
        ),
        refused(
            1,
            0,
            "grounds 1 and 16",
            "1 and 16: another mark, and a level row of 6.",
            vec![raw(&[0x4D, 0x45, 6], "another mark, level row 6")],
        ),
        refused(16, 0, "ground 16", "16: a level row of 6.", vec![opening(6), first()]),
        refused(
            16,
            0,
            "the largest level row",
            "16: a level row of 255, and no unit.",
            vec![opening(255)],
        ),
        refused(
            16,
            0,
            "grounds 16 and 6",
            "16, then 6: a level row of 6, and a record with another mark.",
            vec![opening(6), raw(&[0x53, 0x55, 0, 1, 1], "the mark of a tally sheet's unit")],
        ),
        refused(
            6,
            8,
            "one byte left",
            "6: one byte left, though it is the first of a mark; not 7.",
            vec![opening(0), first(), raw(&[0x4D], "one byte")],
        ),
        refused(
            6,
            8,
            "a unit of a tally sheet",
            "6: any mark but 4D 55, also that of a tally sheet's unit.",
            vec![
                opening(0),
                first(),
                raw(&[0x53, 0x55, 0, 2, 1], "the mark of a tally sheet's unit"),
            ],
        ),
        refused(
            6,
            3,
            "a second opening",
            "6: the opening stands first and only there.",
            vec![opening(0), opening(0), first()],
        ),
        refused(
            6,
            3,
            "ground 6 before 17",
            "6, then 17: each record is checked wholly before the next.",
            vec![opening(0), raw(&[0x53, 0x55, 0, 1, 1], "another mark"), unit(2, 26)],
        ),
        refused(
            7,
            8,
            "a unit cut short",
            "7: a unit without its fields.",
            vec![opening(0), first(), unit(2, 1).cut(4)],
        ),
        refused(
            7,
            3,
            "a mark alone",
            "7: a unit cut short behind its mark; not 6.",
            vec![opening(0), first().cut(2)],
        ),
        refused(
            7,
            8,
            "fields missing",
            "7 and not 17: the two bytes left behind the mark are a code; the positive fields are missing.",
            vec![opening(5), first(), unit(0x1A1A, 26).cut(4)],
        ),
        refused(
            17,
            3,
            "ground 17",
            "17: 26 fields of 25, also in a buffer without room.",
            vec![opening(5), unit(1, 26)],
        ),
        refused(
            17,
            8,
            "ground 17 at the second unit",
            "17: at the mark of the second unit; 255 fields.",
            vec![opening(5), unit(1, 25), unit(2, 255), unit(3, 26)],
        ),
        refused(
            17,
            3,
            "ground 17 before 7",
            "17, then 7: the first record met is returned.",
            vec![opening(5), unit(1, 26), unit(2, 1).cut(4)],
        ),
        // 3 + 3 x 5 bytes.
        case(
            "a buffer without room",
            "13: at the sheet's length, with 5 bytes a unit.",
            vec![opening(2), unit(1, 3), unit(2, 9), unit(3, 9)],
            Expected::WithoutRoom(13, Some(18)),
        ),
    ]
}

// ---- the file

const HEAD: &str = "\
-- Mold sheets in bytes, as one group: the record at the end. Each is held to the answer and the result bytes that the independent grader
-- gives for it (tests/grader, written from the papers alone), so that a rule which is wrong on one of them alike in a definition and in
-- the code that meets it is refused here. This file is printed by tests/cases/src/bin/computed_mold_sheets.rs.
use Rattle.std.specs.Prelude.{ℕ, List, [], ◌∷◌}
use Rattle.outcome.specs.Held.{GradedBy, RefusedBy, WithoutRoomBy}
use Rattle.mold.specs.Results.{result_size}
use Rattle.mold.specs.Outcome.{mold_outcome}
";

/// Behind the abbreviations.
const RECORDS: &str = "
-- In a sheet behind each record its content: of a unit code and positive fields. In results behind each record the line that is printed
-- for it.
";

const FOOT: &str = "
-- all of them
pub record MoldSheets : Type 0 where
";

fn main() {
    let (text, fields) = antt::sheets(&groups());
    print!("{}", [HEAD, &abbreviations("mold_outcome"), RECORDS, &text, FOOT, &fields].concat());
}
