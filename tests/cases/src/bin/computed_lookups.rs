//! Prints `crates/lookup_demands/specs/LookupSheets.antt`: results in bytes and codes to look up in them
//! (A.6 of paper 02), with the numbers and parts that the independent grader gives for them, to be
//! proved of the definitions by computation. What stands with each by hand, from the papers, holds the
//! grader to what the look-up is to show: the place of the record found, or that there is none.

// What is particular to the grading of sheets is not used.
#[allow(dead_code)]
#[path = "../antt.rs"]
mod antt;

use antt::{definition, field_of_definition, part_lines, raw, shows, Part};
use grader::lookup::{self, FOUND, NOT_THERE, WRONG_LENGTH};
use grader::peach::{p10, P10_LINES};
use grader::RESULT_SIZE;

/// Results that are proved by computing have at most so many records.
const MOST_RECORDS: usize = 7;
/// The mark of a result record.
const MARK: [u8; 2] = [0x47, 0x52];
/// Where the bytes behind mark, code and grades stand in it.
const REST: usize = 6;

/// What is known by hand.
enum Expected {
    /// The record at this place, counted from 0.
    Found(usize),
    NotThere,
    Refused,
}

struct Case {
    name: &'static str,
    /// The comment at the results.
    shows: &'static str,
    results: Vec<Part>,
    code: u16,
    expected: Expected,
}

impl Case {
    fn bytes(&self) -> Vec<u8> {
        self.results.iter().flat_map(|part| part.bytes.clone()).collect()
    }
}

fn found(
    place: usize,
    name: &'static str,
    shows: &'static str,
    results: Vec<Part>,
    code: u16,
) -> Case {
    Case { name, shows, results, code, expected: Expected::Found(place) }
}

fn not_there(name: &'static str, shows: &'static str, results: Vec<Part>, code: u16) -> Case {
    Case { name, shows, results, code, expected: Expected::NotThere }
}

fn refused(name: &'static str, shows: &'static str, results: Vec<Part>, code: u16) -> Case {
    Case { name, shows, results, code, expected: Expected::Refused }
}

// ---- records

/// A record with its comment: code, portion grade byte, code grade byte.
fn record(bytes: &[u8]) -> Part {
    let &[first, second, high, low, portion, code_grade, ..] = bytes else { panic!("a record") };
    let mark = if [first, second] == MARK { "" } else { ", another mark" };
    let code = u16::from_be_bytes([high, low]);
    raw(bytes, &format!("{code}: {portion}, {code_grade}{mark}"))
}

/// Codes, portion grade bytes and code grade bytes of records.
type Fields<'a> = &'a [(u16, u8, u8)];

/// Records of these fields. Every byte behind them is its offset in the results, so that no two are
/// alike.
fn records(fields: Fields) -> Vec<Part> {
    marked(fields, &[])
}

/// Such records, with other marks at these places.
fn marked(fields: Fields, marks: &[(usize, [u8; 2])]) -> Vec<Part> {
    let bytes = |(place, &(code, portion, code_grade)): (usize, &(u16, u8, u8))| {
        let other = marks.iter().find(|(at, _)| *at == place);
        let (mark, code) = (other.map_or(MARK, |(_, mark)| *mark), code.to_be_bytes());
        let rest = (REST..RESULT_SIZE).map(|at| (RESULT_SIZE * place + at) as u8).collect();
        [mark.to_vec(), code.to_vec(), vec![portion, code_grade], rest].concat()
    };
    fields.iter().enumerate().map(bytes).map(|bytes| record(&bytes)).collect()
}

/// Such records, of the last so many bytes.
fn cut(fields: Fields, length: usize) -> Vec<Part> {
    let mut parts = records(fields);
    let last = parts.pop().expect("a record");
    parts.push(last.cut(length));
    parts
}

/// Such records, and a byte behind them.
fn with_byte(fields: Fields) -> Vec<Part> {
    let mut parts = records(fields);
    parts.push(raw(&MARK[..1], "one byte"));
    parts
}

/// The results of the peach sheet.
fn peach() -> Vec<Part> {
    let sheet = p10();
    assert_eq!(grader::print(&sheet), P10_LINES);
    let mut results = vec![0; 7 * RESULT_SIZE];
    grader::grade(&sheet, &mut results);
    results.chunks(RESULT_SIZE).map(record).collect()
}

// ---- the look-ups

fn cases() -> Vec<Case> {
    [places(), substandard(), other_bytes(), absent(), refusals()].into_iter().flatten().collect()
}

/// "the first record of that code whose portion grade is the worst the code has"
fn places() -> Vec<Case> {
    vec![
        found(
            5,
            "the peach sheet",
            "The results of the peach sheet of paper 01: code 5 is A at unit 5 and B at unit 6.",
            peach(),
            5,
        ),
        found(
            0,
            "the only record",
            "One record, of grade A: there is no better grade that it would have to be worse than.",
            records(&[(5, 0, 0)]),
            5,
        ),
        found(0, "worst first", "C, then B and A.", records(&[(5, 2, 2), (5, 1, 2), (5, 0, 2)]), 5),
        found(
            3,
            "worst last",
            "A, B, and behind another code C.",
            records(&[(5, 0, 2), (5, 1, 2), (6, 0, 0), (5, 2, 2)]),
            5,
        ),
        found(
            2,
            "worst between",
            "B between two portions of A.",
            records(&[(6, 0, 0), (5, 0, 1), (5, 1, 1), (5, 0, 1)]),
            5,
        ),
        found(
            1,
            "first of equals",
            "Two portions of B: the first of them.",
            records(&[(6, 0, 0), (5, 1, 1), (5, 1, 1), (5, 0, 1)]),
            5,
        ),
        found(
            1,
            "first of equals behind a better one",
            "Two portions of C: the first of them, and not the first of the code.",
            records(&[(5, 0, 2), (5, 2, 2), (5, 1, 2), (5, 2, 2)]),
            5,
        ),
    ]
}

/// "A grade byte of 3 or more is Substandard." "Reading ends at the first Substandard portion of that
/// code, and the answer equals that of a full reading."
fn substandard() -> Vec<Case> {
    vec![
        found(
            1,
            "byte 3 before 200",
            "Both are Substandard: the first of equals, and not the greater byte.",
            records(&[(5, 1, 3), (5, 3, 3), (5, 200, 3)]),
            5,
        ),
        found(
            1,
            "byte 200 before 3",
            "200 is Substandard, too, and worse than C.",
            records(&[(5, 2, 3), (5, 200, 3), (5, 3, 3)]),
            5,
        ),
        found(
            0,
            "byte 200 before 255",
            "Neither is 3, and both are Substandard.",
            records(&[(5, 200, 3), (5, 255, 3)]),
            5,
        ),
        found(
            1,
            "byte 4 before 3",
            "4 is Substandard as 3 is, and no C.",
            records(&[(5, 2, 3), (5, 4, 3), (5, 3, 3)]),
            5,
        ),
        found(
            1,
            "byte 128 behind C",
            "All eight bits of the grade byte count.",
            records(&[(5, 2, 3), (5, 128, 3), (5, 2, 3)]),
            5,
        ),
        found(
            1,
            "byte 3 between two of C",
            "Reading goes on behind C, and C behind Substandard changes nothing.",
            records(&[(5, 2, 3), (5, 3, 3), (5, 2, 3)]),
            5,
        ),
        found(
            3,
            "another code Substandard",
            "Reading does not end at Substandard portions of other codes, nor are they found.",
            records(&[(6, 3, 3), (5, 0, 1), (7, 200, 3), (5, 1, 1)]),
            5,
        ),
    ]
}

/// Bytes that are not looked at, and both bytes of the code.
fn other_bytes() -> Vec<Case> {
    vec![
        found(
            1,
            "misleading code grades",
            "The portion grade counts, and not the code grade, which is worse in other records.",
            records(&[(5, 0, 3), (5, 1, 0), (5, 0, 2)]),
            5,
        ),
        found(
            1,
            "a mark of zeros",
            "Marks are not looked at: the record found has none.",
            marked(&[(6, 2, 2), (5, 1, 1), (5, 0, 1)], &[(1, [0, 0])]),
            5,
        ),
        found(
            2,
            "other marks",
            "Marks are not looked at: before the record found that of a unit, in it that of a mold result.",
            marked(
                &[(6, 3, 3), (5, 0, 2), (5, 2, 2), (5, 1, 2)],
                &[(0, [0x53, 0x55]), (2, [0x4D, 0x52])],
            ),
            5,
        ),
        found(
            1,
            "bytes exchanged",
            "Code 261 has the bytes 1 and 5; before it stands 1281, with the bytes 5 and 1.",
            records(&[(1281, 3, 3), (261, 0, 0)]),
            261,
        ),
        found(
            1,
            "the largest code",
            "Before it stands a code with the same low byte, behind it one with the same high byte.",
            records(&[(255, 3, 3), (65_535, 0, 0), (65_534, 3, 3)]),
            65_535,
        ),
        found(
            1,
            "code 0 in zeros",
            "Every code is one: 32 zeros are a record of code 0, of grade A.",
            [records(&[(6, 1, 1)]), vec![record(&[0; RESULT_SIZE])]].into_iter().flatten().collect(),
            0,
        ),
    ]
}

/// "A code that isn't there gets 'not on this sheet', and only then."
fn absent() -> Vec<Case> {
    vec![
        not_there("no byte", "No record: not there, and not refused.", Vec::new(), 5),
        not_there(
            "not there",
            "The codes beside it, Substandard.",
            records(&[(4, 3, 3), (6, 3, 3)]),
            5,
        ),
        not_there(
            "the code at the mark",
            "18258 has the bytes of the mark, 47 52.",
            records(&[(5, 0, 0), (6, 3, 3)]),
            18_258,
        ),
        not_there(
            "the code at the grades",
            "515 has the bytes 2 and 3, which are grade bytes in the second record.",
            records(&[(5, 0, 0), (6, 2, 3)]),
            515,
        ),
        not_there(
            "the code across two records",
            "8007 has the bytes 31 and 71, 47 in hexadecimal: the last of one record, the first of the next.",
            records(&[(5, 0, 0), (6, 3, 3)]),
            8_007,
        ),
    ]
}

/// "19, results not a multiple of 32 bytes long, offset 0, before reading."
fn refusals() -> Vec<Case> {
    vec![
        refused("one byte", "19: a byte and no more.", with_byte(&[]), 5),
        refused(
            "one byte less",
            "19: a record of the code without its last byte; not 'not on this sheet'.",
            cut(&[(5, 3, 3)], RESULT_SIZE - 1),
            5,
        ),
        refused(
            "one byte more",
            "19: a record of the code and a byte, though reading would end at the record.",
            with_byte(&[(5, 3, 3)]),
            5,
        ),
        refused(
            "one byte less than two records",
            "19: a whole record of the code, and another one without its last byte.",
            cut(&[(5, 1, 1), (5, 3, 3)], RESULT_SIZE - 1),
            5,
        ),
        refused("half a record", "19: 16 bytes of a record.", cut(&[(5, 3, 3)], 16), 5),
        refused(
            "a record and a half",
            "19: 48 bytes, a multiple of 16 and not of 32.",
            cut(&[(5, 1, 1), (5, 3, 3)], 16),
            5,
        ),
    ]
}

// ---- the file

/// The number, offset and bytes of the part that is known by hand.
fn by_hand(case: &Case, results: &[u8]) -> (u32, usize, Vec<u8>) {
    match case.expected {
        Expected::Found(place) => {
            let offset = RESULT_SIZE * place;
            (FOUND, offset, results[offset..offset + RESULT_SIZE].to_vec())
        }
        Expected::NotThere => (NOT_THERE, 0, Vec::new()),
        Expected::Refused => (WRONG_LENGTH, 0, Vec::new()),
    }
}

/// Sees that the grader does as is known by hand, in both of its readings. Answers the offset and the
/// bytes of its part.
fn looked_up(case: &Case) -> (usize, Vec<u8>) {
    let (results, code, name) = (case.bytes(), case.code, case.name);
    assert!(case.results.len() <= MOST_RECORDS, "{name}");
    let (number, offset, part) = by_hand(case, &results);
    let place = lookup::Part { number, offset, length: part.len() };
    assert_eq!(lookup::part(&results, code), place, "{name}");
    assert_eq!(lookup::find(&results, code), (number, &part[..]), "{name}");
    assert_eq!(lookup::find_ended(&results, code), (number, &part[..]), "{name}");
    (offset, part)
}

/// A list of bytes as a definition.
fn defined(name: &str, parts: &[Part]) -> String {
    let gap = if parts.is_empty() { " " } else { "\n    " };
    format!("unfoldable pub {name} : List ℕ\n{name} ={gap}{}\n", part_lines(parts))
}

/// The results and the part of a look-up; and the field that says what it comes to.
fn lines(case: &Case) -> (String, String) {
    let (offset, part) = looked_up(case);
    let (name, code) = (definition(case.name), case.code);
    let mut text = format!("\n{}{}", shows(case.shows), defined(&name, &case.results));
    let said = match case.expected {
        Expected::Found(_) => {
            text += &format!("\n{}", defined(&format!("{name}_part"), &[record(&part)]));
            format!("FoundWith {name} {code} {offset} {name}_part")
        }
        Expected::NotThere => format!("NotOnSheet {name} {code}"),
        Expected::Refused => format!("RefusedResults {name} {code}"),
    };
    (text, format!("  pub {} : {said}\n", field_of_definition(case.name)))
}

const HEAD: &str = "\
-- Look-ups in bytes, as one group: the record at the end. Each is held to the number, the offset and the bytes of the part that the
-- independent grader gives for it (tests/grader, written from the papers alone), so that a rule which is wrong on one of them alike in a
-- definition and in the code that meets it is refused here. This file is printed by tests/cases/src/bin/computed_lookups.rs.
use Rattle.std.specs.Prelude.{ℕ, List, [], ◌∷◌}
use Rattle.lookup_demands.specs.HandedBack.{FoundWith, NotOnSheet, RefusedResults}

-- Behind each record its code, its portion grade byte and its code grade byte. Where nothing else is said, every byte behind these is its
-- offset in the results, so that the part tells which record it is.
";

const FOOT: &str = "
-- all of them: results and code; of a code that is found also the offset and the bytes of the part
pub record LookupSheets : Type 0 where
";

fn main() {
    let (text, fields): (Vec<_>, Vec<_>) = cases().iter().map(lines).unzip();
    print!("{}", [HEAD, &text.concat(), FOOT, &fields.concat()].concat());
}
