//! Look-ups of one code (A.6 of paper 02, "What became of this code"): results by hand for each sentence
//! of A.6, those of the peach sheet, and results of wrong and of large sizes. The sentences in quotation
//! marks are those of A.6.

use crate::{Cases, Kind};
use grader::peach::{p10, peach};
use grader::RESULT_SIZE;

/// The mark of a result record.
const MARK: [u8; 2] = [0x47, 0x52];

/// Records, each as code:portion or code:portion/code, with its two grade bytes, the second as the first
/// if it is missing; then the code, and the place of the record found, counted from 0, or none.
#[rustfmt::skip]
const RESULTS: &[(&str, &str, u16, Option<usize>)] = &[
    // "the first record of that code whose portion grade is the worst the code has"
    ("the only record", "5:0", 5, Some(0)),
    ("the only record of its code", "6:2 5:1 7:0", 5, Some(1)),
    ("worst first", "5:2 5:1 5:0", 5, Some(0)),
    ("worst last", "5:0 5:1 6:0 5:2", 5, Some(3)),
    ("worst between", "6:0 5:0 5:1 5:0 7:2", 5, Some(2)),
    ("first of equals", "6:0 5:1 5:1 5:0 5:1", 5, Some(1)),
    ("first of equals behind a better one", "5:0 5:2 5:1 5:2", 5, Some(1)),
    ("first of equals, others between", "5:2 6:0 5:2 7:1 5:2", 5, Some(0)),
    ("every record equal", "5:1 5:1 5:1", 5, Some(0)),
    ("every record A", "6:1 5:0 5:0 5:0", 5, Some(1)),
    ("every grade, best first", "5:0 5:1 5:2 5:3", 5, Some(3)),
    ("every grade, worst first", "5:3 5:2 5:1 5:0", 5, Some(0)),
    ("C between A and B", "5:1 5:0 5:2 5:0 5:1", 5, Some(2)),
    ("one of two codes", "5:1 6:2 5:2 6:1 5:0 6:3", 5, Some(2)),
    ("the other of two codes", "5:1 6:2 5:2 6:1 5:0 6:3", 6, Some(5)),
    // "A grade byte of 3 or more is Substandard."
    ("3 before 200", "5:0 5:3 5:200", 5, Some(1)),
    ("200 before 3", "5:0 5:200 5:3", 5, Some(1)),
    ("200 before 255", "6:3 5:200 5:255", 5, Some(1)),
    ("255 before 3 and 4", "5:2 5:255 5:3 5:4", 5, Some(1)),
    ("4 before 3", "5:1 6:0 5:4 5:3", 5, Some(2)),
    ("127 before 128", "5:2 5:127 5:128", 5, Some(1)),
    ("128 before 127", "5:2 5:128 5:127", 5, Some(1)),
    ("99 behind C", "5:2 5:99 5:2", 5, Some(1)),
    ("2 before 3 before 2", "5:2 5:3 5:2", 5, Some(1)),
    // "Reading ends at the first Substandard portion of that code, and the answer equals that of a full
    // reading."
    ("Substandard in the first record", "5:3 6:0 5:0 5:3 5:255", 5, Some(0)),
    ("Substandard in the middle", "5:1 6:3 5:3 5:2 5:3", 5, Some(2)),
    ("Substandard in the last record", "5:2 5:1 6:0 5:3", 5, Some(3)),
    ("Substandard, other codes behind it", "6:0 5:3 6:3 7:2", 5, Some(1)),
    ("Substandard of other codes, before and behind", "6:3 5:0 7:255 5:1 6:3", 5, Some(3)),
    ("Substandard behind that of another code", "6:3 5:1 5:3", 5, Some(2)),
    // "whose portion grade is the worst": the code grade byte is not looked at.
    ("code grade bytes that would mislead", "5:0/3 5:1/0 5:0/255", 5, Some(1)),
    ("worse code grade bytes", "5:1/2 5:1/3 5:0/3", 5, Some(0)),
    ("a better code grade byte", "5:0/2 5:2/0 5:1/1", 5, Some(1)),
    // "A code that isn't there gets 'not on this sheet', and only then."
    ("not there in one record", "5:3", 6, None),
    ("not there in two records", "5:3 7:0", 6, None),
    ("the codes beside it", "260:3 262:3", 261, None),
    ("another high byte", "5:3 517:3", 261, None),
    ("another low byte", "256:3 511:3", 261, None),
    ("bytes exchanged", "1281:3", 261, None),
    ("bytes exchanged in a record before it", "1281:3 261:0", 261, Some(1)),
    ("bytes exchanged in a record behind it", "261:1 1281:3 261:0", 261, Some(0)),
];

/// The records of such a row. Behind the grades the place of the record stands again and again, in two
/// bytes, so that the bytes of a part tell which it is.
fn records(text: &str) -> Vec<u8> {
    let mut results = Vec::new();
    for (place, word) in text.split(' ').enumerate() {
        let (code, grades) = word.split_once(':').expect("a code and grades");
        let (portion, code_grade) = grades.split_once('/').unwrap_or((grades, grades));
        let [high, low] = code.parse::<u16>().expect("a code").to_be_bytes();
        let [portion, code_grade] =
            [portion, code_grade].map(|byte| byte.parse().expect("a grade byte"));
        results.extend(MARK.into_iter().chain([high, low, portion, code_grade]));
        results.extend((place as u16).to_be_bytes().repeat(13));
    }
    assert_eq!(results.len() % RESULT_SIZE, 0);
    results
}

/// So many records of grade A, each of this code.
fn many(count: usize, code: u16) -> Vec<u8> {
    records(&vec![format!("{code}:0"); count].join(" "))
}

/// Puts bytes over a record at a place in it.
fn put(results: &mut [u8], place: usize, at: usize, bytes: &[u8]) {
    results[RESULT_SIZE * place + at..][..bytes.len()].copy_from_slice(bytes);
}

/// The line for a record found at this offset.
pub fn found(results: &[u8], offset: usize) -> String {
    let part = results[offset..offset + RESULT_SIZE].iter().map(|byte| format!(" {byte}"));
    format!("found {offset}{}\n", part.collect::<String>())
}

/// A look-up that finds the record at this place, counted from 0, or none.
fn look_up(cases: &mut Cases, name: &str, results: Vec<u8>, code: u16, place: Option<usize>) {
    let (number, offset) = place.map_or((1, 0), |place| (0, RESULT_SIZE * place));
    cases.kind = Kind::Lookup(code);
    cases.answered(&format!("look-up, {name}"), results, number, offset);
}

/// A look-up that is refused.
fn refused(cases: &mut Cases, name: &str, results: &[u8], code: u16) {
    cases.kind = Kind::Lookup(code);
    cases.answered(&format!("look-up, {name}"), results.to_vec(), 19, 0);
}

pub fn add(cases: &mut Cases) {
    // P10, the peach sheet: code 5 is A at unit 5 and B at unit 6; regraded at A both are A.
    let mut graded = vec![0; 7 * RESULT_SIZE];
    grader::grade(&p10(), &mut graded);
    for (code, place) in [(5, Some(5)), (4, Some(3)), (1, Some(0)), (7, Some(6)), (99, None)] {
        look_up(cases, &format!("the peach sheet, code {code}"), graded.clone(), code, place);
    }
    let mut regraded = graded.clone();
    grader::regrade::regrade(&p10(), &peach(Vec::new()).bytes(), &mut regraded);
    look_up(cases, "the peach sheet regraded, code 5", regraded, 5, Some(4));
    for &(name, text, code, place) in RESULTS {
        look_up(cases, name, records(text), code, place);
    }
    add_codes(cases);
    add_marks(cases);
    look_up(cases, "no byte", Vec::new(), 5, None);
    look_up(cases, "no byte, code 0", Vec::new(), 0, None);
    add_many(cases);
}

/// Codes at the ends of their bytes, and those whose bytes stand elsewhere.
fn add_codes(cases: &mut Cases) {
    let codes = [0, 1, 255, 256, 65_535];
    for (place, code) in codes.into_iter().enumerate() {
        let all = codes.map(|code| format!("{code}:1")).join(" ");
        look_up(cases, &format!("code {code}"), records(&all), code, Some(place));
        let others = codes.iter().filter(|&&other| other != code);
        let others: Vec<_> = others.map(|other| format!("{other}:3")).collect();
        look_up(cases, &format!("no code {code}"), records(&others.join(" ")), code, None);
    }
    look_up(cases, "code 0 in zeros", vec![0; 2 * RESULT_SIZE], 0, Some(0));
    look_up(cases, "code 65535 in the largest bytes", vec![255; 2 * RESULT_SIZE], 65_535, Some(0));
    look_up(cases, "the mark as code", records("5:0 6:0"), 0x4752, None);
    // The bytes of the code at another place of the first record, the last time across two.
    for at in [0, 1, 3, 4, 5, 6, 7, 8, 11, 14, 15, 16, 21, 30, 31] {
        let mut elsewhere = records("7:0 8:0 9:0");
        put(&mut elsewhere, 0, at, &[0x42, 0x99]);
        look_up(cases, &format!("its bytes at {at}"), elsewhere.clone(), 0x4299, None);
        put(&mut elsewhere, 2, 2, &[0x42, 0x99]);
        look_up(cases, &format!("its bytes at {at}, and there"), elsewhere, 0x4299, Some(2));
    }
}

/// "Marks are not looked at."
fn add_marks(cases: &mut Cases) {
    for mark in [[0, 0], [0x52, 0x47], [0x53, 0x55], [0x4D, 0x52], [0x47, 0x53], [0, 5]] {
        let name = |what: &str| format!("mark {mark:02X?}, {what}");
        let right = records("6:0 5:1 5:2 5:0");
        for (what, places) in [
            ("in the record found", &[2][..]),
            ("before it", &[0, 1]),
            ("behind it", &[3]),
            ("everywhere", &[0, 1, 2, 3]),
        ] {
            let mut wrong = right.clone();
            for &place in places {
                put(&mut wrong, place, 0, &mark);
            }
            look_up(cases, &name(what), wrong, 5, Some(2));
        }
        let mut absent = records("6:0 7:3");
        put(&mut absent, 0, 0, &mark);
        look_up(cases, &name("not there"), absent, 5, None);
    }
}

/// Many records; the program has room for 65,537 bytes.
fn add_many(cases: &mut Cases) {
    for (what, place, bytes, code, found) in [
        ("the code in the last", 999, [0, 8, 0], 8, Some(999)),
        ("the code in none", 999, [0, 9, 3], 8, None),
        ("Substandard in the first", 0, [0, 7, 3], 7, Some(0)),
    ] {
        let mut thousand = many(1_000, 7);
        put(&mut thousand, place, 2, &bytes);
        look_up(cases, &format!("1,000 records, {what}"), thousand, code, found);
    }
    let mut more = many(1_001, 7);
    put(&mut more, 1_000, 4, &[1]);
    look_up(cases, "1,001 records, the worst last", more, 7, Some(1_000));
    let mut most = many(2_047, 7);
    put(&mut most, 1_500, 4, &[2]);
    put(&mut most, 2_046, 4, &[3]);
    look_up(cases, "65,504 bytes, Substandard in the last record", most, 7, Some(2_046));
}

/// "19, results not a multiple of 32 bytes long, offset 0, before reading."
pub fn add_refusals(cases: &mut Cases) {
    let one = records("5:3");
    for length in 1..RESULT_SIZE {
        refused(cases, &format!("number 19, {length} bytes"), &one[..length], 5);
    }
    refused(cases, "number 19, 1 byte of another code", &records("6:0")[..1], 5);
    // The code in a whole record, also where reading would end there, in the bytes left over, nowhere.
    for (text, length, code) in [
        ("5:3 6:0", 33, 5),
        ("5:0 5:1", 47, 5),
        ("6:0 5:3", 63, 5),
        ("6:0 5:3 7:0", 65, 5),
        ("6:0 7:3 5:1", 95, 5),
        ("6:0 7:3 8:1", 68, 5),
    ] {
        let name = format!("number 19, {length} bytes of {text}");
        refused(cases, &name, &records(text)[..length], code);
    }
    refused(cases, "number 19, 1,001 records and a byte", &many(1_002, 7)[..32_033], 7);
}
