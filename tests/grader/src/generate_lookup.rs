//! Seeded random look-ups (A.6 of paper 02): results of gradings and regradings, such results with
//! some bytes changed, results made up for one answer, results of any bytes, and results of a wrong
//! length; codes that are there once, several times, in every record and not at all, and that are
//! nearly there; and counts of what happened in them.

use crate::generate::{any_case, Counts, Dice, MOST_ROOM};
use crate::generate_regrade::regrade_case;
use crate::lookup::{code_of, portion_grade, records_read};
use crate::lookup::{Part, FOUND, NOT_THERE, WRONG_LENGTH};
use crate::regrade::regrade_traced;
use crate::rules::{Row, RESULT_SIZE};
use crate::sheet::{Grade, MOST_UNITS, SUBSTANDARD};
use std::cmp::Ordering;
use std::ops::{Range, RangeInclusive};

/// Where the results of a case come from.
#[derive(Clone, Copy, Debug, PartialEq, Eq)]
pub enum Made {
    Grading,
    Regrading,
    /// Of a grading or a regrading, and then changed.
    Changed,
    /// Made for one answer.
    MadeUp,
    AnyBytes,
}

/// Bytes of results, the code to look up, and the expected answer if it is known from the making.
#[derive(Clone, Debug)]
pub struct LookupCase {
    pub results: Vec<u8>,
    pub code: u16,
    pub expected: Option<Part>,
    pub made: Made,
}

/// The mark of a result record.
const MARK: [u8; 2] = [0x47, 0x52];

/// Codes at which something may be wrong, each counted by itself.
const CODES: [u16; 5] = [0, 1, 255, 256, u16::MAX];

/// Portion grade bytes, each counted by itself; from 3 on all are Substandard.
const BYTES: [u8; 9] = [0, 1, 2, 3, 4, 127, 128, 200, 255];

fn any_byte(dice: &mut Dice) -> u8 {
    dice.below(256) as u8
}

fn any_code(dice: &mut Dice) -> u16 {
    match dice.below(6) {
        0 | 1 => dice.pick(&CODES),
        2 => u16::from_be_bytes(MARK),
        3 => dice.below(MOST_UNITS) as u16,
        _ => dice.below(65_536) as u16,
    }
}

/// A byte of this grade.
fn byte_of(dice: &mut Dice, grade: Grade) -> u8 {
    if grade < SUBSTANDARD {
        return grade;
    }
    if dice.chance(10) {
        return dice.between(3, 255) as u8;
    }
    dice.pick(&[3, 3, 3, 4, 127, 128, 200, 200, 255])
}

/// A number of records: mostly few, now and then up to 1,000, exactly so many, or more.
fn size(dice: &mut Dice) -> usize {
    match dice.below(100) {
        0 => dice.between(61, 999) as usize,
        1 => MOST_UNITS,
        2 | 3 => dice.pick(&[1_001, 1_001, 1_002, 1_100, 2_048, 2_049, 2_049]),
        4..=55 => dice.pick(&[0, 1, 1, 2, 2, 3, 4, 5, 6, 8]),
        _ => dice.below(61),
    }
}

/// The results of an accepted grading or regrading, cut to their records, and its rows.
fn graded(dice: &mut Dice, made: Made) -> (Vec<u8>, Vec<Row>) {
    loop {
        let seed = dice.below(usize::MAX) as u64;
        let mut results = vec![0; MOST_ROOM];
        let (answer, graded) = if made == Made::Grading {
            crate::grade_traced(&any_case(seed).sheet, &mut results, false)
        } else {
            let case = regrade_case(seed);
            regrade_traced(&case.sheet, &case.plan, &mut results, false)
        };
        if let Some(graded) = graded {
            results.truncate(RESULT_SIZE * answer.units);
            return (results, graded.rows);
        }
    }
}

/// A code for these results: that of the first record, of the last or of any; nearly that, with the
/// bytes exchanged or one bit other; two bytes from anywhere in them; or any.
fn code_for(dice: &mut Dice, results: &[u8]) -> u16 {
    let records = results.len() / RESULT_SIZE;
    if records == 0 || dice.chance(10) {
        return any_code(dice);
    }
    let any = dice.below(records);
    let own = code_of(&results[RESULT_SIZE * dice.pick(&[0, any, any, records - 1])..]);
    match dice.below(10) {
        0 => own.swap_bytes(),
        1 => own ^ (1 << dice.below(16)),
        2 => {
            let at = dice.below(results.len() - 1);
            u16::from_be_bytes([results[at], results[at + 1]])
        }
        _ => own,
    }
}

/// Results of a grading or a regrading, as they are. The answer is known from the code grades: the
/// first portion of the code that is as bad as its code.
fn as_graded(dice: &mut Dice, made: Made) -> LookupCase {
    let (results, rows) = graded(dice, made);
    let code = code_for(dice, &results);
    let as_bad = |row: &Row| row.unit.code == code && row.portion_grade == row.code_grade;
    let expected = rows.iter().position(as_bad).map_or(Part::empty(NOT_THERE), Part::record);
    LookupCase { results, code, expected: Some(expected), made }
}

/// Results of a grading or a regrading with some of their bytes changed, or records left out, doubled
/// or moved; what comes of it is not known beforehand.
fn changed(dice: &mut Dice) -> LookupCase {
    let made = dice.pick(&[Made::Grading, Made::Regrading]);
    let (mut results, _) = graded(dice, made);
    let code = code_for(dice, &results);
    for _ in 0..dice.between(1, 6) {
        let records = results.len() / RESULT_SIZE;
        if records == 0 {
            break;
        }
        // Any record, or one of the code.
        let mut places: Vec<usize> = (0..records).collect();
        let of_code = |place: &usize| code_of(&results[RESULT_SIZE * place..]) == code;
        if dice.chance(50) && places.iter().any(of_code) {
            places.retain(of_code);
        }
        let at = RESULT_SIZE * dice.pick(&places);
        let record = at..at + RESULT_SIZE;
        match dice.below(20) {
            0..=5 => results[at + 4] = dice.pick(&BYTES),
            6 => results[at + 4] = any_byte(dice),
            7 | 8 => results[at + 5] = dice.pick(&BYTES),
            9 | 10 => results[at + 2..at + 4].copy_from_slice(&code.to_be_bytes()),
            11 => results[at + 2..at + 4].copy_from_slice(&code.swap_bytes().to_be_bytes()),
            12 | 13 => results[at + dice.below(2)] = any_byte(dice),
            14 | 15 => results[at + dice.below(RESULT_SIZE)] = any_byte(dice),
            16 => drop(results.drain(record)),
            17 => {
                let to = RESULT_SIZE * dice.below(records + 1);
                let double = results[record].to_vec();
                results.splice(to..to, double);
            }
            18 => results[..].rotate_left(at),
            _ => {
                let at = dice.below(results.len());
                if dice.chance(50) {
                    results.insert(at, any_byte(dice));
                } else {
                    results.truncate(at);
                }
            }
        }
    }
    LookupCase { results, code, expected: None, made: Made::Changed }
}

/// A record of this code and portion grade byte. The mark, the code grade byte and all else are
/// right, wrong or anything.
fn record(dice: &mut Dice, code: u16, portion: u8) -> [u8; RESULT_SIZE] {
    let mut record = [0; RESULT_SIZE];
    let most = dice.pick(&[4, 4, 256]);
    record.fill_with(|| dice.below(most) as u8);
    match dice.below(8) {
        0 => {}
        1 => {
            let mark = dice.pick(&[[0x52, 0x47], [0x4D, 0x52], [0x53, 0x55], [0x47, 0x53], [0, 0]]);
            record[..2].copy_from_slice(&mark);
        }
        _ => record[..2].copy_from_slice(&MARK),
    }
    record[2..4].copy_from_slice(&code.to_be_bytes());
    record[4] = portion;
    let (better, worse) = (portion.saturating_sub(1), portion.saturating_add(1));
    record[5] = match dice.below(6) {
        0 => better,
        1 => worse,
        2 => dice.pick(&BYTES),
        _ => portion,
    };
    record
}

/// A record of another code, often nearly this one, or with the bytes of this one somewhere in it.
fn other_record(dice: &mut Dice, code: u16) -> [u8; RESULT_SIZE] {
    let [high, low] = code.to_be_bytes();
    let other = match dice.below(9) {
        0 | 1 => code.swap_bytes(),
        2 => u16::from_be_bytes([any_byte(dice), low]),
        3 => u16::from_be_bytes([high, any_byte(dice)]),
        4 => code ^ (1 << dice.below(16)),
        5 => code.wrapping_add(dice.pick(&[1, 2, 255, 256, u16::MAX])),
        _ => any_code(dice),
    };
    let portion = dice.pick(&BYTES);
    let mut record = record(dice, other, portion);
    if dice.chance(40) {
        let field = dice.pick(&[0, 1, 3, 4, 5, 6, 7, 8, 10, 15, 16, 28]);
        let any = dice.below(RESULT_SIZE - 1);
        let at = dice.pick(&[field, any]);
        record[at..at + 2].copy_from_slice(&[high, low]);
    }
    if code_of(&record) == code {
        record[dice.pick(&[2, 3])] ^= 1;
    }
    record
}

/// The bytes of records, in which those of the code now and then stand across the border of two.
fn joined(dice: &mut Dice, records: &[[u8; RESULT_SIZE]], code: u16) -> Vec<u8> {
    let mut results = records.concat();
    let percent = dice.pick(&[0, 0, 5, 30]);
    for place in 1..records.len() {
        if dice.chance(percent) {
            let border = RESULT_SIZE * place;
            results[border - 1..border + 1].copy_from_slice(&code.to_be_bytes());
        }
    }
    results
}

/// Results in which the code is at places of every kind, made for one of them: all portions of the
/// code before it are better, and none behind it is worse.
fn found(dice: &mut Dice) -> LookupCase {
    let code = any_code(dice);
    let records = size(dice).max(1);
    let any = dice.below(records);
    let mut places = vec![dice.pick(&[0, any, records - 1])];
    // Often none of them is among the first 1,000.
    let from = if records > MOST_UNITS && dice.chance(40) { MOST_UNITS } else { 0 };
    places[0] = places[0].max(from);
    let percent = dice.pick(&[10, 30, 60]);
    match dice.below(8) {
        0 | 1 => {}
        2 => places = (from..records).collect(),
        _ => places.extend((from..records).filter(|_| dice.chance(percent))),
    }
    places.sort_unstable();
    places.dedup();
    let any = dice.below(places.len());
    let answer = dice.pick(&[0, 0, any, places.len() - 1]);
    let worst = dice.between(i64::from(answer > 0), 3) as Grade;
    let mut all: Vec<_> = (0..records).map(|_| other_record(dice, code)).collect();
    for (nth, &place) in places.iter().enumerate() {
        let grade = match nth.cmp(&answer) {
            Ordering::Less => dice.below(usize::from(worst)) as Grade,
            Ordering::Equal => worst,
            Ordering::Greater => dice.between(0, i64::from(worst) + 1).min(worst.into()) as Grade,
        };
        let portion = byte_of(dice, grade);
        all[place] = record(dice, code, portion);
    }
    let results = joined(dice, &all, code);
    let expected = Some(Part::record(places[answer]));
    LookupCase { results, code, expected, made: Made::MadeUp }
}

/// Results without the code, or without a byte.
fn absent(dice: &mut Dice) -> LookupCase {
    let code = any_code(dice);
    let all: Vec<_> = (0..size(dice)).map(|_| other_record(dice, code)).collect();
    let results = joined(dice, &all, code);
    LookupCase { results, code, expected: Some(Part::empty(NOT_THERE)), made: Made::MadeUp }
}

/// Results of a length that is no multiple of 32: the last record cut short, a piece of one added, or
/// that alone. Either may be of the code.
fn wrong_length(dice: &mut Dice) -> LookupCase {
    let LookupCase { mut results, code, .. } =
        if dice.chance(70) { found(dice) } else { absent(dice) };
    let rest = 1 + dice.below(RESULT_SIZE - 1);
    if dice.chance(30) && !results.is_empty() {
        results.truncate(results.len() - rest);
    } else {
        if dice.chance(30) {
            results.clear();
        }
        let portion = dice.pick(&BYTES);
        let piece =
            if dice.chance(60) { record(dice, code, portion) } else { other_record(dice, code) };
        results.extend(&piece[..rest]);
    }
    LookupCase { results, code, expected: Some(Part::empty(WRONG_LENGTH)), made: Made::MadeUp }
}

/// Results of any bytes, from all of them or from few, so that codes are met again.
fn any_bytes(dice: &mut Dice) -> LookupCase {
    let rest = if dice.chance(20) { dice.below(RESULT_SIZE) } else { 0 };
    let length = RESULT_SIZE * size(dice) + rest;
    let most = dice.pick(&[2, 3, 4, 6, 256]);
    let results: Vec<u8> = (0..length).map(|_| dice.below(most) as u8).collect();
    let code = code_for(dice, &results);
    LookupCase { results, code, expected: None, made: Made::AnyBytes }
}

/// The look-up of this seed: a quarter in results as they are graded, a third made for a record.
pub fn lookup_case(seed: u64) -> LookupCase {
    let dice = &mut Dice(seed);
    match dice.below(100) {
        0..=12 => as_graded(dice, Made::Grading),
        13..=25 => as_graded(dice, Made::Regrading),
        26..=37 => changed(dice),
        38..=69 => found(dice),
        70..=79 => absent(dice),
        80..=89 => wrong_length(dice),
        _ => any_bytes(dice),
    }
}

/// A case with its answer, for the counts.
struct LookedUp<'a> {
    records: Vec<&'a [u8]>,
    code: u16,
    number: u32,
    /// The place of the record that is found.
    found: Option<usize>,
    /// The places of the records of the code; none after 19.
    places: Vec<usize>,
    /// The number of records up to the end of reading.
    read: usize,
}

impl LookedUp<'_> {
    /// Whether there is a record found of which this holds.
    fn found_and(&self, test: impl FnOnce(usize) -> bool) -> bool {
        self.found.is_some_and(test)
    }

    /// Whether this holds of some record of the code before the one found, or behind it.
    fn of_code(&self, side: Ordering, test: impl Fn(&[u8]) -> bool) -> bool {
        let is_one =
            |place: usize, found: usize| place.cmp(&found) == side && test(self.records[place]);
        self.found_and(|found| self.places.iter().any(|&place| is_one(place, found)))
    }
}

const LETTERS: [char; 4] = ['A', 'B', 'C', 'S'];

/// Where two bytes like those of a code may stand in a record, from the first byte on, other than at
/// its place.
const ELSEWHERE: [(&str, RangeInclusive<usize>); 11] = [
    ("at the mark", 0..=0),
    ("across mark and code", 1..=1),
    ("across code and portion grade", 3..=3),
    ("at the two grades", 4..=4),
    ("across code grade and plan", 5..=5),
    ("at plan and standing", 6..=6),
    ("across standing and CuSums", 7..=7),
    ("in the CuSums", 8..=14),
    ("across CuSums and overshoots", 15..=15),
    ("in the overshoots", 16..=30),
    ("across two records", 31..=31),
];

/// What is counted of look-ups.
impl Counts {
    /// Takes in a case and its answer, as [`crate::lookup::part`] hands it out.
    pub fn note_lookup(&mut self, case: &LookupCase, part: Part) {
        let LookupCase { results, code, made, .. } = case;
        let records: Vec<&[u8]> = results.chunks_exact(RESULT_SIZE).collect();
        let (number, code) = (part.number, *code);
        let of_code: Vec<usize> =
            (0..records.len()).filter(|&place| code_of(records[place]) == code).collect();
        let mut add = |name: &str, is: bool| self.add(&format!("lookup: {name}"), is.into());
        for known in [FOUND, NOT_THERE, WRONG_LENGTH] {
            add(&format!("number {known:02}"), number == known);
        }
        for (name, known) in [
            ("results of a grading", Made::Grading),
            ("results of a regrading", Made::Regrading),
            ("changed results of a grading or a regrading", Made::Changed),
            ("results made up", Made::MadeUp),
            ("results of any bytes", Made::AnyBytes),
        ] {
            let [found, not_there, wrong] =
                [FOUND, NOT_THERE, WRONG_LENGTH].map(|wanted| *made == known && number == wanted);
            add(&format!("{name}, found"), found);
            add(&format!("{name}, not there"), not_there);
            // Those of a grading or a regrading have a right length.
            if !matches!(known, Made::Grading | Made::Regrading) {
                add(&format!("{name}, wrong length"), wrong);
            }
        }
        for known in CODES {
            add(&format!("code {known} found"), code == known && number == FOUND);
            add(&format!("code {known} not there"), code == known && number == NOT_THERE);
        }
        // Lengths.
        let (length, left) = (results.len(), results.len() % RESULT_SIZE);
        let refused = number == WRONG_LENGTH;
        for remainder in 1..RESULT_SIZE {
            let name = format!("number 19, {remainder:02} bytes left over");
            add(&name, refused && left == remainder);
        }
        add("number 19 for fewer than 32 bytes", refused && length < RESULT_SIZE);
        add("number 19 for more than 32 bytes", refused && length > RESULT_SIZE);
        add("number 19 for more than 1,000 records", refused && records.len() > MOST_UNITS);
        add("number 19, the code in a whole record", refused && !of_code.is_empty());
        let piece = &results[length - left..];
        let in_piece = left >= 4 && code_of(piece) == code;
        add("number 19, the code in the bytes left over", refused && in_piece);
        add("number 19, the code nowhere", refused && of_code.is_empty() && !in_piece);
        add("no byte", number == NOT_THERE && length == 0);
        add("one record", !refused && records.len() == 1);
        add("1,000 records", !refused && records.len() == MOST_UNITS);
        add("1,001 records", !refused && records.len() == MOST_UNITS + 1);
        add("more than 1,000 records", !refused && records.len() > MOST_UNITS);
        add("more than 65,536 bytes", !refused && length > 65_536);

        let looked_up = LookedUp {
            code,
            number,
            found: (number == FOUND).then_some(part.offset / RESULT_SIZE),
            places: if refused { Vec::new() } else { of_code },
            read: records_read(results, code),
            records,
        };
        self.note_found_grades(&looked_up);
        self.note_found_places(&looked_up);
        self.note_readings(&looked_up);
        self.note_other_bytes(&looked_up);
        self.note_not_there(&looked_up);
    }

    /// Portions of the code: that of the record found, those before it and those behind it.
    fn note_found_grades(&mut self, looked_up: &LookedUp) {
        let mut add = |name: &str, is: bool| self.add(&format!("lookup: found {name}"), is.into());
        let records = &looked_up.records;
        let byte = looked_up.found.map(|at| records[at][4]);
        let grade = looked_up.found.map(|at| portion_grade(records[at]));
        let [before, behind] = [Ordering::Less, Ordering::Greater]
            .map(|side| move |test: &dyn Fn(&[u8]) -> bool| looked_up.of_code(side, test));
        for known in BYTES {
            add(&format!("by byte {known}"), byte == Some(known));
        }
        add("by another byte", byte.is_some_and(|byte| !BYTES.contains(&byte)));
        for (worst, letter) in (0..).zip(LETTERS) {
            let this = grade == Some(worst);
            add(&format!("with worst grade {letter}"), this);
            let another = behind(&|record| portion_grade(record) == worst);
            add(&format!("with worst grade {letter}, another behind it"), this && another);
            for (better, other) in (0..worst).zip(LETTERS) {
                let before = before(&|record| portion_grade(record) == better);
                let behind = behind(&|record| portion_grade(record) == better);
                add(&format!("with worst grade {letter}, {other} before it"), this && before);
                add(&format!("with worst grade {letter}, {other} behind it"), this && behind);
            }
        }
        // Of several bytes of Substandard the first is found.
        let substandard = grade == Some(SUBSTANDARD);
        let more = byte.is_some_and(|byte| byte > SUBSTANDARD);
        add("Substandard by byte 3", substandard && !more);
        add("Substandard by more than 3", more);
        let pair = |first: u8, second: u8| {
            byte == Some(first) && behind(&|record: &[u8]| record[4] == second)
        };
        add("by byte 3, 200 behind it", pair(3, 200));
        add("by byte 200, 3 behind it", pair(200, 3));
        let greater = |record: &[u8]| Some(record[4]) > byte;
        let smaller = |record: &[u8]| portion_grade(record) == 3 && Some(record[4]) < byte;
        add("by byte 3, a greater one behind it", substandard && !more && behind(&greater));
        add("by more than 3, a greater byte behind it", more && behind(&greater));
        add("by more than 3, a smaller byte of Substandard behind it", more && behind(&smaller));
    }

    /// Where the record found stands, among all and among those of its code.
    fn note_found_places(&mut self, looked_up: &LookedUp) {
        let mut add = |name: &str, is: bool| self.add(&format!("lookup: {name}"), is.into());
        let LookedUp { records, places, number, .. } = looked_up;
        let (end, first, last) = (records.len(), places.first(), places.last());
        let beside = |two: &[usize]| two[0] + 1 == two[1];
        add("code in the first record", first == Some(&0));
        add("code in the last record", last.is_some_and(|at| at + 1 == end));
        add("code in several records", places.len() > 1);
        add("code in several records, side by side", places.windows(2).any(beside));
        add("code in several records, others between", !places.windows(2).all(beside));
        add("code in all of several records", places.len() > 1 && places.len() == end);
        add("code in no record", *number == NOT_THERE && end > 0);

        let mut count = |name: &str, test: &dyn Fn(usize) -> bool| {
            add(&format!("found{name}"), looked_up.found_and(test));
        };
        count(" in the only record", &|_| end == 1);
        count(" in the first of several records", &|at| end > 1 && at == 0);
        count(" in the last of several records", &|at| end > 1 && at + 1 == end);
        count(" between the first and the last record", &|at| at > 0 && at + 1 < end);
        count(" behind the 1,000th record", &|at| at >= MOST_UNITS);
        count(", the only record of its code", &|_| places.len() == 1);
        let grade = |place: usize| portion_grade(records[place]);
        let equals = |at: usize| places.iter().filter(|&&place| grade(place) == grade(at)).count();
        count(", the first of several equals", &|at| equals(at) > 1);
        count(", all of its code equal", &|at| places.len() > 1 && equals(at) == places.len());
        count(", the last of its code an equal one", &|at| {
            last.is_some_and(|&place| place != at && grade(place) == grade(at))
        });
        // All before it are better.
        count(", not the first record of its code", &|at| first != Some(&at));
        count(", the last of several of its code", &|at| places.len() > 1 && last == Some(&at));
    }

    /// "Reading ends at the first Substandard portion of that code".
    fn note_readings(&mut self, looked_up: &LookedUp) {
        let mut add = |name: &str, is: bool| self.add(&format!("lookup: {name}"), is.into());
        let LookedUp { records, places, number, read, .. } = looked_up;
        let (read, end, found) = (*read, records.len(), *number == FOUND);
        let substandard =
            places.iter().position(|&place| portion_grade(records[place]) == SUBSTANDARD);
        let ended = substandard.is_some();
        let behind = ended && places.last().is_some_and(|&place| place >= read);
        add("full reading, found", found && !ended && read == end);
        add("full reading, not there", *number == NOT_THERE && end > 0 && read == end);
        add("reading ended at the first of several records", ended && read == 1 && end > 1);
        add("reading ended at the last record", ended && read == end);
        add("reading ended behind the 1,000th record", ended && read > MOST_UNITS);
        add("reading ended early", ended && read < end);
        add("reading ended early, records of the code behind the end", behind);
        add("reading ended early, none of the code behind the end", ended && read < end && !behind);
        // The first Substandard portion among those of the code.
        let (several, last) = (places.len() > 1, places.len().saturating_sub(1));
        let middle = substandard.is_some_and(|nth| 0 < nth && nth < last);
        add("Substandard at no record of the code", found && !ended);
        add("Substandard at the only record of the code", ended && !several);
        add("Substandard at the first of several of the code", several && substandard == Some(0));
        add("Substandard first in the middle of the code", middle);
        let at_last = several && substandard == Some(last);
        add("Substandard first at the last of several of the code", at_last);
    }

    /// Bytes that do not count: marks, code grades, and portions of other codes.
    fn note_other_bytes(&mut self, looked_up: &LookedUp) {
        let mut add = |name: &str, is: bool| self.add(&format!("lookup: {name}"), is.into());
        let LookedUp { records, places, number, code, .. } = looked_up;
        let end = records.len();
        let wrong_mark = |at: usize| records[at][..2] != MARK;
        let portion = |at: usize| portion_grade(records[at]);
        let code_grade = |at: usize| records[at][5].min(SUBSTANDARD);
        // A portion of another code, as bad as this or worse.
        let other = |mut range: Range<usize>, least: Grade| {
            range.any(|at| code_of(records[at]) != *code && portion(at) >= least)
        };
        let absent = *number == NOT_THERE;
        add("not there, wrong marks", absent && (0..end).any(wrong_mark));
        add("not there, Substandard portions of other codes", absent && other(0..end, SUBSTANDARD));

        let mut count = |name: &str, test: &dyn Fn(usize) -> bool| {
            add(&format!("found{name}"), looked_up.found_and(test));
        };
        count(" in a record with a wrong mark", &wrong_mark);
        count(" in a record with a right mark, a wrong one at another of its code", &|at| {
            !wrong_mark(at) && places.iter().any(|&place| wrong_mark(place))
        });
        count(", a wrong mark before it", &|at| (0..at).any(wrong_mark));
        count(", no right mark at all", &|_| (0..end).all(wrong_mark));
        count(", its code grade byte worse than its portion", &|at| code_grade(at) > portion(at));
        count(", its code grade byte better than its portion", &|at| code_grade(at) < portion(at));
        count(", its two grade bytes equal", &|at| records[at][4] == records[at][5]);
        count(", a worse code grade byte at another of its code", &|at| {
            places.iter().any(|&place| place != at && code_grade(place) > portion(at))
        });
        count(", a worse portion of another code before it", &|at| other(0..at, portion(at) + 1));
        count(", a worse portion of another code behind it", &|at| other(at..end, portion(at) + 1));
        count(" Substandard, one of another code before it", &|at| {
            portion(at) == SUBSTANDARD && other(0..at, SUBSTANDARD)
        });
    }

    /// Codes that are nearly there, and are not.
    fn note_not_there(&mut self, looked_up: &LookedUp) {
        let mut add =
            |name: &str, is: bool| self.add(&format!("lookup: not there, {name}"), is.into());
        let LookedUp { records, number, code, .. } = looked_up;
        let [high, low] = code.to_be_bytes();
        let absent = *number == NOT_THERE;
        let some = |test: &dyn Fn(&&[u8]) -> bool| absent && records.iter().any(test);
        add("its bytes exchanged", some(&|record| code_of(record) == code.swap_bytes()));
        add("another high byte", some(&|record| record[3] == low));
        add("another low byte", some(&|record| record[2] == high));
        add("the next code", some(&|record| code_of(record) == code.wrapping_add(1)));
        add("the code before it", some(&|record| code_of(record) == code.wrapping_sub(1)));
        let bytes = records.concat();
        let mut at = [false; RESULT_SIZE];
        for (place, two) in bytes.windows(2).enumerate() {
            at[place % RESULT_SIZE] |= two == [high, low];
        }
        for (name, range) in ELSEWHERE {
            add(&format!("its bytes {name}"), absent && at[range].contains(&true));
        }
    }
}
