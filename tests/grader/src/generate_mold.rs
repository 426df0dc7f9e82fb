//! Seeded random mold sheets (A.2 of paper 02): valid ones of every level row that meet at L, fail
//! once and several times, and fall below zero; damaged ones for every refusal number; messy ones;
//! and counts of what happened in them.

use crate::generate::{Case, Counts, Dice};
use crate::mold::{self, Graded, Row, Sheet, Unit, LEVELS, MOST_FIELDS, OPENING_SIZE, RESULT_SIZE};
use crate::rules::step;
use crate::sheet::{Numbers, MOST_UNITS};
use crate::Answer;

/// Room for the result records of any mold sheet.
pub const MOST_ROOM: usize = RESULT_SIZE * MOST_UNITS;

/// The refusals of a mold sheet.
pub const NUMBERS: [u32; 7] = [1, 6, 7, 12, 13, 16, 17];

impl Unit {
    pub fn bytes(&self) -> [u8; mold::UNIT_SIZE] {
        let [high, low] = self.code.to_be_bytes();
        [0x4D, 0x55, high, low, self.fields]
    }
}

impl Sheet {
    pub fn bytes(&self) -> Vec<u8> {
        let mut bytes = vec![0x4D, 0x44, self.level_row];
        bytes.extend(self.units.iter().flat_map(Unit::bytes));
        bytes
    }

    /// The offset of the mark of a unit, or the sheet's length.
    pub fn offset(&self, unit: usize) -> usize {
        OPENING_SIZE + mold::UNIT_SIZE * unit
    }
}

/// A mold sheet of this row with these positive fields; codes are 1, 2, ...
pub fn mold_sheet(level_row: u8, fields: &[u8]) -> Sheet {
    let units = (1..).zip(fields).map(|(code, &fields)| Unit { code, fields }).collect();
    Sheet { level_row, units }
}

/// Where the raw value of a unit is to lie, as far as 0 to 25 fields can take it there.
#[derive(Clone, Copy)]
enum Aim {
    Limit,
    OverLimit,
    Zero,
    BelowZero,
    Anywhere,
}

/// A valid sheet of `least` to 1,000 units.
fn draft(dice: &mut Dice, least: usize) -> Sheet {
    let mut draft = Sheet { level_row: dice.below(LEVELS.len()) as u8, units: Vec::new() };
    let numbers = mold::numbers(draft.level_row);
    let Numbers { s, t, l } = numbers;
    let passages = if dice.chance(1) { 150 } else { dice.pick(&[0, 1, 2, 3, 5, 8, 12]) };
    let (mut passage, mut cusum) = (0, s);
    while passage < passages || draft.units.len() < least {
        passage += 1;
        let aims = [Aim::Limit, Aim::OverLimit, Aim::Zero, Aim::BelowZero, Aim::Anywhere];
        let aim = dice.pick(&aims);
        for _ in 0..dice.pick(&[1, 1, 1, 2, 3, 5]) {
            let raw = match aim {
                Aim::Limit => l,
                Aim::OverLimit => l + 10 * dice.pick(&[1, 1, 2, 5, 20]),
                Aim::Zero => 0,
                Aim::BelowZero => -10 * dice.between(1, 3),
                Aim::Anywhere => 10 * dice.between(-6, 25),
            };
            let fields = ((raw - cusum + t) / 10).clamp(0, i64::from(MOST_FIELDS));
            cusum = step(cusum, 10 * fields, numbers).cusum;
            let next = draft.units.len() as u16 + 1;
            let code = dice.pick(&[next, next, next, next / 2, 1, 0, 255, 256, u16::MAX]);
            draft.units.push(Unit { code, fields: fields as u8 });
        }
    }
    draft.units.truncate(MOST_UNITS);
    draft
}

/// Damages the bytes of a draft (with a unit; with 1,000 for number 12), so that they are refused
/// with this number, which is not 13, if nothing else is wrong; returns the offset.
fn damage(dice: &mut Dice, draft: &Sheet, sheet: &mut Vec<u8>, number: u32) -> usize {
    // Number 6 needs a place between records, 7 and 17 a record.
    let places = if number == 6 { draft.units.len() + 1 } else { draft.units.len() };
    // Often the first or the last place.
    let anywhere = dice.below(places);
    let at = dice.pick(&[0, anywhere, anywhere, places - 1]);
    let offset = if [1, 16].contains(&number) { 0 } else { draft.offset(at) };
    match number {
        1 if dice.chance(50) => sheet.truncate(dice.below(OPENING_SIZE)),
        1 if dice.chance(50) => sheet[dice.below(2)] ^= dice.pick(&[1, 2, 0x1C, 255]),
        1 => {
            let mark = dice.pick(&[[0x50, 0x4C], [0x4D, 0x55], [0x4D, 0x52], [0x44, 0x4D]]);
            sheet[..2].copy_from_slice(&mark);
        }
        16 => sheet[2] = dice.pick(&[6, 7, 10, 12, 25, 128, 255]),
        6 if dice.chance(50) => {
            sheet.truncate(offset);
            sheet.push(dice.pick(&[0x4D, 0x4D, 0x53, 0x55, 0]));
        }
        6 => {
            // Marks of the other records, mixed letters, and none.
            let marks = [[0x53, 0x55], [0x4D, 0x44], [0x4D, 0x52], [0x42, 0x4B], [0x52, 0x44]];
            let others = [[0x4D, 0x54], [0x4C, 0x55], [0x55, 0x4D], [0x6D, 0x75], [0, 0]];
            let mark = dice.pick(&[marks, others].concat());
            sheet.splice(offset..offset, [mark[0], mark[1], 0, 1, 2]);
        }
        7 => sheet.truncate(offset + 2 + dice.below(mold::UNIT_SIZE - 2)),
        17 => sheet[offset + 4] = dice.pick(&[26, 27, 32, 128, 255]),
        _ => {
            // 12 goes before 17.
            let (end, fields) = (sheet.len(), dice.pick(&[0, 3, 25, 26, 255]));
            sheet.extend(Unit { code: 9, fields }.bytes());
            sheet.extend([0x4D, 0x55, 0, 9, 26].repeat(dice.pick(&[0, 0, 0, 1, 60])));
            return end;
        }
    }
    offset
}

/// A valid sheet for number 0 (a few with exactly 1,000 units), else one that is refused with this
/// number, one of [`NUMBERS`], and no other.
pub fn expecting(dice: &mut Dice, number: u32) -> Case {
    let full = number == 12 || dice.chance(1);
    let draft = draft(dice, if full { MOST_UNITS } else { number.min(1) as usize });
    let (mut sheet, needed) = (draft.bytes(), RESULT_SIZE * draft.units.len());
    let (room, offset) = match number {
        0 => (needed + dice.pick(&[0, 0, 1, RESULT_SIZE - 1, RESULT_SIZE, 100]), sheet.len()),
        13 => {
            let short = [0, needed / 2, needed - RESULT_SIZE, needed - 1, needed - 1];
            (dice.pick(&short), sheet.len())
        }
        // 13 is checked last, so that the buffer may be short for the others.
        _ => (dice.pick(&[0, RESULT_SIZE, MOST_ROOM]), damage(dice, &draft, &mut sheet, number)),
    };
    Case { sheet, room, expected: Some((number, offset)) }
}

/// Several damages at once, or bytes changed anywhere; what comes of it is not known beforehand.
fn messy(dice: &mut Dice) -> Case {
    let draft = draft(dice, 1);
    let mut sheet = draft.bytes();
    for _ in 0..dice.below(3) {
        let number = dice.pick(&[16, 17, 17, 17, 12]);
        damage(dice, &draft, &mut sheet, number);
    }
    for _ in 0..dice.below(4) {
        let at = dice.below(sheet.len());
        match dice.below(4) {
            0 => sheet[at] ^= 1 << dice.below(8),
            1 => sheet.insert(at, dice.below(256) as u8),
            2 => sheet.truncate(at + 1),
            _ => sheet[at] = dice.below(256) as u8,
        }
    }
    let room = dice.pick(&[0, RESULT_SIZE - 1, 10 * RESULT_SIZE, MOST_ROOM]);
    Case { sheet, room, expected: None }
}

/// Random bytes behind a right opening: any, or in records that begin with the right mark.
fn random_bytes(dice: &mut Dice) -> Case {
    let mut sheet = vec![0x4D, 0x44, dice.below(LEVELS.len()) as u8];
    let most = dice.pick(&[2, 10, 30]);
    for _ in 0..dice.below(most) {
        if dice.chance(80) {
            sheet.extend([0x4D, 0x55]);
        }
        let length = dice.pick(&[3, 3, 3, 3, 2, 1]);
        let most = dice.pick(&[27, 27, 27, 27, 256]);
        sheet.extend((0..length).map(|_| dice.below(most) as u8));
    }
    let room = dice.pick(&[0, RESULT_SIZE, MOST_ROOM]);
    Case { sheet, room, expected: None }
}

/// The mold sheet of this seed: six in ten valid, else damaged, messy or of random bytes.
pub fn mold_case(seed: u64) -> Case {
    let dice = &mut Dice(seed);
    match dice.below(100) {
        0..=57 => expecting(dice, 0),
        percent @ 58..=85 => expecting(dice, NUMBERS[(percent - 58) / 4]),
        86..=92 => random_bytes(dice),
        _ => messy(dice),
    }
}

/// What is counted of mold sheets.
impl Counts {
    /// Takes in a mold sheet, its answer and its trace, as [`mold::grade_traced`] hands them out.
    pub fn note_mold(&mut self, sheet: &[u8], answer: Answer, graded: Option<&Graded>) {
        let mut add = |name: &str, times: usize| self.add(&format!("mold: {name}"), times);
        let Answer { number, offset, .. } = answer;
        for known in [&[0], &NUMBERS[..]].concat() {
            add(&format!("number {known:02}"), usize::from(number == known));
        }
        for known in [6, 7, 17] {
            let [first, later] =
                [offset == OPENING_SIZE, offset > OPENING_SIZE].map(|at| at && number == known);
            add(&format!("number {known:02} at the first record"), usize::from(first));
            add(&format!("number {known:02} at a later record"), usize::from(later));
        }
        let short = sheet.len() < OPENING_SIZE;
        add("number 01 for a short sheet", usize::from(number == 1 && short));
        add("number 01 for a wrong mark", usize::from(number == 1 && !short));
        let left = sheet.len() - offset.min(sheet.len());
        add("number 06 for one byte left", usize::from(number == 6 && left == 1));
        add("number 06 for another mark", usize::from(number == 6 && left > 1));
        for wanted in 2..mold::UNIT_SIZE {
            let cut = number == 7 && left == wanted;
            add(&format!("number 07 with {wanted} bytes of a unit"), usize::from(cut));
        }
        let too_many_fields = sheet.get(offset + 4).is_some_and(|&fields| fields > MOST_FIELDS);
        add("number 12 with fields above 25", usize::from(number == 12 && too_many_fields));
        let first_row_above = number == 16 && sheet[2] == 6;
        add("number 16 for row 6", usize::from(first_row_above));
        add("number 17 for 26 fields", usize::from(number == 17 && sheet[offset + 4] == 26));

        let rows: &[Row] = graded.map_or(&[], |graded| &graded.rows);
        add("accepted without a unit", usize::from(graded.is_some() && rows.is_empty()));
        add("accepted with 1,000 units", usize::from(rows.len() == MOST_UNITS));
        let with = |test: fn(&Row) -> bool| rows.iter().filter(|row| test(row)).count();
        add("unit with no positive field", with(|row| row.unit.fields == 0));
        add("unit with 25 positive fields", with(|row| row.unit.fields == MOST_FIELDS));
        add("code above 255", with(|row| row.unit.code > 255));
        let codes: std::collections::BTreeSet<u16> = rows.iter().map(|row| row.unit.code).collect();
        add("code met again", rows.len() - codes.len());
        let failures = |units: usize| {
            rows.windows(units).filter(|rows| rows.iter().all(|row| !row.meets)).count()
        };
        add("two failures in a row", failures(2));
        add("five failures in a row", failures(5));
        for row in 0..LEVELS.len() as u8 {
            let mut units: &[Row] = &[];
            if graded.is_some_and(|graded| graded.level_row == row) {
                units = rows;
            }
            let numbers = mold::numbers(row);
            // Each unit with the CuSum before it and its raw value.
            let before = [numbers.s].into_iter().chain(units.iter().map(|unit| unit.cusum));
            let steps: Vec<(&Row, i64, i64)> = units
                .iter()
                .zip(before)
                .map(|(unit, old)| (unit, old, old + 10 * i64::from(unit.unit.fields) - numbers.t))
                .collect();
            let mut count = |name: &str, test: &dyn Fn(&Row, i64, i64) -> bool| {
                let times = steps.iter().filter(|(unit, old, raw)| test(unit, *old, *raw)).count();
                add(&format!("row {row}: {name}"), times);
            };
            count("unit met", &|unit, _, _| unit.meets);
            count("unit failed", &|unit, _, _| !unit.meets);
            count("raw value of exactly L", &|_, _, raw| raw == numbers.l);
            count("raw value one field above L", &|_, _, raw| raw == numbers.l + 10);
            count("raw value of exactly zero", &|_, _, raw| raw == 0);
            count("raw value below zero", &|_, _, raw| raw < 0);
            let mut after_failure = |name: &str, meets: bool| {
                let pairs = units.windows(2);
                let wanted = pairs.filter(|pair| !pair[0].meets && pair[1].meets == meets);
                add(&format!("row {row}: {name} after a failure"), wanted.count());
            };
            after_failure("unit met", true);
            after_failure("unit failed", false);
            // The first unit alone tells S from S-1 and S+1 there.
            let telling = steps.first().is_some_and(|(_, _, raw)| (1..=numbers.l).contains(raw));
            add(&format!("row {row}: first raw value from above zero to L"), usize::from(telling));
        }
    }

    /// Takes in how the result buffer of a mold sheet fits, which printing does not show.
    pub fn note_mold_room(&mut self, sheet: &[u8], room: usize, answer: Answer) {
        let mut add = |name: &str, is: bool| self.add(&format!("mold: {name}"), usize::from(is));
        let needed = RESULT_SIZE * mold::read(sheet).map_or(0, |sheet| sheet.units.len());
        let accepted = answer.number == 0;
        add("buffer longer than needed", accepted && room > needed);
        add("buffer exactly long enough", accepted && room == needed && needed > 0);
        add("buffer one byte too short", answer.number == 13 && room + 1 == needed);
        add("buffer without a byte and no unit", accepted && room == 0);
    }
}
