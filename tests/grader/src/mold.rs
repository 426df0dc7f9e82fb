//! "Mold counts on the tomato line", A.2 of paper 02: the mold sheet in bytes, where it is turned
//! away, its grading, its result records and lines, and every CuSum a second time. The sentences in
//! quotation marks are those of A.2 where no paper is named. "A defective field is one however many
//! defects it holds, so the two counts must never be added or compared": no count of defects comes
//! in here; what is shared with the tally sheet is the step, over tenths.

use crate::rules::{step, Step};
use crate::sheet::{Numbers, MOST_UNITS};
use crate::Answer;

/// "The mold sheet opens with mark 4D 44 and a level row (1 byte)".
pub const OPENING_SIZE: usize = 3;
/// "then records 4D 55 with code (2) and positive fields (1)".
pub const UNIT_SIZE: usize = 5;
/// "The result is mark 4D 52, 1 for met or 0 (1 byte), CuSum in tenths (2)"; "the last with 5 bytes a
/// unit".
pub const RESULT_SIZE: usize = 5;
/// "positive fields out of 25".
pub const MOST_FIELDS: u8 = 25;

/// "Rows 0 to 5 are defect action levels 5, 10, 12, 15, 20, 25 of source document 000: S 0 1 0 1 0 1,
/// T 1 2 3 3 5 6, L 1 3 2 3 2 3, in whole fields."
pub const LEVELS: [u8; 6] = [5, 10, 12, 15, 20, 25];
const S: [i64; 6] = [0, 1, 0, 1, 0, 1];
const T: [i64; 6] = [1, 2, 3, 3, 5, 6];
const L: [i64; 6] = [1, 3, 2, 3, 2, 3];

/// S, T and L of a level row, in tenths: a field is ten tenths, as a defect is.
pub fn numbers(level_row: u8) -> Numbers {
    let row = usize::from(level_row);
    Numbers { s: 10 * S[row], t: 10 * T[row], l: 10 * L[row] }
}

#[derive(Clone, Copy, Debug, PartialEq, Eq)]
pub struct Unit {
    pub code: u16,
    /// Positive fields.
    pub fields: u8,
}

#[derive(Clone, Debug)]
pub struct Sheet {
    pub level_row: u8,
    pub units: Vec<Unit>,
}

/// One unit as graded.
#[derive(Clone, Copy, Debug)]
pub struct Row {
    pub unit: Unit,
    /// "A unit meets or fails; there is no lower grade and no step 3."
    pub meets: bool,
    pub cusum: i64,
}

impl Row {
    /// "The result is mark 4D 52, 1 for met or 0 (1 byte), CuSum in tenths (2); the overshoot is left
    /// out." Nor is the code there.
    pub fn result(&self) -> [u8; RESULT_SIZE] {
        let [high, low] = u16::try_from(self.cusum).expect("a CuSum is at most L").to_be_bytes();
        [0x4D, 0x52, u8::from(self.meets), high, low]
    }
}

/// The whole sheet as graded.
#[derive(Clone, Debug)]
pub struct Graded {
    pub level_row: u8,
    pub rows: Vec<Row>,
}

/// Reads all bytes, or refuses with a number and the offset: 0 for 1 and 16, else that of the record's
/// mark.
pub fn read(bytes: &[u8]) -> Result<Sheet, (u32, usize)> {
    // "1: under 3 bytes or a wrong mark"
    if bytes.len() < OPENING_SIZE || bytes[..2] != [0x4D, 0x44] {
        return Err((1, 0));
    }
    // "16, level row above 5, offset 0, after the opening mark"
    let level_row = bytes[2];
    if level_row > 5 {
        return Err((16, 0));
    }
    let mut units = Vec::new();
    // "Records are checked left to right, each wholly before the next" (paper 01).
    let mut at = OPENING_SIZE;
    while at < bytes.len() {
        let unit = read_unit(&bytes[at..], units.len()).map_err(|number| (number, at))?;
        units.push(unit);
        at += UNIT_SIZE;
    }
    Ok(Sheet { level_row, units })
}

/// The record at the start of `rest` (which is not empty), behind so many units; numbers 6, 7, 12 and
/// 17 in this order.
fn read_unit(rest: &[u8], units: usize) -> Result<Unit, u32> {
    // "6 (here any mark but 4D 55)"; "one byte left" (paper 01)
    if rest.get(..2) != Some(&[0x4D, 0x55]) {
        return Err(6);
    }
    // "record cut short" (paper 01)
    if rest.len() < UNIT_SIZE {
        return Err(7);
    }
    // "a unit after the 1,000th" (paper 01)
    if units >= MOST_UNITS {
        return Err(12);
    }
    // "17, positive fields above 25, in the place of 8", which is behind 12. "Every code is allowed"
    // (paper 01).
    let fields = rest[4];
    if fields > MOST_FIELDS {
        return Err(17);
    }
    Ok(Unit { code: u16::from_be_bytes([rest[2], rest[3]]), fields })
}

/// "The CuSum step is the old one": "Every CuSum begins at the S"; "Raw value = old CuSum + ten times
/// the count - T" (paper 01). A failure takes the CuSum to L and does nothing else: "there is no
/// lower grade and no step 3".
pub fn grade_sheet(sheet: &Sheet) -> Graded {
    let numbers = numbers(sheet.level_row);
    let mut old = numbers.s;
    let mut rows = Vec::new();
    for &unit in &sheet.units {
        let Step { cusum, fails, .. } = step(old, 10 * i64::from(unit.fields), numbers);
        rows.push(Row { unit, meets: !fails, cusum });
        old = cusum;
    }
    Graded { level_row: sheet.level_row, rows }
}

/// Grades a mold sheet into the result buffer: "returns and buffer are as for a sheet".
pub fn grade(sheet: &[u8], results: &mut [u8]) -> Answer {
    grade_traced(sheet, results, false).0
}

/// As [`grade`], and hands out the trace of an accepted sheet. With `check`, every CuSum is also
/// computed by the 'largest of' formula of demand 3, and a difference panics.
pub fn grade_traced(sheet: &[u8], results: &mut [u8], check: bool) -> (Answer, Option<Graded>) {
    // "A refusal returns its number, no units, and the offset [...] The buffer keeps every byte."
    // (paper 01)
    let refuse = |number, offset| (Answer { number, units: 0, offset }, None);
    let mold = match read(sheet) {
        Ok(mold) => mold,
        Err((number, offset)) => return refuse(number, offset),
    };
    let graded = grade_sheet(&mold);
    if check {
        cusums_twice(&graded);
    }
    let units = graded.rows.len();
    // "12 and 13 apply, the last with 5 bytes a unit".
    if results.len() < RESULT_SIZE * units {
        return refuse(13, sheet.len());
    }
    // "bytes behind the last result record keep theirs." (paper 01)
    for (row, place) in graded.rows.iter().zip(results.chunks_exact_mut(RESULT_SIZE)) {
        place.copy_from_slice(&row.result());
    }
    // "Acceptance returns 0, the number of units and the sheet's length" (paper 01).
    (Answer { number: 0, units, offset: sheet.len() }, Some(graded))
}

/// A line a unit. The papers say how a tally sheet is printed, and not how a mold sheet is: fields
/// parted by one space, unit number from 1, code, both in decimal, m or f, CuSum with one decimal.
pub fn print(sheet: &[u8]) -> String {
    print_checked(sheet, false)
}

/// As [`print`], with the self check switched by `check`.
pub fn print_checked(sheet: &[u8], check: bool) -> String {
    // As for a tally sheet: "Input above 65,536 bytes is number 15, offset 65536, before all else."
    if sheet.len() > 65_536 {
        return "refused 15 65536\n".to_string();
    }
    let mut results = vec![0; RESULT_SIZE * MOST_UNITS];
    let (answer, graded) = grade_traced(sheet, &mut results, check);
    let Some(graded) = graded else {
        return format!("refused {} {}\n", answer.number, answer.offset);
    };
    // The line is made from the record's bytes, so that these are tested too; the code is not there.
    let mut lines = String::new();
    let records = results.chunks_exact(RESULT_SIZE);
    for (unit, (row, record)) in graded.rows.iter().zip(records).enumerate() {
        let letter = ['f', 'm'][usize::from(record[2])];
        let cusum = u16::from_be_bytes([record[3], record[4]]);
        let code = row.unit.code;
        lines += &format!("{} {code} {letter} {}.{}\n", unit + 1, cusum / 10, cusum % 10);
    }
    lines
}

/// For each unit whether it meets, and its CuSum, a second time and from the counts alone: "the
/// largest of zero, the anchor plus the sum of defects less T since it, and every such sum, without
/// the anchor, over a run of units that starts after the anchor and ends with this unit; the anchor
/// is L at the latest failure in that class, this unit's included, [...] else S" (demand 3), with
/// positive fields in place of defects. A mold sheet has one class and no restart, so that an anchor
/// S lies at its opening. Quadratic in the units.
pub fn largest_of(numbers: Numbers, fields: &[u8]) -> Vec<(bool, i64)> {
    let less_t = |unit: usize| 10 * i64::from(fields[unit]) - numbers.t;
    // Largest of `least` and the sums up to and including this unit, after an anchor that has so many
    // units before it and in it.
    let largest = |least: i64, anchor: i64, start: usize, unit: usize| {
        let (mut largest, mut sum) = (least, 0);
        for at in (start..=unit).rev() {
            sum += less_t(at);
            largest = largest.max(sum);
        }
        largest.max(anchor + sum)
    };
    let (mut anchor, mut start) = (numbers.s, 0);
    let mut graded = Vec::new();
    for unit in 0..fields.len() {
        // The raw value is this form without zero, with the anchor before this unit: this unit's
        // fields less T added to each sum in that of the CuSum before it.
        let meets = largest(less_t(unit), anchor, start, unit) <= numbers.l;
        // "An anchor L lies at the failing unit, whose own count is then not in the sum" (paper 01).
        if !meets {
            (anchor, start) = (numbers.l, unit + 1);
        }
        graded.push((meets, largest(0, anchor, start, unit)));
    }
    graded
}

/// Panics if a unit's standing or CuSum is not that of [`largest_of`].
pub fn cusums_twice(graded: &Graded) {
    let fields: Vec<u8> = graded.rows.iter().map(|row| row.unit.fields).collect();
    let again = largest_of(numbers(graded.level_row), &fields);
    for (unit, (row, (meets, cusum))) in graded.rows.iter().zip(again).enumerate() {
        assert_eq!(row.cusum, cusum, "two CuSums at unit {}", unit + 1);
        assert_eq!(row.meets, meets, "failure at unit {}", unit + 1);
    }
}
