//! Every count of defects and of positive fields, over the boundary. "Turning a count into tenths shall
//! use shifts and sums" (A.3 of paper 02): what the compiler makes of them is not proved.

use crate::{compare_with, report, Kind, OVERSHOOTS};
use grader::generate::{counted, table};
use grader::generate_mold::mold_sheet;
use grader::mold::{self, LEVELS, MOST_FIELDS};
use grader::sheet::{Record, Sheet};
use grader::{grade_traced, RESULT_SIZE};
use hatmuyon::ffi;

/// "a count above 2,000" is refused.
const MOST_DEFECTS: i64 = 2_000;
/// The kinds of defects that have the count: each alone, and all.
const KINDS: [[i64; 4]; 5] = [[1, 0, 0, 0], [0, 1, 0, 0], [0, 0, 1, 0], [0, 0, 0, 1], [1, 1, 1, 1]];

/// A sheet whose L in every class is that of its grade; every S and T is 0.
fn sheet(limits: [i64; 3], records: Vec<Record>) -> Vec<u8> {
    let table = table(limits.map(|limit| [[0, 0, limit]; 4]));
    Sheet { designated: 0, table, records }.bytes()
}

/// Compares a sheet, which must be accepted, so that its count is graded.
fn compare(count: i64, sheet: &[u8]) -> Vec<u8> {
    let fill = fill(count as u64);
    let mut expected = vec![fill; 4 * RESULT_SIZE];
    let (answer, _) = grade_traced(sheet, &mut expected, false);
    assert_eq!(answer.number, 0, "a sheet of the count {count}");
    compare_with(Kind::Tally, count as u64, sheet, fill, answer, &expected)
}

/// Another byte than zero, which an overshoot or a CuSum may have.
fn fill(count: u64) -> u8 {
    1 + (count % 251) as u8
}

/// Compares a unit with these counts where L is 0, so that the tenths of a class are its overshoot and
/// must be its count added ten times; where L is the largest; and in step 3, behind two units that fail.
/// Answers how many sheets these are.
fn compare_counts(count: i64, counts: [i64; 4]) -> usize {
    let unit = counted(1, counts);
    let fails = counted(1, [1, 0, 0, 0]);
    let alone = sheet([0; 3], vec![unit]);
    let results = compare(count, &alone);
    let [critical, severe, major, minor] = counts;
    let total = critical + severe + major + minor;
    for (class, of_class) in [critical, severe, major, total].into_iter().enumerate() {
        let recorded = &results[OVERSHOOTS + 4 * class..][..4];
        let recorded = u32::from_be_bytes(recorded.try_into().expect("four bytes"));
        let tenths: i64 = [of_class; 10].iter().sum();
        if i64::from(recorded) != tenths {
            report(Kind::Tally, "ten times a count", count as u64, &alone, &recorded, &tenths);
        }
    }
    compare(count, &sheet([9_999; 3], vec![unit]));
    let third = compare(count, &sheet([0, 10, 10], vec![fails, fails, unit]));
    assert_eq!(third[2 * RESULT_SIZE + ffi::RESULT_STANDING], 2, "the third unit is in step 3");
    3
}

/// Compares every count of defects. Answers how many sheets these are.
pub fn defects() -> usize {
    let counts = (0..=MOST_DEFECTS).flat_map(|count| KINDS.map(|kinds| (count, kinds)));
    counts.map(|(count, kinds)| compare_counts(count, kinds.map(|kind| kind * count))).sum()
}

/// Compares every number of positive fields at every level, at the first unit and behind one that
/// fails. Answers how many sheets these are.
pub fn fields() -> usize {
    let rows = 0..LEVELS.len() as u8;
    let sheets = rows.flat_map(|row| (0..=MOST_FIELDS).map(move |fields| (row, fields)));
    let compared = sheets.map(|(row, fields)| {
        let sheet = mold_sheet(row, &[fields, MOST_FIELDS, fields]).bytes();
        let fill = fill(u64::from(fields));
        let mut expected = vec![fill; 4 * mold::RESULT_SIZE];
        let (answer, _) = mold::grade_traced(&sheet, &mut expected, false);
        assert_eq!(answer.number, 0, "a mold sheet of {fields} fields");
        compare_with(Kind::Mold, u64::from(fields), &sheet, fill, answer, &expected);
    });
    compared.count()
}
