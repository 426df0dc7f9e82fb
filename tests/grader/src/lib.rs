//! An independent grader of tally sheets, mold sheets and warehouse lots, written from paper 01
//! (`01-scope.md`) and A.1, A.2, A.4, A.5, A.6, A.7 and A.8 of paper 02 (`02-change-requests.md`)
//! alone. It is plain on purpose: the whole sheet is read, then graded, then written. The papers'
//! sentences stand in quotation marks at the code that follows them; they are those of paper 01 where
//! no paper is named. Mold sheets have a module of their own, [`mold`], and so have lots, [`lot`]; all
//! else is about tally sheets. These are graded again under a second plan in [`regrade`], by the same
//! steps and with the same result records and lines. In finished results of either a code is looked up
//! in [`lookup`].

pub mod check;
pub mod failure;
pub mod generate;
pub mod generate_largest;
pub mod generate_lookup;
pub mod generate_lot;
pub mod generate_mold;
pub mod generate_regrade;
pub mod lookup;
pub mod lot;
pub mod mold;
pub mod peach;
pub mod regrade;
pub mod rules;
pub mod sheet;
#[cfg(test)]
mod tests;
#[cfg(test)]
mod tests_largest;
#[cfg(test)]
mod tests_lookup;
#[cfg(test)]
mod tests_lot;
#[cfg(test)]
mod tests_mold;
#[cfg(test)]
mod tests_regrade;

pub use rules::RESULT_SIZE;

/// Number 0 for acceptance, else 1 to 13 as in "Where a sheet is turned away"; of a mold sheet also 16
/// and 17, of a regrading also 18. "Number 14 is not used again" (paper 02, A.7).
#[derive(Clone, Copy, Debug, PartialEq, Eq)]
pub struct Answer {
    pub number: u32,
    pub units: usize,
    pub offset: usize,
}

/// Grades a sheet into the result buffer.
pub fn grade(sheet: &[u8], results: &mut [u8]) -> Answer {
    grade_traced(sheet, results, false).0
}

/// As [`grade`], but the code grades in the records mean nothing: for a caller that finds them in a
/// way of its own.
pub fn grade_but_codes(sheet: &[u8], results: &mut [u8]) -> Answer {
    grade_by(rules::grade_portions, sheet, results, false).0
}

/// As [`grade`], and hands out the trace of an accepted sheet. With `check`, every CuSum is also
/// computed by the 'largest of' formula of demand 3 and every overshoot by sums like those, every
/// start of a lower plan is found by the failures in a row, and a difference panics.
pub fn grade_traced(
    sheet: &[u8],
    results: &mut [u8],
    check: bool,
) -> (Answer, Option<rules::Graded>) {
    grade_by(rules::grade_sheet, sheet, results, check)
}

fn grade_by(
    grade_sheet: fn(&sheet::Sheet) -> rules::Graded,
    sheet: &[u8],
    results: &mut [u8],
    check: bool,
) -> (Answer, Option<rules::Graded>) {
    let tally = match sheet::read(sheet) {
        Ok(tally) => tally,
        Err((number, offset)) => return refuse(number, offset),
    };
    let graded = grade_sheet(&tally);
    if check {
        check::cusums_twice(&graded);
        check::overshoots_twice(&graded);
        check::lower_plans_twice(&graded);
    }
    write(graded, sheet.len(), results)
}

/// "A refusal returns its number, no units, and the offset [...] The buffer keeps every byte."
pub(crate) fn refuse(number: u32, offset: usize) -> (Answer, Option<rules::Graded>) {
    (Answer { number, units: 0, offset }, None)
}

/// Number 13, or the result records, of a graded sheet of this length.
pub(crate) fn write(
    graded: rules::Graded,
    length: usize,
    results: &mut [u8],
) -> (Answer, Option<rules::Graded>) {
    let units = graded.rows.len();
    // "Number 13 counts 32 bytes a unit" (paper 02, A.1).
    if results.len() < RESULT_SIZE * units {
        return refuse(13, length);
    }
    // "bytes behind the last result record keep theirs."
    for (row, place) in graded.rows.iter().zip(results.chunks_exact_mut(RESULT_SIZE)) {
        place.copy_from_slice(&row.result());
    }
    // "Acceptance returns 0, the number of units and the sheet's length".
    (Answer { number: 0, units, offset: length }, Some(graded))
}

/// The lines of "The printing program".
pub fn print(sheet: &[u8]) -> String {
    print_checked(sheet, false)
}

/// As [`print`], with the self check switched by `check`.
pub fn print_checked(sheet: &[u8], check: bool) -> String {
    print_by(|results| grade_traced(sheet, results, check).0, sheet)
}

/// The lines of this sheet, with the result records of this grading.
pub(crate) fn print_by(grade: impl FnOnce(&mut [u8]) -> Answer, sheet: &[u8]) -> String {
    // "Input above 65,536 bytes is number 15, offset 65536, before all else."
    if sheet.len() > 65_536 {
        return "refused 15 65536\n".to_string();
    }
    let mut results = vec![0; RESULT_SIZE * sheet::MOST_UNITS];
    let answer = grade(&mut results);
    if answer.number != 0 {
        return format!("refused {} {}\n", answer.number, answer.offset);
    }
    // "unit number from 1, code, both in decimal, portion grade, code grade (A, B, C, S), standing
    // (m, f, u, r for 0 to 3), plan grade (S for none), four CuSums with one decimal." "The printed
    // lines don't change" (paper 02, A.1): no overshoots. The line is made from the record's bytes, so
    // that these are tested too.
    let letter = |letters: &[u8; 4], byte: u8| char::from(letters[usize::from(byte)]);
    let mut lines = String::new();
    for (unit, record) in results.chunks_exact(RESULT_SIZE).take(answer.units).enumerate() {
        let two = |at: usize| u16::from_be_bytes([record[at], record[at + 1]]);
        lines += &format!("{} {}", unit + 1, two(2));
        for (at, letters) in [(4, b"ABCS"), (5, b"ABCS"), (7, b"mfur"), (6, b"ABCS")] {
            lines += &format!(" {}", letter(letters, record[at]));
        }
        for at in [8, 10, 12, 14] {
            lines += &format!(" {}.{}", two(at) / 10, two(at) % 10);
        }
        lines.push('\n');
    }
    lines
}
