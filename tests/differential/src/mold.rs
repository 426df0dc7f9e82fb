//! Mold sheets (A.2 of paper 02): the library against the independent grader, as for tally sheets.

use crate::{compare_with, fill, report, Kind};
use grader::generate::Counts;
use grader::generate_mold::mold_case;
use grader::mold::{cusums_twice, grade_traced, RESULT_SIZE};

/// Compares the mold sheet of this seed. Says whether it is accepted, so that its recorded CuSums were
/// computed once more.
pub fn compare(seed: u64, counts: &mut Counts) -> bool {
    let made = mold_case(seed);
    let sheet = &made.sheet[..];
    let fill = fill(seed);
    let mut expected = vec![fill; made.room];
    let (answer, graded) = grade_traced(sheet, &mut expected, false);
    let results = compare_with(Kind::Mold, seed, sheet, fill, answer, &expected);
    counts.note_mold(sheet, answer, graded.as_ref());
    counts.note_mold_room(sheet, made.room, answer);
    let Some(mut graded) = graded else { return false };
    // Demand 3, first half, on recorded bytes: the grader's 'largest of' form against the standings
    // and CuSums that the library recorded.
    for (row, record) in graded.rows.iter_mut().zip(results.chunks_exact(RESULT_SIZE)) {
        row.meets = record[2] == 1;
        row.cusum = i64::from(u16::from_be_bytes([record[3], record[4]]));
    }
    if std::panic::catch_unwind(|| cusums_twice(&graded)).is_err() {
        let what = "the 'largest of' form";
        report(Kind::Mold, what, seed, sheet, &"recorded", &"computed");
    }
    true
}
