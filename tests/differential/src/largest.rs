//! Sheets and regradings with the largest CuSums (A.7 of paper 02), over the boundary: "no accepted
//! plan and no counts lead" to one that is too large for two bytes, and nothing is refused for it.

use crate::{compare_traced, largest_of, Kind};
use grader::generate::Counts;
use grader::generate_largest::{largest_case, largest_regrade_case};
use grader::generate_largest::{note_largest, note_largest_case};
use grader::generate_largest::{note_largest_regrade_case, note_largest_regrading};
use grader::grade_traced;
use grader::regrade::regrade_traced;

/// Compares the sheet of this seed. Says whether its recorded CuSums were computed once more.
pub fn compare(seed: u64, counts: &mut Counts) -> bool {
    let case = largest_case(seed);
    let grade = |results: &mut [u8]| grade_traced(&case.sheet, results, false);
    let compared = compare_traced(Kind::Tally, seed, &case.sheet, case.room, counts, grade);
    note_largest(counts, compared.answer.number, compared.graded.as_ref());
    note_largest_case(counts, &case, compared.answer.number);
    largest_of(Kind::Tally, seed, &case.sheet, compared.graded.as_ref())
}

/// The same with the regrading of this seed.
pub fn compare_regrading(seed: u64, counts: &mut Counts) -> bool {
    let case = largest_regrade_case(seed);
    let kind = Kind::Regrading(&case.plan);
    let regrade = |results: &mut [u8]| regrade_traced(&case.sheet, &case.plan, results, false);
    let compared = compare_traced(kind, seed, &case.sheet, case.room, counts, regrade);
    note_largest_regrading(counts, compared.answer.number, compared.graded.as_ref());
    note_largest_regrade_case(counts, &case, compared.answer.number);
    largest_of(kind, seed, &case.sheet, compared.graded.as_ref())
}
