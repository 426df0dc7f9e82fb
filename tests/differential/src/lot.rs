//! Warehouse lots (A.8 of paper 02): the library against the independent grader, on random lots, on
//! pairs with what demand 3 gains there, and around every acceptance number.

use crate::grader_command;
use grader::generate::Dice;
use grader::generate_lot::{lot_case, lot_pair, table_cases, LotCase, LotCounts, Made};
use grader::lot::{grade_lot, Lot, LotAnswer, LOT_SIZE};
use hatmuyon::ffi;
use std::fmt::Debug;

/// Bytes before the lot, and behind it: one lot.
const GUARD: usize = LOT_SIZE;

/// Says what differs, writes the lot to a file, says how to see what the grader prints for it, and ends
/// the run.
fn report(what: &str, seed: u64, lot: &[u8], ours: &dyn Debug, theirs: &dyn Debug) -> ! {
    println!("differential: {what} of a lot differs at seed {seed}");
    println!("  library: {ours:?}\n  grader:  {theirs:?}");
    let path = std::env::temp_dir().join(format!("hatmuyon-differs-{seed}.lot"));
    std::fs::write(&path, lot).expect("cannot write the lot");
    let path = path.display();
    println!("  the sheet: {path}");
    println!("  see it: {} -- --lot < {path}", grader_command());
    std::process::exit(1);
}

/// Grades a lot by the library, inside a larger buffer, all of which must stay as it was, and compares
/// its answer with the grader's, which is handed out.
fn compare_bytes(seed: u64, lot: &[u8]) -> LotAnswer {
    // Guard bytes that would make a lot of one that is cut short, if they were read.
    let guard =
        Lot { sample_units: 6, aqls: [[10; 4]; 3], counts: [0; 4], prerequisite: 0 }.bytes();
    let mut memory = [&guard, lot, &guard].concat();
    let lent = memory[GUARD..GUARD + lot.len()].as_mut_ptr();
    // Safety: the pointer is valid for the length.
    let ffi::LotAnswer { number, grade, offset } =
        unsafe { ffi::hatmuyon_grade_lot(lent, lot.len()) };
    let (before, rest) = memory.split_at(GUARD);
    let (lent, behind) = rest.split_at(lot.len());
    if [before, behind] != [&guard; 2] {
        report("a guard byte", seed, lot, &[before, behind], &guard);
    }
    if lent != lot {
        let at = lent.iter().zip(lot).position(|(a, b)| a != b).unwrap_or(0);
        report(&format!("byte {at}"), seed, lot, &lent[at], &lot[at]);
    }
    let (returned, expected) = (LotAnswer { number, grade, offset }, grade_lot(lot));
    if returned != expected {
        report("the answer", seed, lot, &returned, &expected);
    }
    returned
}

fn compare_case(seed: u64, case: &LotCase, counts: &mut LotCounts) {
    let answer = compare_bytes(seed, &case.lot);
    if let Some(known) = case.expected.filter(|known| *known != answer) {
        report("the answer by its making", seed, &case.lot, &answer, &known);
    }
    counts.add(case, answer);
}

/// Compares the lot of this seed.
pub fn compare(seed: u64, counts: &mut LotCounts) {
    compare_case(seed, &lot_case(seed), counts);
}

/// As [`compare`], with 65,536 and more bytes behind the lot; with exactly so many its length is the
/// same in its last two bytes.
pub fn compare_long(seed: u64, counts: &mut LotCounts) {
    let mut case = lot_case(seed);
    let dice = &mut Dice(seed);
    let more = if dice.chance(50) { 0 } else { dice.below(1_100) };
    case.lot.resize(case.lot.len() + 65_536 + more, seed as u8);
    (case.expected, case.made) = (None, Made::Changed);
    compare_case(seed, &case, counts);
}

/// Compares the pair of this seed. "of two accepted lots alike except that no count in the first exceeds
/// its fellow in the second, the first never grades lower"
pub fn monotone(seed: u64, counts: &mut LotCounts) {
    let pair = lot_pair(seed);
    let answers = [&pair.first, &pair.second].map(|lot| compare_bytes(seed, lot));
    let [first, second] = answers;
    if first.number != 0 || second.number != 0 || first.grade > second.grade {
        report("the monotone half", seed, &pair.second, &first, &second);
    }
    counts.add_pair(&pair, answers);
}

/// Compares a count at every acceptance number and one above it, at each number of sample units, for
/// each AQL and in each class: how many lots. The seed of a report is the number of the lot.
pub fn table(counts: &mut LotCounts) -> usize {
    let cases = table_cases();
    for (nth, case) in (0..).zip(&cases) {
        compare_case(nth, case, counts);
    }
    cases.len()
}
