//! Regradings under a second plan (A.5 of paper 02): the library against the independent grader, and
//! both halves of demand 3 on the bytes that the library left, as for tally sheets.

use crate::{compare_traced, compare_with, fill, grader_command, largest_of, lengthen, most_room};
use crate::{note_offset, report_pair, Compared, Kind};
use grader::check::{first_two_in_a_row, monotone_regraded};
use grader::generate::Counts;
use grader::generate_regrade::{regrade_case, regrade_pair, RegradeCase};
use grader::regrade::regrade_traced;
use grader::rules::{Row, What};
use hatmuyon::PLAN_SIZE;

/// Says what differs, writes the sheet and the second plan to files, says how to see what the grader
/// prints for them, and ends the run.
pub fn end(what: &str, file: &str, sheet: &[u8], plan: &[u8]) -> ! {
    let [path, plan_path] =
        [(file, sheet), (&format!("{file}.plan"), plan)].map(|(file, bytes)| {
            let path = std::env::temp_dir().join(file);
            std::fs::write(&path, bytes).expect("cannot write the sheet or the plan");
            path.display().to_string()
        });
    println!("{what}\n  the sheet: {path}\n  the second plan: {plan_path}");
    println!("  see it: {} -- --regrade {plan_path} < {path}", grader_command());
    std::process::exit(1);
}

fn compare_bytes(
    seed: u64,
    sheet: &[u8],
    plan: &[u8],
    room: usize,
    counts: &mut Counts,
) -> Compared {
    let regrade = |results: &mut [u8]| regrade_traced(sheet, plan, results, false);
    compare_traced(Kind::Regrading(plan), seed, sheet, room, counts, regrade)
}

fn compare_case(seed: u64, case: &RegradeCase, counts: &mut Counts) -> bool {
    let Compared { answer, graded, .. } =
        compare_bytes(seed, &case.sheet, &case.plan, case.room, counts);
    counts.note_regrade(case, answer, graded.as_ref());
    note_offset(counts, "regrading: ", answer);
    largest_of(Kind::Regrading(&case.plan), seed, &case.sheet, graded.as_ref())
}

/// Compares the regrading of this seed. Says whether its recorded CuSums were computed once more.
pub fn compare(seed: u64, counts: &mut Counts) -> bool {
    compare_case(seed, &regrade_case(seed), counts)
}

/// As [`compare`], with the sheet made longer than 65,536 bytes where it can be.
pub fn compare_long(seed: u64, counts: &mut Counts) -> bool {
    let mut case = regrade_case(seed);
    lengthen(seed, &mut case.sheet);
    compare_case(seed, &case, counts)
}

/// Demand 3, second half, on recorded bytes of the pair of this seed, through the whole sheets.
pub fn monotone(seed: u64, counts: &mut Counts) {
    let (first, second, plan) = regrade_pair(seed);
    let sides = [&first, &second].map(|sheet| {
        let compared = compare_bytes(seed, sheet, &plan, most_room(sheet), counts);
        compared.graded.expect("a pair is accepted")
    });
    counts.note_regrade_pair(&sides[0], &sides[1]);
    if let Err(what) = monotone_regraded(&sides[0], &sides[1]) {
        report_pair(Kind::Regrading(&plan), seed, &second, &what);
    }
}

/// Under its own plan record a sheet without redesignations that never fails two in a row must be
/// regraded to the bytes of its grading.
pub fn under_own_plan(seed: u64, sheet: &[u8], grading: &Compared, counts: &mut Counts) {
    let redesignates = |what: What| matches!(what, What::Redesignation { .. });
    let alike = grading.graded.as_ref().filter(|graded| {
        let redesignated = graded.events.iter().any(|event| redesignates(event.what));
        !redesignated && first_two_in_a_row(graded).is_none()
    });
    if alike.is_some() {
        let own = Kind::Regrading(&sheet[..PLAN_SIZE]);
        compare_with(own, seed, sheet, fill(seed), grading.answer, &grading.results);
    }
    let fails = alike.is_some_and(|graded| graded.rows.iter().any(Row::fails));
    let name = "regrading: under its own plan as graded";
    counts.add(name, alike.is_some().into());
    counts.add(&format!("{name}, with failures"), fails.into());
}
