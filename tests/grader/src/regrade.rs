//! "Old sheets for a new buyer", A.5 of paper 02: "a recorded sheet graded again under a second plan
//! record, as appendix 7 of source document 000 describes." The sentences in quotation marks are
//! those of A.5 where no paper is named. Rules 1 to 4 of "Grading a unit" of paper 01, the result
//! records and the lines are those of a grading.

use crate::rules::{self, Event, Graded, What, FRESH};
use crate::sheet::{self, Grade, Record, Sheet, Table};
use crate::{check, Answer};

/// A second plan, "exactly one plan record free of 2 to 5": with a length and a mark of its own. None
/// if it is something else.
pub fn read_second_plan(plan: &[u8]) -> Option<(Grade, Table)> {
    // "Plan, 50 4C, 75 bytes" (paper 01): no byte behind it.
    if plan.len() != 75 {
        return None;
    }
    sheet::read_plan(plan).ok()
}

/// Regrades a sheet under the second plan into the result buffer.
pub fn regrade(sheet: &[u8], plan: &[u8], results: &mut [u8]) -> Answer {
    regrade_traced(sheet, plan, results, false).0
}

/// As [`regrade`], but the code grades in the records mean nothing: for a caller that finds them in a
/// way of its own.
pub fn regrade_but_codes(sheet: &[u8], plan: &[u8], results: &mut [u8]) -> Answer {
    regrade_by(regrade_portions, sheet, plan, results, false).0
}

/// As [`regrade`], and hands out the trace of an accepted regrading. With `check`, every CuSum is also
/// computed by the 'largest of' formula of demand 3 and every overshoot by sums like those, and a
/// difference panics.
pub fn regrade_traced(
    sheet: &[u8],
    plan: &[u8],
    results: &mut [u8],
    check: bool,
) -> (Answer, Option<Graded>) {
    regrade_by(regrade_sheet, sheet, plan, results, check)
}

fn regrade_by(
    regrade_sheet: fn(&Sheet, Grade, &Table) -> Graded,
    sheet: &[u8],
    plan: &[u8],
    results: &mut [u8],
    check: bool,
) -> (Answer, Option<Graded>) {
    // "after all checks of the sheet's records and before 13": first the sheet as for a grading, with
    // its own plan (1 to 5) and its own redesignations (11).
    let tally = match sheet::read(sheet) {
        Ok(tally) => tally,
        Err((number, offset)) => return crate::refuse(number, offset),
    };
    // "18, offset 0, the second plan isn't exactly one plan record free of 2 to 5"
    let Some((designated, table)) = read_second_plan(plan) else {
        return crate::refuse(18, 0);
    };
    let graded = regrade_sheet(&tally, designated, &table);
    if check {
        check::cusums_twice(&graded);
        check::overshoots_twice(&graded);
    }
    crate::write(graded, sheet.len(), results)
}

pub fn regrade_sheet(sheet: &Sheet, designated: Grade, table: &Table) -> Graded {
    let mut graded = regrade_portions(sheet, designated, table);
    // "Prerequisites and codes count as before".
    rules::grade_codes(&mut graded.rows);
    graded
}

/// All but the code grades. The sheet's own plan is not looked at.
pub fn regrade_portions(sheet: &Sheet, designated: Grade, table: &Table) -> Graded {
    let start = rules::starts(table, designated);
    let mut cusums = start;
    let mut rows = Vec::new();
    let mut events = Vec::new();
    let mut passed_over = Vec::new();
    for record in &sheet.records {
        match *record {
            // "Failed units stay in their order": each unit goes on from the one before it, whether
            // that failed or not, here or in the sheet's own grading. "the rule of two in a row
            // doesn't apply": each is graded as one without a failure before it, under the designated
            // plan, so that "standing is 0 or 1". Nothing is recovered.
            Record::Unit(unit) => {
                let row = rules::grade_unit(table, unit, designated, FRESH, cusums);
                cusums = row.cusums;
                rows.push(row);
            }
            // "breaks restart"
            Record::Break => {
                cusums = start;
                let units_before = rows.len();
                events.push(Event { units_before, what: What::Break, stage: FRESH, designated });
            }
            // "redesignations are passed over": the second plan stays, and so do its CuSums.
            Record::Redesignation(_) => passed_over.push(rows.len()),
        }
    }
    Graded { table: *table, rows, events, next_plan: designated, next_cusums: cusums, passed_over }
}

/// The lines of "The printing program" (paper 01) for a regrading, with the self check switched by
/// `check`; number 15 is about the sheet alone.
pub fn print_checked(sheet: &[u8], plan: &[u8], check: bool) -> String {
    crate::print_by(|results| regrade_traced(sheet, plan, results, check).0, sheet)
}
