//! Both halves of demand 3, over whole graded sheets, the second also over regradings; overshoots, and
//! the starts of lower plans, found a second time.

use crate::rules::{Graded, Row, What, FAILED};
use crate::sheet::{Grade, SUBSTANDARD};
use std::collections::BTreeSet;
use std::ops::Range;

/// "An anchor S lies at the last restart before the unit, or at the opening of the sheet if there is
/// none." Here: the number of units before it. A fall is one of them (paper 02, A.4).
fn last_restart(graded: &Graded, unit: usize) -> usize {
    let mut restarts = graded.events.iter().rev().filter(|event| event.is_restart());
    restarts.find(|event| event.units_before <= unit).map_or(0, |event| event.units_before)
}

/// Computes every CuSum a second time, as "the largest of zero, the anchor plus the sum of defects
/// less T since it, and every such sum, without the anchor, over a run of units that starts after the
/// anchor and ends with this unit", and panics if one differs from the first. Quadratic in the units.
pub fn cusums_twice(graded: &Graded) {
    let rows = &graded.rows;
    // "at any unit that has a plan in force"
    for unit in (0..rows.len()).filter(|&unit| rows[unit].plan != SUBSTANDARD) {
        let restart = last_restart(graded, unit);
        for class in 0..4 {
            // "S, T and L are those of the class in the plan in force for this unit."
            let numbers = graded.table[usize::from(rows[unit].plan)][class];
            let less_t = |at: usize| rows[at].unit.defects()[class] - numbers.t;
            // "the anchor is L at the latest failure in that class, this unit's included, since the
            // last restart before this unit, else S"; "An anchor L lies at the failing unit, whose
            // own count is then not in the sum."
            let failure = (restart..=unit).rev().find(|&at| rows[at].class_fails[class]);
            let (anchor, start) = failure.map_or((numbers.s, restart), |at| (numbers.l, at + 1));
            // "A run is one or more sample units with no other unit left out between them."
            let (mut largest, mut sum) = (0, 0);
            for at in (start..=unit).rev() {
                sum += less_t(at);
                largest = largest.max(sum);
            }
            largest = largest.max(anchor + sum);
            let place = format!("unit {} class {class}", unit + 1);
            assert_eq!(rows[unit].cusums[class], largest, "two CuSums at {place}");
            // Rule 2 once more, so that no failure is only claimed.
            let old = if unit == restart { numbers.s } else { rows[unit - 1].cusums[class] };
            let fails = old + less_t(unit) > numbers.l;
            assert_eq!(rows[unit].class_fails[class], fails, "failure at {place}");
        }
    }
}

/// Computes every overshoot a second time, from the CuSum recorded before it and from counts alone,
/// and panics if one differs from the first. Quadratic in the units.
pub fn overshoots_twice(graded: &Graded) {
    let rows = &graded.rows;
    for (unit, row) in rows.iter().enumerate() {
        // "zero where no plan is in force" (paper 02, A.1)
        if row.plan == SUBSTANDARD {
            assert_eq!(row.overshoots, [0; 4], "overshoots at unit {} without a plan", unit + 1);
            continue;
        }
        let restart = last_restart(graded, unit);
        for class in 0..4 {
            let numbers = graded.table[usize::from(row.plan)][class];
            let less_t = |at: usize| rows[at].unit.defects()[class] - numbers.t;
            let place = format!("unit {} class {class}", unit + 1);
            // "the overshoot, raw value less L, or zero where the class met" (paper 02, A.1)
            let overshoot = row.overshoots[class];
            let old = if unit == restart { numbers.s } else { rows[unit - 1].cusums[class] };
            let above = (old + less_t(unit) - numbers.l).max(0);
            assert_eq!(overshoot, above, "overshoot after the CuSum before {place}");
            assert_eq!(row.class_fails[class], overshoot > 0, "failure and overshoot at {place}");
            // The raw value is the 'largest of' form without zero, with the anchor before this unit:
            // this unit's defects less T added to each sum in that of the CuSum before it.
            let failure = (restart..unit).rev().find(|&at| rows[at].class_fails[class]);
            let (anchor, start) = failure.map_or((numbers.s, restart), |at| (numbers.l, at + 1));
            let (mut raw, mut sum) = (less_t(unit), 0);
            for at in (start..=unit).rev() {
                sum += less_t(at);
                raw = raw.max(sum);
            }
            raw = raw.max(anchor + sum);
            assert_eq!(overshoot, (raw - numbers.l).max(0), "overshoot by sums at {place}");
        }
    }
}

/// The longest stretches of units that fail the plan in force, each the next unit after the one
/// before it, with neither a break nor a redesignation between.
pub fn stretches_of_failures(graded: &Graded) -> Vec<Range<usize>> {
    let parting =
        graded.events.iter().filter(|e| matches!(e.what, What::Break | What::Redesignation { .. }));
    let parted: BTreeSet<usize> = parting.map(|event| event.units_before).collect();
    let mut stretches: Vec<Range<usize>> = Vec::new();
    for unit in (0..graded.rows.len()).filter(|&unit| graded.rows[unit].fails()) {
        match stretches.last_mut() {
            Some(last) if last.end == unit && !parted.contains(&unit) => last.end = unit + 1,
            _ => stretches.push(unit..unit + 1),
        }
    }
    stretches
}

/// Finds every start of a lower plan a second time, and panics if one differs from the first. "Both
/// failures must come after the latest start of a lower plan" (paper 02, A.4), in step 3 as outside
/// it: so in a stretch of failures the 2nd, 4th and every further even one start a lower plan, each
/// with the one before it, and nothing else does.
pub fn lower_plans_twice(graded: &Graded) {
    let rows = &graded.rows;
    // The number of units before the start, the new lower grade, and whether it is a fall.
    let mut by_stretches: Vec<(usize, Grade, bool)> = Vec::new();
    for stretch in stretches_of_failures(graded) {
        for second in stretch.skip(1).step_by(2) {
            let lower = rows[second - 1].defect_grade.max(rows[second].defect_grade);
            by_stretches.push((second + 1, lower, rows[second].standing != FAILED));
        }
    }
    let by_events = graded.events.iter().filter_map(|event| match event.what {
        What::StepThreeBegins { lower } => Some((event.units_before, lower, false)),
        What::LowerPlanStarts { lower } => Some((event.units_before, lower, true)),
        _ => None,
    });
    assert_eq!(by_events.collect::<Vec<_>>(), by_stretches, "starts of lower plans");
}

/// The first unit that ends two failures in a row: "both fail the designated plan, the second is the
/// next unit after the first, and neither a break nor a redesignation lies between."
pub fn first_two_in_a_row(graded: &Graded) -> Option<usize> {
    let failed = |unit: usize| graded.rows[unit].standing == FAILED;
    let parted = |unit: usize| {
        let mut between = graded.events.iter().filter(|event| event.units_before == unit);
        between.any(|event| matches!(event.what, What::Break | What::Redesignation { .. }))
    };
    (1..graded.rows.len()).find(|&unit| failed(unit - 1) && failed(unit) && !parted(unit))
}

/// The second half of demand 3, for two accepted sheets alike except that no count in the first
/// exceeds its fellow in the second, without redesignation. Says what is violated; else whether the
/// second sheet never fails two in a row, so that the grades were compared too.
pub fn monotone(first: &Graded, second: &Graded) -> Result<bool, String> {
    let two_in_a_row = first_two_in_a_row(second);
    // "up to and including the second sheet's first failure of two units in a row, or the end"
    let reach = two_in_a_row.map_or(second.rows.len(), |unit| unit + 1);
    for (unit, (x, y)) in first.rows.iter().zip(&second.rows).enumerate() {
        if unit < reach {
            monotone_classes(unit, x, y)?;
        }
        // "If the second never fails two in a row, no portion or code of the first grades lower than
        // its fellow."
        if two_in_a_row.is_none() {
            monotone_grades(unit, x, y)?;
        }
    }
    Ok(two_in_a_row.is_none())
}

/// The second half of demand 3 for two regradings under the same second plan, of accepted sheets alike
/// except that no count in the first exceeds its fellow in the second: "through the whole sheet and
/// without its premise on failures and redesignations" (paper 02, A.5). Says what is violated.
pub fn monotone_regraded(first: &Graded, second: &Graded) -> Result<(), String> {
    if first.rows.len() != second.rows.len() {
        return Err("not the same units".to_string());
    }
    for (unit, (x, y)) in first.rows.iter().zip(&second.rows).enumerate() {
        monotone_classes(unit, x, y)?;
        monotone_grades(unit, x, y)?;
    }
    Ok(())
}

/// Fellow units, class by class.
fn monotone_classes(unit: usize, x: &Row, y: &Row) -> Result<(), String> {
    for class in 0..4 {
        if x.cusums[class] > y.cusums[class] {
            return Err(format!("unit {} class {class}: a higher CuSum", unit + 1));
        }
        if x.class_fails[class] && !y.class_fails[class] {
            return Err(format!("unit {} class {class}: fails in the first only", unit + 1));
        }
        // "up to the same unit no overshoot of the first sheet is larger" (paper 02, A.1)
        if x.overshoots[class] > y.overshoots[class] {
            return Err(format!("unit {} class {class}: a larger overshoot", unit + 1));
        }
    }
    Ok(())
}

/// Fellow portions and codes: "lower means a larger grade code".
fn monotone_grades(unit: usize, x: &Row, y: &Row) -> Result<(), String> {
    if x.portion_grade > y.portion_grade || x.code_grade > y.code_grade {
        return Err(format!("unit {}: a lower grade", unit + 1));
    }
    Ok(())
}
