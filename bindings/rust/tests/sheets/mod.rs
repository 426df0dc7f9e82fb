//! Tally sheets for the tests.

use hatmuyon::{MOST_UNITS, PLAN_SIZE};

pub const PEACH: &[u8] = include_bytes!("../../../../examples/peach.sheet");
pub const PEA: &[u8] = include_bytes!("../../../../examples/pea.sheet");

pub const BREAK: [u8; 2] = [0x42, 0x4B];

/// A plan with A designated; S is 0, T and L are 5.0 in every grade and class.
pub fn plan() -> Vec<u8> {
    let mut plan = vec![0x50, 0x4C, 0];
    plan.extend([0, 0, 0, 50, 0, 50].repeat(12));
    plan
}

/// A plan with one of its 36 numbers changed: S, T or L of a class of a grade.
fn plan_with(grade: usize, class: usize, number: usize, value: u16) -> Vec<u8> {
    let mut plan = plan();
    put(&mut plan, 3 + 24 * grade + 6 * class + 2 * number, value);
    plan
}

fn put(bytes: &mut [u8], at: usize, value: u16) {
    bytes[at..at + 2].copy_from_slice(&value.to_be_bytes());
}

/// A sample unit with this code and these counts of critical, severe, major and minor.
pub fn unit(code: u16, counts: [u16; 4]) -> Vec<u8> {
    let [a, b, c, d] = counts;
    let mut unit = [0x5355, code, a, b, c, d].map(u16::to_be_bytes).concat();
    unit.extend([0, 0]);
    unit
}

pub fn redesignation(new: u8) -> Vec<u8> {
    vec![0x52, 0x44, new]
}

pub fn sheet(records: &[&[u8]]) -> Vec<u8> {
    [plan(), records.concat()].concat()
}

/// Sheets that the check refuses, at least one for each of 1 to 12, with number and offset; those of
/// 1 to 5 have no record behind the plan.
pub fn refusals() -> Vec<(u32, Vec<u8>, usize)> {
    let ok = unit(1, [0, 1, 2, 3]);
    let with = |at: usize, value: u8| {
        let mut unit = ok.clone();
        unit[at] = value;
        unit
    };
    let full = ok.repeat(MOST_UNITS);
    let behind_full = PLAN_SIZE + full.len();
    let mut not_a_plan = plan();
    not_a_plan[1] = 0x4D;
    let mut designated = plan();
    designated[2] = 3;
    vec![
        (1, plan()[..74].to_vec(), 0),
        (1, not_a_plan, 0),
        (2, designated, 0),
        (3, plan_with(2, 3, 1, 10_000), 0),
        (4, plan_with(0, 1, 0, 51), 0),
        (5, plan_with(1, 2, 1, 49), 0),
        (5, plan_with(2, 0, 2, 49), 0),
        (6, sheet(&[&ok, &[0x53]]), 89),
        (6, sheet(&[&ok, b"PL"]), 89),
        (7, sheet(&[&ok, &ok[..13]]), 89),
        (7, sheet(&[&BREAK, &[0x52, 0x44]]), 77),
        (8, sheet(&[&ok, &unit(1, [2001, 0, 0, 0])]), 89),
        (8, sheet(&[&unit(1, [0, 2001, 0, 0])]), 75),
        (8, sheet(&[&unit(1, [0, 0, 2001, 0])]), 75),
        (8, sheet(&[&unit(1, [0, 0, 0, 2001])]), 75),
        (9, sheet(&[&ok, &with(12, 4)]), 89),
        (9, sheet(&[&ok, &with(13, 2)]), 89),
        (10, sheet(&[&redesignation(3)]), 75),
        (11, sheet(&[&redesignation(0)]), 75),
        (11, sheet(&[&redesignation(2), &ok, &redesignation(2)]), 92),
        (12, sheet(&[&full, &ok]), behind_full),
        (12, sheet(&[&full, &with(12, 4)]), behind_full),
    ]
}
