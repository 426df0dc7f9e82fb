//! Regradings (A.5 of paper 02, "Old sheets for a new buyer"): the manual's example, sheets by hand for
//! each sentence of A.5, and every refusal.

use crate::small::unit;
use crate::Cases;
use grader::generate::counted;
use grader::peach::peach;
use grader::sheet::{Record, Sheet, Unit};

/// Regradings as text, in major defects if nothing else is said. The sheet's own plan, designated A, has
/// T+L of 2, 6 and 10; the buyer's, designated B if nothing else is said, has 4, 7 and 12: there a 4
/// keeps a CuSum, a 9 fails and grades C, and a 99 grades Substandard.
#[rustfmt::skip]
const SHEETS: &[(&str, &str)] = &[
    // The manual's appendix 7, "Example: (Designated grade B showing all classes of defects)". The
    // buyer's numbers are legible, class by class; S of major at C stands here as printed, 0, and is not
    // used. Garbled: the rows are moved against each other, and the counts stand two cells too far to
    // the right, so that those of units 8 and 9 are cut off: units 1 to 7 are left. Only read as the
    // first seven do counts and CuSums fit, and the classes sum up to "Total All Classes" 3 1 2 7 3 2 2.
    // Codes stand over the first of their units, CYC1 over 1 to 3, CYC2 over 4 and 5, CYC3 over 6 and 7.
    // "---" in the rows of grades is the grade before it once more; "Production Grade" has no mark at
    // unit 5, since CYC2 has one grade. The head "Meets -----Meets-----" has lost what stood between.
    // Filled in: the sheet's own plan, which is not told: the buyer's numbers at A, where units 4 and 5
    // fail in a row; codes 1, 2 and 3.
    ("regrading, appendix 7", "
        designated     A
        plan critical  0.3/0.1/0.9 0/0.5/0.5 0/1/1
        plan severe    0/0.5/0.5   0/1/1     0.5/1.5/2
        plan major     0/1/1       1.5/1.5/3 0/3/3
        plan total     1/2/3       1/3/3     1/5/3
        buyer          B
        buyer critical 0.3/0.1/0.9 0/0.5/0.5 0/1/1
        buyer severe   0/0.5/0.5   0/1/1     0.5/1.5/2
        buyer major    0/1/1       1.5/1.5/3 0/3/3
        buyer total    1/2/3       1/3/3     1/5/3
        code           1   1   1   2   2   3   3
        prerequisite   A   A   A   A   A   A   A
        critical       0   0   0   1   0   0   0
        cusum          0   0   0   0.5 0   0   0
        severe         1   0   0   1   1   0   0
        cusum          0   0   0   0   0   0   0
        major          1   0   1   1   1   1   1
        cusum          1   0   0   0   0   0   0
        minor          1   1   1   4   1   1   1
        total          3   1   2   7   3   2   2
        cusum          1   0   0   3   3   2   1
        force          B   B   B   B   B   B   B
        grade          B   B   B   C   B   B   B
        production     B   B   B   C   -   B   B
    "),
    // "Failed units stay in their order": unit 2 fails, 1+9-4 = 6, and unit 3 goes on from L; without
    // unit 2 it would be 1.
    ("regrading, a failed unit stays", "
        designated    A
        plan major    0/1/1 1/3/3 2/5/5
        buyer         B
        buyer major   1/2/2 1/4/3 2/6/6
        major         4   9   4
        cusum         1   3   3
        force         B   B   B
        standing      m   f   m
        grade         B   C   B
    "),
    // The 5s fail their own plan and begin its step 3, and stay here, where they meet.
    ("regrading, units that failed at first", "
        designated    A
        plan major    0/1/1 1/3/3 2/5/5
        buyer         B
        buyer major   1/2/2 1/4/3 2/6/6
        major         5   5   4
        cusum         2   3   3
        force         B   B   B
        standing      m   m   m
        grade         B   B   B
    "),
    ("regrading, every unit fails", "
        designated    A
        plan major    0/1/1 1/3/3 2/5/5
        buyer         B
        buyer major   1/2/2 1/4/3 2/6/6
        major         9   99  8
        cusum         3   3   3
        standing      f   f   f
        grade         C   S   C
    "),
    // "breaks restart": 1+4-4, and not 3+4-4; from below S as well; at first, and two in a row.
    ("regrading, breaks restart", "
        designated    A
        plan major    0/1/1 1/3/3 2/5/5
        buyer         B
        buyer major   1/2/2 1/4/3 2/6/6
        before        |   |   ||  .   |
        major         6   4   0   4   4
        cusum         3   1   0   0   1
        standing      m   m   m   m   m
    "),
    // A failure before the break counts, and the one behind it starts from S.
    ("regrading, a break between two failures", "
        designated    A
        plan major    0/1/1 1/3/3 2/5/5
        buyer         B
        buyer major   1/2/2 1/4/3 2/6/6
        before        .   |   .
        major         9   9   4
        cusum         3   3   3
        standing      f   f   m
        grade         C   C   B
    "),
    // "redesignations are passed over": 3+4-4; a restart would give 1, the plan of C 2+4-6 -> 0. Also
    // one to the grade that the second plan designates.
    ("regrading, redesignations passed over", "
        designated    A
        plan major    0/1/1 1/3/3 2/5/5
        buyer         B
        buyer major   1/2/2 1/4/3 2/6/6
        before        B   C   .   B   CA
        major         6   4   4   4   4
        cusum         3   3   3   3   3
        force         B   B   B   B   B
        standing      m   m   m   m   m
        grade         B   B   B   B   B
    "),
    // In the sheet's own step 3 at B: B ends it there, and C comes behind it. Here at A: 1+3-2 = 2, then
    // 3, which fails and is within T+L of B.
    ("regrading, redesignations in the sheet's own step 3", "
        designated    A
        plan major    0/1/1 1/3/3 2/5/5
        buyer         A
        buyer major   1/2/2 1/4/3 2/6/6
        before        .   .   B   C
        major         3   3   2   2
        cusum         2   2   2   2
        force         A   A   A   A
        standing      m   f   m   m
        grade         A   B   A   A
    "),
    ("regrading, redesignations between failures", "
        designated    A
        plan major    0/1/1 1/3/3 2/5/5
        buyer         B
        buyer major   1/2/2 1/4/3 2/6/6
        before        .   B   C   .
        major         9   9   9   4
        cusum         3   3   3   3
        force         B   B   B   B
        standing      f   f   f   m
        grade         C   C   C   B
    "),
    // Beside a break, before it and behind it: the restart is at the S of the second plan's designated
    // grade, 2 of C, whatever the new grade.
    ("regrading, redesignations beside breaks", "
        designated    A
        plan major    0/1/1 1/3/3 2/5/5
        buyer         C
        buyer major   1/2/2 1/4/3 2/6/6
        before        .   C|  |A
        major         9   6   6
        cusum         5   2   2
        force         C   C   C
        standing      m   m   m
        grade         C   C   C
    "),
    // "the rule of two in a row doesn't apply": unit 3 is 3+4-4 at B, in step 3 it would be 2+4-6 -> 0 at
    // C. Three units without defects end nothing and recover nothing: unit 7 is 0+6-4, from S it would
    // be 3. "standing is 0 or 1."
    ("regrading, two in a row", "
        designated    A
        plan major    0/1/1 1/3/3 2/5/5
        buyer         B
        buyer major   1/2/2 1/4/3 2/6/6
        recoverable   1   1   1   1   1   1   1
        major         9   9   4   0   0   0   6
        cusum         3   3   3   0   0   0   2
        force         B   B   B   B   B   B   B
        standing      f   f   m   m   m   m   m
        grade         C   C   B   B   B   B   B
    "),
    // The same with other marks: recoverable is not looked at.
    ("regrading, two in a row, some not recoverable", "
        designated    A
        plan major    0/1/1 1/3/3 2/5/5
        buyer         B
        buyer major   1/2/2 1/4/3 2/6/6
        recoverable   0   1   0   0   1   0   0
        major         9   9   4   0   0   0   6
        cusum         3   3   3   0   0   0   2
        force         B   B   B   B   B   B   B
        standing      f   f   m   m   m   m   m
        grade         C   C   B   B   B   B   B
    "),
    // Nor do four in a row, which fall further in step 3 (A.4).
    ("regrading, four in a row", "
        designated    A
        plan major    0/1/1 1/3/3 2/5/5
        buyer         A
        buyer major   1/2/2 1/4/3 2/6/6
        major         7   7   8   8   2
        cusum         2   2   2   2   2
        force         A   A   A   A   A
        standing      f   f   f   f   m
        grade         B   B   C   C   A
    "),
    ("regrading, five in a row that no grade admits", "
        designated    A
        plan major    0/1/1 1/3/3 2/5/5
        buyer         B
        buyer major   1/2/2 1/4/3 2/6/6
        major         99  99  99  99  99  4
        cusum         3   3   3   3   3   3
        force         B   B   B   B   B   B
        standing      f   f   f   f   f   m
        grade         S   S   S   S   S   B
    "),
    // In different classes: severe 0.5+5-1.5 = 4, then major 0+7-3 = 4.
    ("regrading, two in a row in different classes", "
        designated     B
        plan critical  0/0.5/0.5 0/1/1  1/2/2
        plan severe    0.5/1.5/2 1/3/3  1/5/3
        plan major     1/3/3     1/5/3  1/6/4
        plan total     1/6/4     2/12/5 2/17/7
        buyer          A
        buyer critical 0/0.5/0.5 0/1/1  1/2/2
        buyer severe   0.5/1.5/2 1/3/3  1/5/3
        buyer major    1/3/3     1/5/3  1/6/4
        buyer total    1/6/4     2/12/5 2/17/7
        critical       0   0   0
        cusum          0   0   0
        severe         5   0   0
        cusum          2   0.5 0
        major          0   7   0
        cusum          0   3   0
        total          5   7   0
        cusum          0   1   0
        force          A   A   A
        standing       f   f   m
        grade          B   B   A
    "),
    // "Prerequisites and codes count as before": A makes no B better, and S fails no unit. Unit 5 fails,
    // 0+9-5 = 4, to C, and code 1 with it; code 4 is Substandard by a prerequisite.
    ("regrading, prerequisites and codes", "
        designated    A
        plan major    1/3/3 1/5/3 1/6/4
        buyer         B
        buyer major   1/3/3 1/5/3 1/6/4
        code          1   2   3   4   1   4
        prerequisite  A   B   C   S   A   B
        recoverable   0   0   1   1   1   0
        major         0   0   0   0   9   9
        cusum         0   0   0   0   3   3
        force         B   B   B   B   B   B
        standing      m   m   m   m   f   f
        grade         B   B   C   S   C   C
        production    C   B   C   S   C   S
    "),
    // Lower grades are the second plan's: 7 is within the 7 of its B, and above the 6 of the sheet's own;
    // 12 is within 12 of C.
    ("regrading, lower grades", "
        designated    A
        plan major    0/1/1 1/3/3 2/5/5
        buyer         A
        buyer major   1/2/2 1/4/3 2/6/6
        before        .   |   |   |   |
        major         3   7   8   12  13
        cusum         2   2   2   2   2
        force         A   A   A   A   A
        standing      m   f   f   f   f
        grade         A   B   C   C   S
    "),
    // Lower than the second designated grade: the 7 fails B by 1+7-4 = 4, and is C though T+L of B admits
    // it.
    ("regrading, lower than B", "
        designated    A
        plan major    0/1/1 1/3/3 2/5/5
        buyer         B
        buyer major   1/2/2 1/4/3 2/6/6
        before        .   |   |
        major         7   12  13
        cusum         3   3   3
        standing      f   f   f
        grade         C   C   S
    "),
    ("regrading, lower than C", "
        designated    A
        plan major    0/1/1 1/3/3 2/5/5
        buyer         C
        buyer major   1/2/2 1/4/3 2/6/6
        major         3   13  6
        cusum         0   6   6
        force         C   C   C
        standing      m   f   m
        grade         C   S   C
    "),
    // P4 and P5 of paper 01 under the second plan: a raw value of L and a tenth fails, L itself meets; a
    // tenth below zero is zero.
    ("regrading, a tenth", "
        designated     A
        plan major     0/1/1 1/3/3 2/5/5
        buyer          A
        buyer critical 0/0.1/0.9 = =
        buyer severe   0/0.9/0.1 = =
        buyer major    0/0.9/0 = =
        critical       0   0   1
        cusum          0   0   0.9
        severe         0   1   0
        cusum          0   0.1 0
        major          1   0   0
        cusum          0   0   0
        standing       f   m   m
        grade          S   A   A
    "),
    // Nothing is tolerated, and the largest counts; then the largest S, T and L.
    ("regrading, nothing tolerated", "
        designated     A
        plan major     0/1/1 1/3/3 2/5/5
        buyer          C
        buyer critical 0/0/0 = =
        buyer severe   0/0/0 = =
        buyer major    0/0/0 = =
        buyer total    0/0/0 = =
        critical       2000 0   0
        cusum          0    0   0
        severe         2000 0   1
        cusum          0    0   0
        major          2000 0   0
        cusum          0    0   0
        total          8000 0   1
        cusum          0    0   0
        standing       f    m   f
        grade          S    C   S
    "),
    ("regrading, the largest S, T and L", "
        designated     A
        plan major     0/1/1 1/3/3 2/5/5
        buyer          A
        buyer critical 999.9/999.9/999.9 = =
        buyer severe   0/999.9/999.9 = =
        buyer major    999.9/999.9/999.9 = =
        buyer total    0/999.9/999.9 = =
        critical       999   0     0     0
        cusum          999.0 0     0     0
        severe         0     1999  1     2000
        cusum          0     999.1 0.2   999.9
        major          0     0     0     0
        cusum          0     0     0     0
        total          999   1999  1     2000
        cusum          0     999.1 0.2   999.9
        standing       m     m     m     f
        grade          A     A     A     S
    "),
    // P10, the peach sheet of paper 01, under its own plan: as at first up to unit 3; then no step 3.
    // Total: 4+6-6 = 4, 4+5-6 = 3, 3+4-6 = 1, 1+1-6 -> 0.
    ("regrading, the peach sheet at A", "
        designated     A
        plan critical  0/0.5/0.5 0/1/1  1/2/2
        plan severe    0.5/1.5/2 1/3/3  1/5/3
        plan major     1/3/3     1/5/3  1/6/4
        plan total     1/6/4     2/12/5 2/17/7
        buyer          A
        buyer critical 0/0.5/0.5 0/1/1  1/2/2
        buyer severe   0.5/1.5/2 1/3/3  1/5/3
        buyer major    1/3/3     1/5/3  1/6/4
        buyer total    1/6/4     2/12/5 2/17/7
        code           1   2   3   4   5   5   7
        prerequisite   A   A   A   A   A   A   B
        recoverable    0   0   0   1   1   0   0
        critical       0   0   0   0   0   0   1
        cusum          0   0   0   0   0   0   0.5
        severe         1   2   1   0   1   1   0
        cusum          0   0.5 0   0   0   0   0
        major          2   4   3   1   2   1   0
        cusum          0   1   1   0   0   0   0
        total          7   12  7   6   5   4   1
        cusum          2   4   4   4   3   1   0
        force          A   A   A   A   A   A   A
        standing       m   f   f   m   m   m   m
        grade          A   B   B   A   A   A   B
        production     A   B   B   A   A   A   B
    "),
    // At B every CuSum is zero.
    ("regrading, the peach sheet at B", "
        designated     A
        plan critical  0/0.5/0.5 0/1/1  1/2/2
        plan severe    0.5/1.5/2 1/3/3  1/5/3
        plan major     1/3/3     1/5/3  1/6/4
        plan total     1/6/4     2/12/5 2/17/7
        buyer          B
        buyer critical 0/0.5/0.5 0/1/1  1/2/2
        buyer severe   0.5/1.5/2 1/3/3  1/5/3
        buyer major    1/3/3     1/5/3  1/6/4
        buyer total    1/6/4     2/12/5 2/17/7
        code           1   2   3   4   5   5   7
        prerequisite   A   A   A   A   A   A   B
        recoverable    0   0   0   1   1   0   0
        critical       0   0   0   0   0   0   1
        cusum          0   0   0   0   0   0   0
        severe         1   2   1   0   1   1   0
        cusum          0   0   0   0   0   0   0
        major          2   4   3   1   2   1   0
        cusum          0   0   0   0   0   0   0
        total          7   12  7   6   5   4   1
        cusum          0   0   0   0   0   0   0
        force          B   B   B   B   B   B   B
        standing       m   m   m   m   m   m   m
        grade          B   B   B   B   B   B   B
        production     B   B   B   B   B   B   B
    "),
];

/// The peach plan, designated so.
fn plan(designated: u8) -> Vec<u8> {
    Sheet { designated, ..peach(Vec::new()) }.bytes()
}

pub fn add(cases: &mut Cases) {
    for (name, text) in SHEETS {
        cases.text(name, text);
    }
    cases.plan = plan(1);
    cases.add("regrading, no record", peach(Vec::new()).bytes());
    let none = vec![Record::Redesignation(2), Record::Break, Record::Redesignation(1)];
    cases.add("regrading, no unit", peach(none).bytes());
    let mut many = peach(vec![unit(1), Record::Break, Record::Redesignation(2)]);
    many.fill(1_000);
    cases.add("regrading, unit 1,000", many.bytes());
}

/// The peach plan, designated A, and these records, at the offsets 75, 89, 91, 94; 108 bytes.
fn undamaged() -> Vec<u8> {
    peach(vec![unit(1), Record::Break, Record::Redesignation(1), unit(2)]).bytes()
}

/// Bytes put over the second plan, the peach plan, at a place: 18 each time.
#[rustfmt::skip]
const PLAN_EDITS: [(&str, usize, &[u8]); 20] = [
    // The mark is another one: of a unit, of a mold sheet, turned round, none.
    ("a wrong mark", 0, &[0x51]), ("a wrong mark", 1, &[0x4D]), ("a wrong mark", 0, &[0x53, 0x55]),
    ("a wrong mark", 0, &[0x4D, 0x44]), ("a wrong mark", 0, &[0x4C, 0x50]),
    ("a wrong mark", 0, &[0, 0]),
    // 2: the designated grade. 3: 10,000 as the first S and as the last L, 65,535. 4: S above L, at the
    // first place and at the last.
    ("2", 2, &[3]), ("2", 2, &[255]), ("3", 3, &[0x27, 0x10]), ("3", 73, &[0x27, 0x10]),
    ("3", 3 + 24 + 12, &[0xFF, 0xFF]), ("4", 3, &[0, 6]), ("4", 3 + 48 + 18, &[0, 71]),
    // 5: T smaller than at the grade before, with T+L not smaller, and the other way round.
    ("5", 3 + 24 + 2, &[0, 4, 0, 20]), ("5", 3 + 24 + 2, &[0, 5, 0, 4]),
    ("5", 3 + 48 + 18 + 2, &[0, 119, 0, 70]), ("5", 3 + 48 + 18, &[0, 0, 0, 120, 0, 49]),
    // Two at once, of which none is told: a wrong mark and 2; 2 and 3; 3 and 4.
    ("a wrong mark and 2", 1, &[0x4D, 3]), ("2 and 3", 2, &[3, 0x27, 0x10]),
    ("3 and 4", 3, &[0, 6, 0x27, 0x10]),
];

/// Bytes put over the sheet at a place, and its own number and offset, 1 to 11.
#[rustfmt::skip]
const SHEET_EDITS: [(usize, &[u8], u32, usize); 14] = [
    (0, &[0x51], 1, 0), (2, &[3], 2, 0), (3, &[0x27, 0x10], 3, 0), (3, &[0, 6], 4, 0),
    (3 + 24 + 2, &[0, 4, 0, 20], 5, 0), (89, &[0x42, 0x4C], 6, 89), (94, &[0x53, 0x44], 6, 94),
    (79, &[7, 0xD1], 8, 75), (94 + 10, &[7, 0xD1], 8, 94), (87, &[4], 9, 75), (94 + 13, &[2], 9, 94),
    (93, &[3], 10, 91),
    // 11 goes by the sheet's own designations: A, then B; not by the second plan's.
    (93, &[0], 11, 91), (93, &[0, 0x53, 0x55, 0, 2, 7, 0xD1], 11, 91),
];

pub fn add_refusals(cases: &mut Cases) {
    let (base, right) = (undamaged(), plan(1));
    assert_eq!((base.len(), right.len()), (108, 75));
    cases.plan = right.clone();
    cases.add("the regrading for the refusals", base.clone());
    // "18, offset 0, the second plan isn't exactly one plan record free of 2 to 5": shorter and longer,
    // by a byte, a break, a redesignation, a unit, another plan; the sheet itself; none of it.
    for length in [0, 1, 2, 3, 40, 74] {
        cases.plan = right[..length].to_vec();
        let name = format!("regrading, number 18, second plan cut to {length} bytes");
        cases.refused(&name, base.clone(), 18, 0);
    }
    let unit_behind = unit(1).bytes();
    for more in [&[0][..], &[0x50], &[0x42, 0x4B], &[0x52, 0x44, 0], &unit_behind, &right] {
        cases.plan = [&right, more].concat();
        let name = format!("regrading, number 18, {} bytes behind the second plan", more.len());
        cases.refused(&name, base.clone(), 18, 0);
    }
    cases.plan = base.clone();
    cases.refused("regrading, number 18, the sheet as second plan", base.clone(), 18, 0);
    cases.plan = vec![0x50; 1_000];
    cases.refused("regrading, number 18, 1,000 bytes", base.clone(), 18, 0);
    for (what, at, bytes) in PLAN_EDITS {
        cases.plan = right.clone();
        cases.plan[at..at + bytes.len()].copy_from_slice(bytes);
        let name = format!("regrading, number 18 for {what}, bytes {bytes:02X?} at {at}");
        cases.refused(&name, base.clone(), 18, 0);
    }
    // It stands for a sheet without a unit, too.
    cases.refused("regrading, number 18, no unit", base[..75].to_vec(), 18, 0);
    // "after all checks of the sheet's records": a refused sheet has its own number, under a right second
    // plan and under wrong ones.
    let short = right[..74].to_vec();
    let long = [&right[..], &[0]].concat();
    for (at, bytes, number, offset) in SHEET_EDITS {
        let mut sheet = base.clone();
        sheet[at..at + bytes.len()].copy_from_slice(bytes);
        for (what, second) in [("a right", &right), ("a short", &short)] {
            cases.plan.clone_from(second);
            let name =
                format!("regrading, number {number}, {what} second plan, {bytes:02X?} at {at}");
            cases.refused(&name, sheet.clone(), number, offset);
        }
    }
    for (length, number, offset) in [(0, 1, 0), (74, 1, 0), (76, 6, 75), (88, 7, 75), (107, 7, 94)]
    {
        for (what, second) in [("a right", &right), ("a long", &long)] {
            cases.plan.clone_from(second);
            let name =
                format!("regrading, number {number}, {what} second plan, cut to {length} bytes");
            cases.refused(&name, base[..length].to_vec(), number, offset);
        }
    }
    // The same wrong bytes in both plans: the sheet's own number.
    let mut both = base.clone();
    both[2] = 3;
    cases.plan = both[..75].to_vec();
    cases.refused("regrading, number 2 in both plans", both, 2, 0);
    // 12, with a unit that would be 8 and with one that would be 9.
    let mut many = peach(Vec::new());
    many.fill(1_000);
    let full = many.bytes();
    let too_many = counted(1, [2_001, 0, 0, 0]).bytes();
    let bad = Unit { code: 1, counts: [0; 4], prerequisite: 9, recoverable: true };
    cases.plan.clone_from(&right);
    cases.refused("regrading, 12 before 8", [&full[..], &too_many].concat(), 12, 14_075);
    cases.plan.clone_from(&short);
    let with_bad = [&full[..], &Record::Unit(bad).bytes()].concat();
    cases.refused("regrading, 12 before 9, a short second plan", with_bad, 12, 14_075);
    // 15 is about the sheet alone, before all else, whatever the bytes are.
    let wide = [&base[..], &vec![0; 65_537 - base.len()]].concat();
    cases.refused("regrading, number 15, 65,537 bytes, a short second plan", wide, 15, 65_536);
}
