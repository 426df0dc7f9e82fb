//! "Small sheets by hand" of paper 01, and the two sheets of the demands.

use crate::Cases;
use grader::generate::{counted, MOST_ROOM};
use grader::peach::{p10, peach, P10_LINES};
use grader::sheet::Record;

/// A unit of the peach plan that meets it.
pub fn unit(code: u16) -> Record {
    counted(code, [0, 0, 1, 2])
}

/// Sheets as text. Where the paper names no class, the defects are major, as in the manual; the other
/// classes get the wide plan 0/999.9/0. "=" is a grade filled in as the one before it.
#[rustfmt::skip]
const SHEETS: &[(&str, &str)] = &[
    // S equal to L, in every class and grade. A count equal to T meets, one above it fails.
    ("S equal to L", "
        designated    A
        plan critical 1/1/1 1/2/1 1/3/1
        plan severe   0/2/0 0/3/0 0/4/0
        plan major    2/3/2 2/4/2 2/5/2
        plan total    4/6/4 5/9/5 6/12/6
        critical      1   0   2   1
        cusum         1   0   1   1
        severe        2   0   0   2
        cusum         0   0   0   0
        major         3   4   0   3
        cusum         2   2   0   0
        total         6   5   2   6
        cusum         4   3   0   0
        standing      m   f   m   m
    "),
    // A break between two failures: both fail, and step 3 does not begin.
    ("a break between two failures", "
        designated    A
        plan major    1/3/3 1/6/4 1/9/4
        before        .   |   .
        major         8   8   0
        cusum         3   3   0
        force         A   A   A
        standing      f   f   m
        grade         B   B   A
    "),
    // P1: "1/3/3, counts 8,3,2,1,12: CuSums 3 (fails),3,2,0,3 (fails)". Filled in: B and C.
    ("P1", "
        designated    A
        plan major    1/3/3 = =
        major         8   3   2   1   12
        cusum         3   3   2   0   3
        standing      f   m   m   m   f
    "),
    // P2: "there, T+L at B 10 and at C 13: the 8 grades B, the 12 C". Filled in: S at B and C.
    ("P2", "
        designated    A
        plan major    1/3/3 1/6/4 1/9/4
        major         8   3   2   1   12
        cusum         3   3   2   0   3
        standing      f   m   m   m   f
        grade         B   A   A   A   C
    "),
    // P3: "CuSum at L, count equal to T: stays L, meets". Filled in: 1/3/3, and a 5 to come to L.
    ("P3", "
        designated    A
        plan major    1/3/3 = =
        major         5   3
        cusum         3   3
        standing      m   m
    "),
    // P4: "raw value L+0.1 fails". Filled in: 0/0.9/0 and a 1. Beside it L itself, which meets.
    ("P4", "
        designated    A
        plan major    0/0.9/0 = =
        plan severe   0/0.9/0.1 = =
        severe        0   1
        cusum         0   0.1
        major         1   0
        cusum         0   0
        standing      f   m
        grade         S   A
    "),
    // P5: "raw -0.1 gives 0". Filled in: 0/0.1/0.9, and a 1 behind it, which starts from 0.
    ("P5", "
        designated    A
        plan major    0/0.1/0.9 = =
        major         0   1
        cusum         0   0.9
        standing      m   m
    "),
    // P6: "0/0.5/0.5, counts 1,0,1: 0.5,0,0.5". Filled in: B and C.
    ("P6", "
        designated    A
        plan major    0/0.5/0.5 = =
        major         1   0   1
        cusum         0.5 0   0.5
        standing      m   m   m
    "),
    // P7: "1.5/1.5/3, counts 1,4,3: 1, 3 (fails), 3 (fails)". Filled in: the other grades, from the
    // manual's appendix 1, example 2.
    ("P7", "
        designated    B
        plan major    1/0.5/2 1.5/1.5/3 1/3/3
        major         1   4   3
        cusum         1   3   3
        standing      m   f   f
        grade         B   C   C
    "),
    // P8: "then 2,2,1,1,1 at lower plan 1/3/3 are all zero; the last three qualify, since 2 is above
    // 1.5". Filled in: recoverable 1 but for unit 7, which shares a code with unit 8.
    ("P8", "
        designated    B
        plan major    1/0.5/2 1.5/1.5/3 1/3/3
        code          1   2   3   4   5   6   7   7
        recoverable   1   1   1   1   1   1   0   1
        major         1   4   3   2   2   1   1   1
        cusum         1   3   3   0   0   0   0   0
        force         B   B   B   C   C   C   C   C
        standing      m   f   f   u   u   r   u   r
        grade         B   C   C   C   C   B   C   B
        production    B   C   C   C   C   B   C   C
    "),
    // The largest S, T and L; and counts up to 2,000 around them.
    ("the largest S, T and L", "
        designated    A
        plan critical 999.9/999.9/999.9 = =
        plan severe   0/999.9/999.9 = =
        plan major    999.9/999.9/999.9 = =
        plan total    0/999.9/999.9 = =
        critical      999   0     0     0
        cusum         999.0 0     0     0
        severe        0     1999  1     2000
        cusum         0     999.1 0.2   999.9
        major         0     0     0     0
        cusum         0     0     0     0
        total         999   1999  1     2000
        cusum         0     999.1 0.2   999.9
        standing      m     m     m     f
        grade         A     A     A     S
    "),
];

pub fn add(cases: &mut Cases) {
    // 74 bytes: the peach plan without its last byte. 75 bytes: the plan alone, and no unit.
    let plan = peach(Vec::new()).bytes();
    cases.refused("74 bytes", plan[..74].to_vec(), 1, 0);
    cases.add("75 bytes", plan);
    // 1,000 units are accepted; the 1,001st is refused at its mark, 75 + 1,000 x 14.
    let mut many = peach(Vec::new());
    many.fill(1_000);
    cases.add("unit 1,000", many.bytes());
    many.records.push(unit(1_001));
    cases.refused("unit 1,001", many.bytes(), 12, 14_075);
    for (name, text) in SHEETS {
        cases.text(name, text);
    }
    // P9: "count 2,001 is refused with 8, 2,000 is not". The peach plan; each count in turn.
    for (place, class) in ["critical", "severe", "major", "minor"].iter().enumerate() {
        let mut counts = [0; 4];
        counts[place] = 2_001;
        let sheet = peach(vec![counted(1, counts)]).bytes();
        cases.refused(&format!("P9, {class} 2,001"), sheet, 8, 75);
        counts[place] = 2_000;
        cases.add(&format!("P9, {class} 2,000"), peach(vec![counted(1, counts)]).bytes());
    }
    // P9: 2,000 of each, a total of 8,000.
    cases.add("P9, 2,000 of each", peach(vec![counted(1, [2_000; 4])]).bytes());

    // An accepted sheet of 65,536 bytes: the peach plan, a unit, 32,715 breaks, a redesignation that
    // makes the length even, and a unit.
    let mut longest = peach(vec![unit(65_535)]);
    longest.records.extend([Record::Break].repeat(32_715));
    longest.records.extend([Record::Redesignation(2), unit(0)]);
    assert_eq!(longest.bytes().len(), 65_536);
    cases.add("65,536 bytes", longest.bytes());
}

/// The sheets of the demands, from the folder of examples.
pub fn add_demands(cases: &mut Cases) {
    let read = |name: &str| {
        let file = format!("{}/../../examples/{name}", env!("CARGO_MANIFEST_DIR"));
        std::fs::read(&file).unwrap_or_else(|error| panic!("{file}: {error}"))
    };
    // "Forty sample units, grade A, one failure in total defects, the next unit back inside
    // tolerance." Filled in: all else, as told in examples/README.md.
    let pea = read("pea.sheet");
    let (_, graded) = grader::grade_traced(&pea, &mut [0; MOST_ROOM], true);
    let rows = graded.expect("the pea sheet is accepted").rows;
    assert!(rows.len() == 40 && rows.iter().all(|row| row.plan == 0), "the pea sheet");
    let failed: Vec<usize> = (0..40).filter(|&unit| rows[unit].fails()).collect();
    assert!(failed.len() == 1, "the pea sheet fails at {failed:?}, counted from 0");
    assert_eq!(rows[failed[0]].class_fails, [false, false, false, true], "the pea sheet");
    assert!(rows[failed[0] + 1].unit.defects()[3] <= 150, "the pea sheet: T of total is 15 at A");
    cases.add("the pea sheet", pea);
    // P10, the peach sheet of paper 01, with its seven lines. Filled in: nothing.
    let peach_sheet = read("peach.sheet");
    assert!(peach_sheet == p10(), "the peach sheet is not that of paper 01");
    assert_eq!(grader::print_checked(&peach_sheet, true), P10_LINES, "P10");
    cases.add("P10, the peach sheet", peach_sheet);
}
