//! Recorded tally sheets graded again under a second plan, over the boundary: appendix 7 of the manual,
//! every refusal, what the result buffer keeps, and the rules in which a regrading differs.

use hatmuyon::{grade, regrade, Grade, Ground, Record, Refusal, Standing};
use hatmuyon::{MOST_UNITS, PLAN_SIZE, RESULT_SIZE, UNIT_SIZE};
use sheets::{plan, redesignation, refusals, sheet, unit, BREAK, PEA, PEACH};

mod sheets;

const BUYER_SHEET: &[u8] = include_bytes!("../../../examples/buyer.sheet");
const BUYER_PLAN: &[u8] = include_bytes!("../../../examples/buyer.plan");

/// A plan by its designated grade and S, T and L in tenths, class by class at A, B and C.
fn plan_by_class(designated: Grade, classes: [[[u16; 3]; 3]; 4]) -> Vec<u8> {
    let mut plan = vec![0x50, 0x4C, designated as u8];
    for grade in 0..3 {
        for class in classes {
            plan.extend(class[grade].map(u16::to_be_bytes).concat());
        }
    }
    plan
}

/// A plan with these S, T and L at A, B and C, in tenths, the same in every class.
fn plan_of(designated: Grade, grades: [[u16; 3]; 3]) -> Vec<u8> {
    plan_by_class(designated, [grades; 4])
}

/// The records of a regrading that is accepted.
fn regraded(sheet: &[u8], plan: &[u8]) -> Vec<Record> {
    let mut results = vec![0xEE; RESULT_SIZE * MOST_UNITS];
    regrade(sheet, plan, &mut results).expect("it is refused").records().collect()
}

/// Regrades into a buffer of 0xEE, which a refusal must keep.
fn refused(sheet: &[u8], plan: &[u8], room: usize) -> (u32, usize) {
    let mut results = vec![0xEE; room];
    let Refusal { number, offset } =
        regrade(sheet, plan, &mut results).expect_err("it is accepted");
    assert!(results.iter().all(|&byte| byte == 0xEE), "a byte was changed");
    (number, offset)
}

/// Second plans that are not exactly one plan record free of 2 to 5.
fn bad_second_plans() -> Vec<Vec<u8>> {
    let mut numbers = vec![];
    let mut plans = vec![];
    // What refuses a sheet without a record by 1 to 5: 74 bytes, a wrong mark, and each of 2 to 5.
    for (number, bytes, _) in refusals().into_iter().filter(|(number, _, _)| *number <= 5) {
        numbers.push(number);
        plans.push(bytes);
    }
    numbers.dedup();
    assert_eq!(numbers, [1, 2, 3, 4, 5]);
    let mut low_byte_first = plan();
    low_byte_first.swap(0, 1);
    plans.push(low_byte_first);
    plans.push(vec![]);
    // A plan record and a byte more, a record more, and another plan record more.
    plans.extend([&[0][..], &BREAK, &plan()].map(|more| [&plan(), more].concat()));
    plans
}

#[test]
fn appendix_seven() {
    let buyer = plan_by_class(
        Grade::B,
        [
            [[3, 1, 9], [0, 5, 5], [0, 10, 10]],
            [[0, 5, 5], [0, 10, 10], [5, 15, 20]],
            [[0, 10, 10], [15, 15, 30], [0, 30, 30]],
            [[10, 20, 30], [10, 30, 30], [10, 50, 30]],
        ],
    );
    let units = [
        unit(1, [0, 1, 1, 1]),
        unit(1, [0, 0, 0, 1]),
        unit(1, [0, 0, 1, 1]),
        unit(2, [1, 1, 1, 4]),
        unit(2, [0, 1, 1, 1]),
        unit(3, [0, 0, 1, 1]),
        unit(3, [0, 0, 1, 1]),
    ];
    let record = |code, portion_grade, code_grade, standing, cusums, overshoot| Record {
        code,
        portion_grade,
        code_grade,
        plan_grade: Some(Grade::B),
        standing,
        cusums,
        overshoots: [0, 0, 0, overshoot],
    };
    use Grade::{B, C};
    use Standing::{Failed, Met};
    let expected = [
        record(1, B, B, Met, [0, 0, 10, 10], 0),
        record(1, B, B, Met, [0; 4], 0),
        record(1, B, B, Met, [0; 4], 0),
        record(2, C, C, Failed, [5, 0, 0, 30], 10),
        record(2, B, C, Met, [0, 0, 0, 30], 0),
        record(3, B, B, Met, [0, 0, 0, 20], 0),
        record(3, B, B, Met, [0, 0, 0, 10], 0),
    ];
    // Whatever the sheet's own plan is.
    for own in [plan(), buyer.clone(), PEACH[..PLAN_SIZE].to_vec()] {
        assert_eq!(regraded(&[own, units.concat()].concat(), &buyer), expected);
    }
    assert_eq!(BUYER_PLAN, buyer);
    assert_eq!(BUYER_SHEET, [PEACH[..PLAN_SIZE].to_vec(), units.concat()].concat());
    let mut results = [0; 7 * RESULT_SIZE];
    let graded = grade(BUYER_SHEET, &mut results).unwrap();
    assert!(graded.records().all(|record| record.code_grade == Grade::A));
}

#[test]
fn second_plan_refused() {
    let two = sheet(&[&unit(1, [0, 1, 2, 3]), &unit(2, [0; 4])]);
    for second in bad_second_plans() {
        // Also where the result buffer is too short: 18 comes before 13.
        for room in [0, 2 * RESULT_SIZE - 1, 2 * RESULT_SIZE] {
            assert_eq!(refused(&two, &second, room), (18, 0), "{second:?}");
        }
        assert_eq!(refused(&plan(), &second, 0), (18, 0), "{second:?}");
    }
}

#[test]
fn sheet_refused_before_the_second_plan() {
    let mut seconds = bad_second_plans();
    seconds.push(plan());
    let mut met = vec![];
    for (number, sheet, offset) in refusals() {
        for second in &seconds {
            for room in [0, RESULT_SIZE * MOST_UNITS] {
                assert_eq!(refused(&sheet, second, room), (number, offset), "{second:?}");
            }
        }
        met.push(number);
    }
    met.dedup();
    assert_eq!(met, (1..=12).collect::<Vec<_>>());
}

#[test]
fn same_grade_by_the_sheets_own_designations() {
    // The sheet's plan designates A and the second plan B.
    let second = plan_of(Grade::B, [[0, 50, 50]; 3]);
    assert_eq!(regraded(&sheet(&[&redesignation(1)]), &second), []);
    assert_eq!(refused(&sheet(&[&redesignation(0)]), &second, 0), (11, 75));
}

#[test]
fn room_for_the_records() {
    let two = sheet(&[&unit(1, [0; 4]), &BREAK, &unit(2, [0; 4])]);
    for room in [0, 1, RESULT_SIZE, 2 * RESULT_SIZE - 1] {
        assert_eq!(refused(&two, &plan(), room), (13, two.len()));
    }
    assert_eq!(regrade(&two, &plan(), &mut [0; 2 * RESULT_SIZE]).unwrap().units(), 2);
    assert_eq!(regrade(&sheet(&[&BREAK]), &plan(), &mut []).unwrap().units(), 0);
}

#[test]
fn bytes_around_the_records_are_kept() {
    let two = sheet(&[&unit(1, [0; 4]), &BREAK, &unit(2, [0; 4])]);
    let second = plan();
    let given = (two.clone(), second.clone());
    let mut guarded = [0xEE; 28 + 2 * RESULT_SIZE + 28 + 28];
    let (before, rest) = guarded.split_at_mut(28);
    let (results, after) = rest.split_at_mut(2 * RESULT_SIZE + 28);
    let graded = regrade(&two, &second, results).unwrap();
    assert_eq!((graded.units(), graded.bytes().len()), (2, 2 * RESULT_SIZE));
    assert!(graded.bytes().iter().all(|&byte| byte != 0xEE));
    assert_eq!(results[2 * RESULT_SIZE..], [0xEE; 28]);
    assert_eq!((&*before, &*after), (&[0xEE; 28][..], &[0xEE; 28][..]));
    assert_eq!((two, second), given);
}

#[test]
fn two_failures_in_a_row_mean_nothing() {
    // Both plans are the same. By the sheet's own grading the third unit is in step 3 at B.
    let own = plan_of(Grade::A, [[0, 50, 20], [0, 60, 40], [0, 70, 60]]);
    let [fails, clean] = [8, 0].map(|minor| unit(1, [0, 0, 0, minor]));
    let mut recoverable = clean.clone();
    recoverable[13] = 1;
    let records = [&own, &fails, &fails, &recoverable, &clean, &clean].map(|part| &part[..]);
    let sheet = records.concat();
    let mut results = [0; 5 * RESULT_SIZE];
    let graded = grade(&sheet, &mut results).unwrap();
    assert_eq!(graded.records().nth(2).unwrap().standing, Standing::Recovered);
    let records = regraded(&sheet, &own);
    let standings: Vec<_> = records.iter().map(|record| record.standing).collect();
    use Standing::{Failed, Met};
    assert_eq!(standings, [Failed, Failed, Met, Met, Met]);
    assert!(records.iter().all(|record| record.plan_grade == Some(Grade::A)));
    let totals: Vec<_> =
        records.iter().map(|record| (record.cusums[3], record.overshoots[3])).collect();
    assert_eq!(totals, [(20, 10), (20, 30), (0, 0), (0, 0), (0, 0)]);
    // Recoverable is not looked at.
    let mut others = sheet.clone();
    others[PLAN_SIZE..].chunks_exact_mut(UNIT_SIZE).for_each(|unit| unit[13] ^= 1);
    assert_eq!(regraded(&others, &own), records);
}

#[test]
fn breaks_and_redesignations() {
    // S of total is 1.0 at A and 2.0 at B, which the second plan designates; T is 3.0.
    let second = plan_of(Grade::B, [[10, 30, 30], [20, 30, 30], [20, 30, 30]]);
    let four = unit(1, [0, 0, 0, 4]);
    let totals = |records: &[&[u8]]| -> Vec<u16> {
        regraded(&sheet(records), &second).iter().map(|record| record.cusums[3]).collect()
    };
    assert_eq!(totals(&[&four, &unit(1, [0; 4]), &four]), [30, 0, 10]);
    // A break restarts at S, a redesignation is passed over: to the grade of the second plan, and to
    // another.
    assert_eq!(totals(&[&four, &unit(1, [0; 4]), &BREAK, &four]), [30, 0, 30]);
    for new in [1, 2] {
        let redesignation = redesignation(new);
        assert_eq!(totals(&[&four, &unit(1, [0; 4]), &redesignation, &four]), [30, 0, 10]);
        assert_eq!(totals(&[&redesignation, &four, &BREAK, &four]), [30, 30]);
    }
}

#[test]
fn grades_of_the_second_plan() {
    // T+L of total is 4, 6 and 8; the first unit fails and the prerequisite of the last is C.
    let second = plan_of(Grade::A, [[0, 20, 20], [0, 30, 30], [0, 40, 40]]);
    let minors = |code, minor| unit(code, [0, 0, 0, minor]);
    let mut prerequisite = minors(4, 0);
    prerequisite[12] = 2;
    let units = [minors(1, 6), minors(2, 8), minors(3, 9), minors(1, 0), prerequisite];
    let grades: Vec<_> = regraded(&sheet(&units.each_ref().map(|unit| &unit[..])), &second)
        .iter()
        .map(|record| (record.portion_grade, record.code_grade, record.standing))
        .collect();
    use Grade::{Substandard, A, B, C};
    use Standing::{Failed, Met};
    assert_eq!(
        grades,
        [
            (B, B, Failed),
            (C, C, Failed),
            (Substandard, Substandard, Failed),
            (A, B, Met),
            (C, C, Met)
        ]
    );
}

/// Under its own plan record, which may be lent from the sheet itself, a sheet without redesignations
/// that never fails two in a row gets the bytes of its grading.
#[test]
fn own_plan() {
    use Standing::{Failed, InStepThree, Recovered};
    // The standings of its grading, and whether its regrading has the same bytes.
    let both = |sheet: &[u8]| {
        let mut graded = vec![0xEE; RESULT_SIZE * MOST_UNITS];
        let mut again = graded.clone();
        let standings: Vec<Standing> =
            grade(sheet, &mut graded).unwrap().records().map(|record| record.standing).collect();
        let units = regrade(sheet, &sheet[..PLAN_SIZE], &mut again).unwrap().units();
        assert_eq!(units, standings.len());
        (standings, graded == again)
    };
    assert!(both(PEA).1);
    // The peach sheet fails two in a row.
    assert!(!both(PEACH).1);

    // Sheets by chance: units and breaks behind the plan of either, with each designated grade.
    let mut state = 1u32;
    let mut below = |bound: u32| {
        state = state.wrapping_mul(1_664_525).wrapping_add(1_013_904_223);
        ((state >> 16) % bound) as u16
    };
    let (mut compared, mut with_failures) = (0, 0);
    for plan in [PEACH, PEA].repeat(1500) {
        let mut sheet = plan[..PLAN_SIZE].to_vec();
        sheet[2] = below(3) as u8;
        for _ in 0..below(12) {
            if below(5) == 0 {
                sheet.extend(BREAK);
                continue;
            }
            let worse = 1 + u32::from(below(2));
            let counts = [2, 4, 6, 12].map(|most| below(worse * most));
            sheet.extend(unit(below(4), counts));
            let fields = sheet.len() - 2;
            sheet[fields] = below(8).saturating_sub(4) as u8;
            sheet[fields + 1] = below(2) as u8;
        }
        let (standings, same) = both(&sheet);
        if standings.iter().all(|standing| !matches!(standing, InStepThree | Recovered)) {
            assert!(same, "{sheet:?}");
            compared += 1;
            with_failures += usize::from(standings.contains(&Failed));
        }
    }
    assert!(compared > 1000 && with_failures > 500, "{compared}, {with_failures} with failures");
}

#[test]
fn largest_sheet() {
    let sheet = sheet(&[&unit(65_535, [2000; 4]).repeat(MOST_UNITS)]);
    let records = regraded(&sheet, &plan_of(Grade::C, [[0, 0, 0]; 3]));
    let expected = Record {
        code: 65_535,
        portion_grade: Grade::Substandard,
        code_grade: Grade::Substandard,
        plan_grade: Some(Grade::C),
        standing: Standing::Failed,
        cusums: [0; 4],
        overshoots: [20_000, 20_000, 20_000, 80_000],
    };
    assert_eq!(records, [expected; MOST_UNITS]);
}

#[test]
fn ground_and_error() {
    let refusal = regrade(PEACH, PEACH, &mut []).unwrap_err();
    assert_eq!(refusal.ground(), Some(Ground::BadSecondPlan));
    let error: Box<dyn std::error::Error> = Box::new(refusal);
    assert_eq!(
        error.to_string(),
        "refused 18 at offset 0: second plan not exactly one plan record free of 2 to 5"
    );
}
