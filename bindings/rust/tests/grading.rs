//! The library over its boundary: the example sheets, every refusal, and what the result buffer keeps,
//! first of tally sheets and then of mold sheets.

use hatmuyon::{grade, Grade, Ground, Record, Refusal, Standing};
use hatmuyon::{
    grade_mold, MoldGround, MoldRecord, MoldRefusal, MOLD_LEVELS, MOST_POSITIVE_FIELDS,
};
use hatmuyon::{MOLD_RESULT_SIZE, MOST_UNITS, PLAN_SIZE, RESULT_SIZE, UNIT_SIZE};
use sheets::{plan, refusals, sheet, unit, BREAK, PEA, PEACH};

mod sheets;

const DAMAGED: &[u8] = include_bytes!("../../../examples/damaged.sheet");
const TOMATO: &[u8] = include_bytes!("../../../examples/tomato.mold");

/// A plan with A designated and these S, T and L of total at A, B and C. In the other classes they
/// are 0, and a unit with minor defects only is never over.
fn plan_of_total(grades: [[u16; 3]; 3]) -> Vec<u8> {
    let mut plan = vec![0x50, 0x4C, 0];
    for numbers in grades {
        plan.extend([0; 18]);
        plan.extend(numbers.map(u16::to_be_bytes).concat());
    }
    plan
}

/// The records of a sheet that is accepted.
fn records(sheet: &[u8]) -> Vec<Record> {
    let mut results = vec![0xEE; RESULT_SIZE * MOST_UNITS];
    grade(sheet, &mut results).expect("the sheet is refused").records().collect()
}

/// Standing, CuSum and overshoot of total at units that have minor defects only, so many each.
fn totals(plan: Vec<u8>, minors: &[u16]) -> Vec<(Standing, u16, u32)> {
    let units: Vec<u8> = minors.iter().flat_map(|&minor| unit(1, [0, 0, 0, minor])).collect();
    let of_total = |record: Record| {
        let ([0, 0, 0, cusum], [0, 0, 0, overshoot]) = (record.cusums, record.overshoots) else {
            panic!("not in total alone: {record:?}")
        };
        (record.standing, cusum, overshoot)
    };
    records(&[plan, units].concat()).into_iter().map(of_total).collect()
}

/// Grades into a buffer of 0xEE, which a refusal must keep.
fn refused(sheet: &[u8], room: usize) -> (u32, usize) {
    let mut results = vec![0xEE; room];
    let Refusal { number, offset } = grade(sheet, &mut results).expect_err("the sheet is accepted");
    assert!(results.iter().all(|&byte| byte == 0xEE), "a byte was changed");
    (number, offset)
}

#[test]
fn peach_sheet() {
    let record = |code, portion, code_grade, standing, plan, cusums, overshoot| Record {
        code,
        portion_grade: portion,
        code_grade,
        plan_grade: Some(plan),
        standing,
        cusums,
        overshoots: [0, 0, 0, overshoot],
    };
    use Grade::{A, B};
    use Standing::{Failed, InStepThree, Met, Recovered};
    let expected = [
        record(1, A, A, Met, A, [0, 0, 0, 20], 0),
        record(2, B, B, Failed, A, [0, 5, 10, 40], 40),
        record(3, B, B, Failed, A, [0, 0, 10, 40], 10),
        record(4, A, A, Recovered, B, [0; 4], 0),
        record(5, A, B, Recovered, B, [0; 4], 0),
        record(5, B, B, InStepThree, B, [0; 4], 0),
        record(7, B, B, Met, A, [5, 0, 0, 0], 0),
    ];
    let mut results = [0; 7 * RESULT_SIZE];
    let graded = grade(PEACH, &mut results).unwrap();
    assert_eq!(graded.units(), 7);
    assert_eq!(graded.records().collect::<Vec<_>>(), expected);
    assert_eq!(graded.bytes().len(), 224);
}

#[test]
fn pea_sheet() {
    let mut results = [0; 40 * RESULT_SIZE];
    let graded = grade(PEA, &mut results).unwrap();
    let failed: Vec<_> =
        (1..).zip(&graded).filter(|(_, unit)| unit.standing != Standing::Met).collect();
    let [(23, unit)] = failed[..] else { panic!("not the 23rd unit alone: {failed:?}") };
    assert_eq!((unit.portion_grade, unit.cusums), (Grade::B, [0, 5, 10, 60]));
    assert_eq!(graded.records().nth(23).unwrap().cusums, [0, 0, 0, 30]);
    // 3 + 22 - 15 = 10 is 4 above L, and no other unit is over.
    assert_eq!(unit.overshoots, [0, 0, 0, 40]);
    assert_eq!(graded.into_iter().filter(|unit| unit.overshoots != [0; 4]).count(), 1);
}

#[test]
fn damaged_sheet() {
    assert_eq!(refused(DAMAGED, 1000), (8, 103));
}

#[test]
fn no_plan_in_force() {
    // Two units fail to Substandard; then no plan is in force, and there is no L to be over.
    let bad = unit(9, [2000, 0, 0, 0]);
    let units = records(&sheet(&[&bad, &bad, &bad]));
    let overshoots: Vec<_> = units.iter().map(|unit| unit.overshoots).collect();
    assert_eq!(overshoots, [[19_900, 0, 0, 19_900], [19_950, 0, 0, 19_950], [0; 4]]);
    let last = units[2];
    assert_eq!(
        (last.plan_grade, last.portion_grade, last.cusums),
        (None, Grade::Substandard, [0; 4])
    );
    assert_eq!(last.standing, Standing::InStepThree);
}

#[test]
fn another_lower_plan() {
    // S, T and L of the peach plan in total. Two units fail A and grade B, two fail B and grade C, two
    // fail C; each plan starts at its S.
    let plan = plan_of_total([[10, 60, 40], [20, 120, 50], [20, 170, 70]]);
    let counts = [12, 12, 18, 18, 25, 25, 25].map(|minor| unit(1, [0, 0, 0, minor]));
    let units = records(&[plan, counts.concat()].concat());
    let plans: Vec<_> = units.iter().map(|unit| unit.plan_grade).collect();
    let [a, b, c] = [Grade::A, Grade::B, Grade::C].map(Some);
    assert_eq!(plans, [a, a, b, b, c, c, None]);
    let totals: Vec<_> = units.iter().map(|unit| (unit.cusums[3], unit.overshoots[3])).collect();
    assert_eq!(totals, [(40, 30), (40, 60), (50, 30), (50, 60), (70, 30), (70, 80), (0, 0)]);
}

#[test]
fn overshoots_of_worked_cases() {
    use Standing::{Failed, InStepThree, Met};
    // P1: 1/3/3, counts 8,3,2,1,12; T+L at B and C are those of P2.
    let p1 = plan_of_total([[10, 30, 30], [10, 50, 50], [10, 65, 65]]);
    assert_eq!(
        totals(p1, &[8, 3, 2, 1, 12]),
        [(Failed, 30, 30), (Met, 30, 0), (Met, 20, 0), (Met, 0, 0), (Failed, 30, 60)]
    );
    // P4: raw value L+0.1; a raw value of L is not over.
    let p4 = |start| plan_of_total([[start, 30, 30]; 3]);
    assert_eq!(totals(p4(1), &[6]), [(Failed, 30, 1)]);
    assert_eq!(totals(p4(0), &[6]), [(Met, 30, 0)]);
    // P7: 1.5/1.5/3, counts 1,4,3; P8: then 2,2,1,1,1 at the lower plan 1/3/3.
    let p7 = plan_of_total([[15, 15, 30], [10, 30, 30], [10, 30, 30]]);
    let mut expected = vec![(Met, 10, 0), (Failed, 30, 5), (Failed, 30, 15)];
    expected.extend([(InStepThree, 0, 0); 5]);
    assert_eq!(totals(p7, &[1, 4, 3, 2, 2, 1, 1, 1]), expected);
    // The same, but L is 4 at B and C. A unit of step 3 is over that L: 1 + 8 - 3 = 6.
    let lower = plan_of_total([[15, 15, 30], [10, 30, 40], [10, 30, 40]]);
    assert_eq!(totals(lower, &[1, 4, 3, 8])[3], (InStepThree, 40, 20));
}

#[test]
fn overshoots_by_class() {
    // Raw values 6, 5, 8 and 31: that of severe is L.
    let [record] = records(&sheet(&[&unit(1, [11, 10, 13, 2])]))[..] else { panic!("not one") };
    assert_eq!((record.cusums, record.overshoots), ([50; 4], [10, 0, 30, 260]));
    // The most there is: four of the largest counts, and S, T and L of 0.
    let most = [plan_of_total([[0; 3]; 3]), unit(1, [2000; 4])].concat();
    let [record] = records(&most)[..] else { panic!("not one") };
    assert_eq!((record.cusums, record.overshoots), ([0; 4], [20_000, 20_000, 20_000, 80_000]));
}

#[test]
fn empty_input() {
    assert_eq!(refused(&[], 0), (1, 0));
    assert_eq!(refused(&[], 100), (1, 0));
}

#[test]
fn no_unit() {
    let mut results = [0xEE; 4];
    let graded = grade(&sheet(&[&BREAK]), &mut results).unwrap();
    assert_eq!((graded.units(), graded.records().next()), (0, None));
    assert_eq!(results, [0xEE; 4]);
    assert_eq!(grade(&plan(), &mut []).unwrap().units(), 0);
}

#[test]
fn every_refusal() {
    let cases = refusals();
    for (number, sheet, offset) in &cases {
        for room in [0, RESULT_SIZE * MOST_UNITS] {
            assert_eq!(refused(sheet, room), (*number, *offset));
        }
    }
    let two = sheet(&[&unit(1, [0, 1, 2, 3]), &unit(1, [0; 4])]);
    for room in [0, 1, RESULT_SIZE, 2 * RESULT_SIZE - 1] {
        assert_eq!(refused(&two, room), (13, PLAN_SIZE + 2 * UNIT_SIZE));
    }
    // Every ground but 18, which is that of a regrading.
    let mut met: Vec<u32> = cases.iter().map(|(number, _, _)| *number).collect();
    met.push(13);
    met.sort();
    met.dedup();
    assert_eq!(met, (1..=13).collect::<Vec<_>>());
}

#[test]
fn largest_sheet() {
    let sheet = sheet(&[&unit(65_535, [2000; 4]).repeat(MOST_UNITS)]);
    let mut results = vec![0; RESULT_SIZE * MOST_UNITS];
    let graded = grade(&sheet, &mut results).unwrap();
    assert_eq!(graded.units(), MOST_UNITS);
    assert!(graded
        .into_iter()
        .all(|unit| unit.code == 65_535 && unit.portion_grade == Grade::Substandard));
}

#[test]
fn thirty_one_and_thirty_two_result_bytes_for_one_unit() {
    let sheet = sheet(&[&unit(1, [0; 4])]);
    let mut results = [0xEE; 32];
    let refusal = grade(&sheet, &mut results[..31]).unwrap_err();
    assert_eq!(
        (refusal.ground(), refusal.offset),
        (Some(Ground::ResultBufferTooShort), sheet.len())
    );
    assert_eq!(results, [0xEE; 32]);
    assert_eq!(grade(&sheet, &mut results).unwrap().units(), 1);
}

#[test]
fn bytes_behind_the_records_are_kept() {
    let sheet = sheet(&[&unit(1, [0; 4]), &BREAK, &unit(2, [0; 4])]);
    let mut results = [0xEE; 92];
    let graded = grade(&sheet, &mut results).unwrap();
    assert_eq!((graded.units(), graded.bytes().len()), (2, 64));
    assert_eq!(results[64..], [0xEE; 28]);
    assert!(results[..64].iter().all(|&byte| byte != 0xEE));
}

#[test]
fn records_from_both_ends() {
    let units: Vec<u8> = (1..=5).flat_map(|code| unit(code, [0; 4])).collect();
    let sheet = sheet(&[&units]);
    let mut results = [0; 5 * RESULT_SIZE];
    let graded = grade(&sheet, &mut results).unwrap();
    let mut records = graded.records();
    assert_eq!(records.len(), 5);
    assert_eq!(records.next().unwrap().code, 1);
    assert_eq!(records.next_back().unwrap().code, 5);
    assert_eq!(records.len(), 3);
    assert_eq!(records.rev().map(|unit| unit.code).collect::<Vec<_>>(), [4, 3, 2]);
    assert_eq!(graded.into_iter().count(), 5);
}

#[test]
fn grounds_and_errors() {
    for (number, &ground) in (1..=13).chain([18]).zip(Ground::ALL) {
        assert_eq!(ground.number(), number);
        assert_eq!(Ground::from_number(number), Some(ground));
        assert!(!ground.to_string().is_empty());
    }
    assert_eq!(Ground::ALL.len(), 14);
    for number in [0, 14, 15, 16, 17, 19] {
        assert_eq!(Ground::from_number(number), None);
    }
    let error: Box<dyn std::error::Error> = Box::new(grade(DAMAGED, &mut []).unwrap_err());
    assert_eq!(error.to_string(), "refused 8 at offset 103: a count above 2,000");
}

/// A mold sheet with this level row and units of so many positive fields each.
fn mold_sheet(row: u8, fields: &[u8]) -> Vec<u8> {
    let units = fields.iter().flat_map(|&fields| [0x4D, 0x55, 0, 1, fields]);
    [0x4D, 0x44, row].into_iter().chain(units).collect()
}

/// Met and CuSum of each unit of an accepted mold sheet.
fn mold_records(sheet: &[u8]) -> Vec<(bool, u16)> {
    let mut results = vec![0xEE; MOLD_RESULT_SIZE * MOST_UNITS];
    let graded = grade_mold(sheet, &mut results).expect("the sheet is refused");
    graded.records().map(|record| (record.met, record.cusum)).collect()
}

/// As [`refused`], of a mold sheet.
fn mold_refused(sheet: &[u8], room: usize) -> (u32, usize) {
    let mut results = vec![0xEE; room];
    let MoldRefusal { number, offset } =
        grade_mold(sheet, &mut results).expect_err("the sheet is accepted");
    assert!(results.iter().all(|&byte| byte == 0xEE), "a byte was changed");
    (number, offset)
}

#[test]
fn tomato_sheet() {
    let mut results = [0xEE; 5 * MOLD_RESULT_SIZE + 3];
    let graded = grade_mold(TOMATO, &mut results).unwrap();
    assert_eq!(graded.units(), 5);
    let record = |met, cusum| MoldRecord { met, cusum };
    let meets = record(true, 0);
    let expected = [meets, meets, meets, record(false, 20), record(true, 20)];
    assert_eq!(graded.records().collect::<Vec<_>>(), expected);
    assert_eq!(graded.bytes()[15..20], [0x4D, 0x52, 0, 0, 20]);
    assert_eq!(graded.records().next_back(), Some(record(true, 20)));
    assert_eq!((&graded).into_iter().len(), 5);
    assert_eq!(results[25..], [0xEE; 3]);
}

#[test]
fn mold_rows() {
    // S, T and L of each row, in whole fields.
    let rows = [[0, 1, 1], [1, 2, 3], [0, 3, 2], [1, 3, 3], [0, 5, 2], [1, 6, 3]];
    assert_eq!(rows.len(), usize::from(MOLD_LEVELS));
    for (row, [start, tolerance, limit]) in (0..).zip(rows) {
        let tenths = 10 * u16::from(limit);
        // From S up to L, one above it, none at all, and all there are.
        let fields = [tolerance + limit - start, tolerance, tolerance + 1, 0, MOST_POSITIVE_FIELDS];
        let below = 10 * u16::from(limit.saturating_sub(tolerance));
        assert_eq!(
            mold_records(&mold_sheet(row, &fields)),
            [(true, tenths), (true, tenths), (false, tenths), (true, below), (false, tenths)]
        );
        assert_eq!(
            mold_records(&mold_sheet(row, &[tolerance + limit - start + 1])),
            [(false, tenths)]
        );
    }
}

#[test]
fn every_mold_refusal() {
    let two = mold_sheet(2, &[3, 4]);
    let full = mold_sheet(5, &[0; MOST_UNITS]);
    let behind = |sheet: &[u8], bytes: &[u8]| [sheet, bytes].concat();
    let unit = [0x4D, 0x55, 0, 1, 25];
    let too_many = [0x4D, 0x55, 0, 1, 26];
    let cases: Vec<(u32, Vec<u8>, usize)> = vec![
        (1, vec![], 0),
        (1, vec![0x4D, 0x44], 0),
        (1, vec![0x4D, 0x45, 6], 0),
        (1, PEACH.to_vec(), 0),
        (16, mold_sheet(6, &[26]), 0),
        (16, mold_sheet(255, &[]), 0),
        (6, behind(&two, &[0x4D]), 13),
        (6, behind(&two, b"SU"), 13),
        (6, behind(&two, b"MD\x02"), 13),
        (7, behind(&two, &too_many[..4]), 13),
        (7, behind(&full, &unit[..2]), 5003),
        (12, behind(&full, &unit), 5003),
        (12, behind(&full, &too_many), 5003),
        (17, behind(&two, &too_many), 13),
        (17, mold_sheet(0, &[255, 3]), 3),
    ];
    for (number, sheet, offset) in &cases {
        for room in [0, MOLD_RESULT_SIZE * MOST_UNITS] {
            assert_eq!(mold_refused(sheet, room), (*number, *offset));
        }
    }
    for room in [0, 1, MOLD_RESULT_SIZE, 2 * MOLD_RESULT_SIZE - 1] {
        assert_eq!(mold_refused(&two, room), (13, 13));
    }
    let mut met: Vec<u32> = cases.iter().map(|(number, _, _)| *number).collect();
    met.push(13);
    met.sort();
    met.dedup();
    let grounds: Vec<u32> = MoldGround::ALL.iter().map(|ground| ground.number()).collect();
    assert_eq!(met, grounds);
    assert_eq!(grade(TOMATO, &mut []).unwrap_err().ground(), Some(Ground::NoPlan));
}

#[test]
fn largest_mold_sheet_and_none() {
    let last = mold_records(&mold_sheet(5, &[MOST_POSITIVE_FIELDS; MOST_UNITS]));
    assert_eq!(last, [(false, 30); MOST_UNITS]);
    assert_eq!(grade_mold(&mold_sheet(5, &[]), &mut []).unwrap().units(), 0);
}

#[test]
fn mold_grounds_and_errors() {
    for &ground in MoldGround::ALL {
        assert_eq!(MoldGround::from_number(ground.number()), Some(ground));
        assert!(!ground.to_string().is_empty());
    }
    for number in [0, 2, 8, 14, 15, 18] {
        assert_eq!(MoldGround::from_number(number), None);
    }
    let error: Box<dyn std::error::Error> = Box::new(grade_mold(PEACH, &mut []).unwrap_err());
    assert_eq!(
        error.to_string(),
        "refused 1 at offset 0: shorter than 3 bytes, or first mark not 4D 44"
    );
}
