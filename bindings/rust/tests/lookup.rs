//! What became of a code, over the boundary: results by hand, each way in which a code is found or not,
//! every refusal, and results of gradings and regradings.

use hatmuyon::{find, grade, regrade, Grade, Graded, LookupGround, LookupRefusal};
use hatmuyon::{Record, Standing, MOST_UNITS, PLAN_SIZE, RESULT_SIZE};
use sheets::{plan, redesignation, sheet, unit, BREAK, PEA, PEACH};

#[allow(dead_code)]
mod sheets;

const BUYER_SHEET: &[u8] = include_bytes!("../../../examples/buyer.sheet");
const BUYER_PLAN: &[u8] = include_bytes!("../../../examples/buyer.plan");

/// A result record with this code and portion grade byte, and zeros behind them.
fn record(code: u16, portion: u8) -> [u8; RESULT_SIZE] {
    let mut record = [0; RESULT_SIZE];
    record[..2].copy_from_slice(&[0x47, 0x52]);
    record[2..4].copy_from_slice(&code.to_be_bytes());
    record[4] = portion;
    record
}

/// Result records with these codes and portion grade bytes.
fn records(of: &[(u16, u8)]) -> Vec<u8> {
    of.iter().flat_map(|&(code, portion)| record(code, portion)).collect()
}

/// Where the code is found, counted in records, or none if it is not on this sheet. What is handed back
/// is a part of the results themselves, and no byte of them changes.
fn place(results: &[u8], code: u16) -> Option<usize> {
    let given = results.to_vec();
    let found = find(results, code).expect("it is refused");
    assert_eq!(results, given);
    let found = found?;
    let part = &results[found.offset()..found.offset() + RESULT_SIZE];
    assert_eq!(found.bytes().as_ptr_range(), part.as_ptr_range());
    assert_eq!(found.record().code, code);
    assert_eq!(found.offset() % RESULT_SIZE, 0);
    Some(found.offset() / RESULT_SIZE)
}

/// As [`place`], in records with these codes and portion grade bytes.
fn place_in(of: &[(u16, u8)], code: u16) -> Option<usize> {
    place(&records(of), code)
}

/// The same by a full reading: the worst grade first, and then the first record that has it.
fn by_full_reading(of: &[(u16, u8)], code: u16) -> Option<usize> {
    let grade = |&(its, portion): &(u16, u8)| (its == code).then_some(portion.min(3));
    let worst = of.iter().filter_map(grade).max()?;
    of.iter().position(|record| grade(record) == Some(worst))
}

#[test]
fn worst_of_each_grade() {
    for (byte, grade) in [
        (0, Grade::A),
        (1, Grade::B),
        (2, Grade::C),
        (3, Grade::Substandard),
        (4, Grade::Substandard),
        (255, Grade::Substandard),
    ] {
        // The only record, and behind and before better ones and those of another code.
        assert_eq!(place_in(&[(7, byte)], 7), Some(0));
        for better in 0..byte.min(3) {
            assert_eq!(place_in(&[(7, better), (8, 3), (7, byte), (7, better)], 7), Some(2));
            assert_eq!(place_in(&[(7, byte), (7, better)], 7), Some(0));
        }
        let results = records(&[(8, 3), (7, byte)]);
        let found = find(&results, 7).unwrap().unwrap();
        assert_eq!(found.record().portion_grade, grade);
        assert_eq!((found.offset(), found.bytes()), (RESULT_SIZE, &record(7, byte)[..]));
    }
}

#[test]
fn first_of_equals() {
    for byte in [0, 1, 2, 3, 200] {
        assert_eq!(place_in(&[(7, byte); 3], 7), Some(0));
        assert_eq!(place_in(&[(8, byte), (7, byte), (8, byte), (7, byte)], 7), Some(1));
    }
    assert_eq!(place_in(&[(7, 0), (7, 1), (7, 0), (7, 1)], 7), Some(1));
    // Each byte of 3 or more is the same grade.
    assert_eq!(place_in(&[(7, 3), (7, 200)], 7), Some(0));
    assert_eq!(place_in(&[(7, 200), (7, 3)], 7), Some(0));
    assert_eq!(place_in(&[(7, 2), (7, 3), (7, 255)], 7), Some(1));
    assert_eq!(place_in(&[(7, 2), (7, 255), (7, 3)], 7), Some(1));
}

#[test]
fn same_as_a_full_reading() {
    // All results of up to four records with two codes and these grades.
    let choices: Vec<(u16, u8)> =
        [7, 8].into_iter().flat_map(|code| [0, 1, 2, 3, 200].map(|byte| (code, byte))).collect();
    let mut all: Vec<Vec<(u16, u8)>> = vec![vec![]];
    for _ in 0..4 {
        let longer = all.iter().flat_map(|of| {
            choices.iter().map(|&record| [of.clone(), vec![record]].concat()).collect::<Vec<_>>()
        });
        all = [vec![vec![]], longer.collect()].concat();
    }
    assert_eq!(all.len(), 11_111);
    for of in &all {
        for code in [7, 8, 9] {
            assert_eq!(place_in(of, code), by_full_reading(of, code), "{code} in {of:?}");
        }
    }
}

#[test]
fn all_else_is_not_looked_at() {
    // Code 7 is found in the second record of three, whatever one of the other bytes is.
    let results = records(&[(7, 1), (7, 2), (8, 3)]);
    for byte in (0..results.len()).filter(|byte| !(2..5).contains(&(byte % RESULT_SIZE))) {
        for value in [0, 1, 3, 7, 0x50, 255] {
            let mut other = results.clone();
            other[byte] = value;
            assert_eq!(place(&other, 7), Some(1), "byte {byte}");
            assert_eq!(place(&other, 8), Some(2), "byte {byte}");
            assert_eq!(place(&other, 9), None, "byte {byte}");
        }
    }
    // The code grade of the first is Substandard, and that of the second A.
    let mut grades = results.clone();
    grades[5] = 3;
    grades[RESULT_SIZE + 5] = 0;
    assert_eq!(place(&grades, 7), Some(1));
    // No mark, that of a mold sheet's result record, and one that is the code.
    for mark in [[0, 0], [0x4D, 0x52], [0, 7]] {
        let mut marked = results.clone();
        marked.chunks_exact_mut(RESULT_SIZE).for_each(|record| record[..2].copy_from_slice(&mark));
        assert_eq!(place(&marked, 7), Some(1));
        assert_eq!(place(&marked, 0x4D52), None);
    }
}

#[test]
fn not_on_this_sheet() {
    let two = [(0x0102, 2), (0xFFFF, 3)];
    for code in 0..=u16::MAX {
        let expected = two.iter().position(|&(its, _)| its == code);
        assert_eq!(place_in(&two, code), expected, "code {code}");
    }
    // The bytes exchanged, in the code that is asked and in the record.
    assert_eq!(place_in(&[(0x0102, 0)], 0x0201), None);
    assert_eq!(place_in(&[(0x0201, 0)], 0x0102), None);
    assert_eq!(place_in(&[(0x0102, 0)], 0x0002), None);
    assert_eq!(place_in(&[(0x0102, 0)], 0x0100), None);
    // No byte at all.
    for code in [0, 1, 0x4752, u16::MAX] {
        assert_eq!(find(&[], code), Ok(None));
    }
}

#[test]
fn not_whole_records() {
    let results = records(&[(7, 1), (7, 3), (7, 2)]);
    for length in 0..=results.len() {
        let answer = find(&results[..length], 7);
        match length % RESULT_SIZE {
            0 => assert_eq!(answer.unwrap().is_some(), length > 0),
            _ => assert_eq!(answer, Err(LookupRefusal { number: 19, offset: 0 }), "{length} bytes"),
        }
    }
    // Whether the code is there or not.
    for length in [1, 31, 33, 63] {
        for code in [0, 7, 8] {
            let refusal = find(&results[..length], code).unwrap_err();
            assert_eq!((refusal.number, refusal.offset), (19, 0), "{length} bytes");
            assert_eq!(refusal.ground(), Some(LookupGround::NotWholeRecords));
        }
    }
}

#[test]
fn thousand_records() {
    let of = [(7, 1); MOST_UNITS];
    for at in [0, 1, 499, 998, 999] {
        // One that is worse, better ones before it, and one of another code.
        let mut worse = of;
        worse[at].1 = 2;
        assert_eq!(place_in(&worse, 7), Some(at));
        let mut behind = of;
        behind[..at].fill((7, 0));
        assert_eq!(place_in(&behind, 7), Some(at));
        let mut another = of;
        another[at] = (8, 0);
        assert_eq!(place_in(&another, 8), Some(at));
        assert_eq!(place_in(&another, 7), Some(usize::from(at == 0)));
    }
    assert_eq!(place_in(&of, 8), None);
    // More than a sheet has.
    assert_eq!(place(&[records(&of), records(&of), records(&[(8, 0)])].concat(), 8), Some(2000));
}

#[test]
fn wherever_the_results_begin() {
    let results = records(&[(8, 3), (7, 0), (7, 1)]);
    for before in 0..=RESULT_SIZE {
        let bytes = [vec![0xEE; before], results.clone()].concat();
        assert_eq!(place(&bytes[before..], 7), Some(2));
    }
}

#[test]
fn peach_sheet() {
    let mut results = [0; 7 * RESULT_SIZE];
    let graded = grade(PEACH, &mut results).unwrap();
    let offsets: Vec<Option<usize>> =
        (0..=8).map(|code| graded.find(code).map(|found| found.offset())).collect();
    assert_eq!(
        offsets,
        [None, Some(0), Some(32), Some(64), Some(96), Some(160), None, Some(192), None]
    );
    // Of code 5 unit 5 is A and unit 6 is B.
    let expected = Record {
        code: 5,
        portion_grade: Grade::B,
        code_grade: Grade::B,
        plan_grade: Some(Grade::B),
        standing: Standing::InStepThree,
        cusums: [0; 4],
        overshoots: [0; 4],
    };
    assert_eq!(graded.find(5).unwrap().record(), expected);
    // What is found is borrowed from the results, and not from the grading.
    let found = grade(PEACH, &mut results).unwrap().find(5).unwrap();
    assert_eq!((found.offset(), found.record()), (160, expected));
}

#[test]
fn regraded_sheet() {
    let mut results = [0; 7 * RESULT_SIZE];
    let graded = regrade(BUYER_SHEET, BUYER_PLAN, &mut results).unwrap();
    // Of code 2 unit 4 is C and unit 5 is B.
    let found = graded.find(2).unwrap();
    assert_eq!((found.offset(), found.record().portion_grade), (96, Grade::C));
    // The peach sheet again under its own plan: both units of code 5 are A.
    let graded = regrade(PEACH, &PEACH[..PLAN_SIZE], &mut results).unwrap();
    let found = graded.find(5).unwrap();
    assert_eq!((found.offset(), found.record().portion_grade), (128, Grade::A));
}

/// In the results of a grading the code grade is the worst portion grade: what is found is the first
/// record of the code where the two are equal.
#[test]
fn portion_grade_is_code_grade() {
    // Looks up every code, and counts those that are found behind their first record.
    fn compare(graded: Graded) -> usize {
        let mut behind = 0;
        for code in 0..=10 {
            let its = |record: &Record| record.code == code;
            let worst = |record: &Record| its(record) && record.portion_grade == record.code_grade;
            let place = graded.records().position(|record| worst(&record));
            let found = graded.find(code);
            assert_eq!(found.map(|found| found.offset()), place.map(|place| RESULT_SIZE * place));
            assert_eq!(found.map(|found| found.record()), graded.records().find(worst));
            assert_eq!(find(graded.bytes(), code), Ok(found));
            behind += usize::from(place != graded.records().position(|record| its(&record)));
        }
        behind
    }

    let mut results = vec![0xEE; RESULT_SIZE * MOST_UNITS];
    for sheet in [PEACH, PEA] {
        assert_eq!(compare(grade(sheet, &mut results).unwrap()), 1);
    }
    // Sheets by chance: units, breaks and redesignations behind the peach plan.
    let mut state = 1u32;
    let mut below = |bound: u32| {
        state = state.wrapping_mul(1_664_525).wrapping_add(1_013_904_223);
        ((state >> 16) % bound) as u16
    };
    let (mut graded, mut regraded) = (0, 0);
    for _ in 0..500 {
        let mut sheet = PEACH[..PLAN_SIZE].to_vec();
        let mut designated = 0;
        for _ in 0..below(30) {
            match below(12) {
                0 => sheet.extend(BREAK),
                1 => {
                    designated = (designated + 1 + below(2) as u8) % 3;
                    sheet.extend(redesignation(designated));
                }
                _ => {
                    let counts = [1, 2, 4, 12].map(|most| below(most + 1));
                    sheet.extend(unit(below(6), counts));
                    let fields = sheet.len() - 2;
                    sheet[fields] = below(12).saturating_sub(8) as u8;
                    sheet[fields + 1] = below(2) as u8;
                }
            }
        }
        graded += compare(grade(&sheet, &mut results).unwrap());
        regraded += compare(regrade(&sheet, BUYER_PLAN, &mut results).unwrap());
    }
    assert!(graded > 500 && regraded > 500, "{graded} and {regraded} behind the first record");
}

#[test]
fn no_unit() {
    let mut results = [0; 2 * RESULT_SIZE];
    let graded = grade(&sheet(&[&BREAK]), &mut results).unwrap();
    // The bytes behind the records are not among them: there is no code 0.
    assert_eq!(graded.find(0), None);
    let graded = grade(&sheet(&[&unit(7, [0; 4])]), &mut results).unwrap();
    assert_eq!(graded.find(0), None);
    assert_eq!(graded.find(7).unwrap().offset(), 0);
    assert_eq!(grade(&plan(), &mut []).unwrap().find(0), None);
}

#[test]
fn ground_and_error() {
    assert_eq!(LookupGround::ALL, [LookupGround::NotWholeRecords]);
    for &ground in LookupGround::ALL {
        assert_eq!(LookupGround::from_number(ground.number()), Some(ground));
    }
    for number in (0..19).chain([20, u32::MAX]) {
        assert_eq!(LookupGround::from_number(number), None);
    }
    let error: Box<dyn std::error::Error> = Box::new(find(&[0; 33], 0).unwrap_err());
    assert_eq!(
        error.to_string(),
        "refused 19 at offset 0: results not a multiple of 32 bytes long"
    );
}
