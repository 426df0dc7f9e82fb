//! Regradings (A.5 of paper 02): the manual's example, sheets by hand for each wrong program, every
//! refusal and which of two is returned, and random regradings and pairs.

use crate::check::{self, first_two_in_a_row};
use crate::generate::{counted, table, Counts, MOST_ROOM, PEACH};
use crate::generate_regrade::{regrade_case, regrade_pair};
use crate::peach::{p10, peach, peaches};
use crate::regrade::{print_checked, regrade, regrade_but_codes, regrade_sheet, regrade_traced};
use crate::rules::{self, Graded, Row, RECOVERED};
use crate::sheet::{self, Record, Sheet, Table};
use crate::tests::{majors_sheet, recorded_overshoots, shorten, STEPS};
use crate::{Answer, RESULT_SIZE};

/// The buyer's S/T/L of major at A, B, C: T+L is 4, 7 and 12. The sheets by hand are of [`STEPS`],
/// designated A, where T+L is 2, 6 and 10.
const BUYER: [[i64; 3]; 3] = [[10, 20, 20], [10, 40, 30], [20, 60, 60]];

/// The plan record of such a buyer.
fn buyer(designated: u8) -> Vec<u8> {
    majors_sheet(designated, BUYER, "")
}

/// Regrades recoverable units of major defects for that buyer, with the self check. Returns for each
/// unit "portion code standing plan", without spaces, and the CuSum.
fn majors(designated: u8, script: &str) -> String {
    shorten(&print_checked(&majors_sheet(0, STEPS, script), &buyer(designated), true))
}

/// The overshoots of those units in major.
fn overshoots(designated: u8, script: &str) -> Vec<u32> {
    let mut results = vec![0xA5; MOST_ROOM];
    let sheet = majors_sheet(0, STEPS, script);
    let (answer, _) = regrade_traced(&sheet, &buyer(designated), &mut results, true);
    assert_eq!(answer.number, 0);
    let recorded = recorded_overshoots(&results[..RESULT_SIZE * answer.units]);
    recorded.into_iter().map(|all| all[2]).collect()
}

/// Number, units and offset, with a buffer of `room` bytes, of which no other byte changes.
fn answer(sheet: &[u8], plan: &[u8], room: usize) -> (u32, usize, usize) {
    let mut results = vec![0xA5; room];
    let Answer { number, units, offset } = regrade(sheet, plan, &mut results);
    assert!(results[RESULT_SIZE * units..].iter().all(|&byte| byte == 0xA5));
    (number, units, offset)
}

/// A plan record of this table.
fn plan(designated: u8, table: Table) -> Vec<u8> {
    Sheet { designated, table, records: Vec::new() }.bytes()
}

/// Appendix 7, "Example: (Designated grade B showing all classes of defects)". The buyer's numbers are
/// legible, class by class at A, B, C; 0/3/3 of major at C stands here as printed, and its S is not
/// used. So are the rows of totals, and of CuSums and grades at B, but they are moved against each
/// other: counts ("Pit Material" 1, "Off-suture", "Gouge", "Blemished") stand two cells too far to the
/// right, so that those of units 8 and 9 are cut off, and units 1 to 7 are left. Only read so, as the
/// first seven, do counts and CuSums fit, and the classes sum up to "Total All Classes" 3 1 2 7 3 2 2.
/// Of units 8 and 9 there are prerequisites and CuSums of zero (of unit 9 only that of critical). Codes
/// stand over the first of their units, one cell to the left as the row's label is wide: CYC1 over
/// units 1 to 3, CYC2 over 4 and 5, CYC3 over 6 and 7, CYC4 over 8 and 9. "Production Grade B --- ---
/// C [ ] B" has no mark at unit 5: the C is that of CYC2, while "Sample Unit Grade B --- --- C B" has
/// a B there. "---" is the grade before it once more. The head "Meets -----Meets-----" has lost what
/// stood between. Prerequisites are A in all three rows, and no grade is made better by that.
#[test]
fn example_of_the_manual() {
    let numbers = table([
        [[3, 1, 9], [0, 5, 5], [0, 10, 10], [10, 20, 30]],
        [[0, 5, 5], [0, 10, 10], [15, 15, 30], [10, 30, 30]],
        [[0, 10, 10], [5, 15, 20], [0, 30, 30], [10, 50, 30]],
    ]);
    let records = vec![
        counted(1, [0, 1, 1, 1]),
        counted(1, [0, 0, 0, 1]),
        counted(1, [0, 0, 1, 1]),
        counted(2, [1, 1, 1, 4]),
        counted(2, [0, 1, 1, 1]),
        counted(3, [0, 0, 1, 1]),
        counted(3, [0, 0, 1, 1]),
    ];
    // CuSums: critical 0 0 0 0.5 0 0 0, severe all 0, major 1 0 0 0 0 0 0, total 1 0 0 3 3 2 1. Unit 4
    // fails in total, 0+7-3 = 4 being above 3, and is within T+L of C; in critical it is at L.
    let lines = "1 1 B B m B 0.0 0.0 1.0 1.0\n2 1 B B m B 0.0 0.0 0.0 0.0\n\
        3 1 B B m B 0.0 0.0 0.0 0.0\n4 2 C C f B 0.5 0.0 0.0 3.0\n5 2 B C m B 0.0 0.0 0.0 3.0\n\
        6 3 B B m B 0.0 0.0 0.0 2.0\n7 3 B B m B 0.0 0.0 0.0 1.0\n";
    // The plan of the sheet itself is not told. At A of the buyer's table units 4 and 5 fail in a row.
    for (designated, own) in [(0, numbers), (1, numbers), (0, table(PEACH)), (2, table(PEACH))] {
        let sheet = Sheet { designated, table: own, records: records.clone() }.bytes();
        assert_eq!(print_checked(&sheet, &plan(1, numbers), true), lines);
        let mut results = [0xA5; 225];
        let accepted = Answer { number: 0, units: 7, offset: 75 + 7 * 14 };
        assert_eq!(regrade(&sheet, &plan(1, numbers), &mut results), accepted);
        assert_eq!(results[96..112], [0x47, 0x52, 0, 2, 2, 2, 1, 1, 0, 5, 0, 0, 0, 0, 0, 30]);
        // 0+7-3-3 = 1 over.
        assert_eq!(results[112..128], [0, 0, 0, 0, 0, 0, 0, 0, 0, 0, 0, 0, 0, 0, 0, 10]);
        assert_eq!(results[128..144], [0x47, 0x52, 0, 2, 1, 2, 1, 0, 0, 0, 0, 0, 0, 0, 0, 30]);
        assert_eq!(results[224], 0xA5);
    }
}

#[test]
fn peach_sheet_for_others() {
    // P10 again under the peach plan, designated A: as at first up to unit 3; then no step 3. Unit 4:
    // 0+0-1.5 -> 0, 1+1-3 -> 0, 4+6-6 = 4. Unit 5: 0, 0, 4+5-6 = 3. Unit 6: 3+4-6 = 1. Unit 7: 0.5,
    // and 1+1-6 -> 0.
    let expected = "1 1 A A m A 0.0 0.0 0.0 2.0\n2 2 B B f A 0.0 0.5 1.0 4.0\n\
        3 3 B B f A 0.0 0.0 1.0 4.0\n4 4 A A m A 0.0 0.0 0.0 4.0\n5 5 A A m A 0.0 0.0 0.0 3.0\n\
        6 5 A A m A 0.0 0.0 0.0 1.0\n7 7 B B m A 0.5 0.0 0.0 0.0\n";
    assert_eq!(print_checked(&p10(), &plan(0, table(PEACH)), true), expected);
    // At B, 0/1/1, 1/3/3, 1/5/3, 2/12/5: unit 1 is 0, 0, 0, 0, and all others too.
    let at_b: String = [(1, 1), (2, 2), (3, 3), (4, 4), (5, 5), (6, 5), (7, 7)]
        .map(|(unit, code)| format!("{unit} {code} B B m B 0.0 0.0 0.0 0.0\n"))
        .concat();
    assert_eq!(print_checked(&p10(), &plan(1, table(PEACH)), true), at_b);
}

#[test]
fn failed_units_stay() {
    // "don't bypass failed production even though that production may have been removed from the lot"
    // (appendix 7): the 9 fails, 1+9-4 = 6, and the last 4 stays at L; without the 9 it is 1.
    assert_eq!(majors(1, "4 9 4"), "BBmB 1.0, CCfB 3.0, BBmB 3.0");
    // All fail, in their own grading and here; each has its record at its place.
    assert_eq!(majors(1, "9 99 8"), "CCfB 3.0, SSfB 3.0, CCfB 3.0");
    assert_eq!(overshoots(1, "9 99 8"), [30, 950, 40]);
    // The 5s fail their own plan and begin its step 3, and meet here: 1+5-4 = 2, then 3 and 3.
    assert_eq!(majors(1, "5 5 4"), "BBmB 2.0, BBmB 3.0, BBmB 3.0");
}

#[test]
fn second_plan_alone() {
    // The 3 fails the sheet's own plan: 0+3-1 = 2. Here it meets at A, B and C.
    assert_eq!(majors(0, "3"), "AAmA 2.0");
    assert_eq!(majors(1, "3"), "BBmB 0.0");
    assert_eq!(majors(2, "3"), "CCmC 0.0");
    // Lower grades by the second table: 7 is within 7 of B, and above the 6 of the sheet's own B.
    assert_eq!(majors(0, "7"), "BBfA 2.0");
    assert_eq!(majors(0, "8"), "CCfA 2.0");
    assert_eq!(majors(0, "12"), "CCfA 2.0");
    assert_eq!(majors(0, "13"), "SSfA 2.0");
    // Lower than the second designated grade: the 7 fails B by 1+7-4 = 4 and is C, though T+L of B
    // admits it; a 13 fails C and is Substandard.
    assert_eq!(majors(1, "7"), "CCfB 3.0");
    assert_eq!(majors(2, "13 6"), "SSfC 6.0, CCmC 6.0");
    // Raw value of L, of a tenth more and of a tenth below zero.
    let tenths = |second: [i64; 3], script: &str| {
        let second = majors_sheet(0, [second; 3], "");
        shorten(&print_checked(&majors_sheet(0, STEPS, script), &second, true))
    };
    assert_eq!(tenths([0, 9, 1], "1"), "AAmA 0.1");
    assert_eq!(tenths([0, 9, 0], "1"), "SSfA 0.0");
    assert_eq!(tenths([0, 1, 9], "0 1"), "AAmA 0.0, AAmA 0.9");
    // Overshoots above two bytes: 2,000 of each, in total 8,000, where nothing is tolerated.
    let mut results = [0xA5; 32];
    let sheet = peach(vec![counted(1, [2_000; 4])]).bytes();
    regrade(&sheet, &plan(2, table([[[0; 3]; 4]; 3])), &mut results);
    assert_eq!(recorded_overshoots(&results), [[20_000, 20_000, 20_000, 80_000]]);
}

#[test]
fn redesignations_passed_over() {
    // 1+6-4 = 3, then 3+4-4 = 3: a restart would give 1, the plan of C 2+4-6 = 0.
    assert_eq!(majors(1, "6 C 4"), "BBmB 3.0, BBmB 3.0");
    assert_eq!(majors(1, "C 6 B 4"), "BBmB 3.0, BBmB 3.0");
    // Also one to the grade that the second plan designates, one in the sheet's own step 3 that keeps
    // it, and one that ends it (the 3s fail A of the sheet).
    assert_eq!(majors(1, "6 B 4"), "BBmB 3.0, BBmB 3.0");
    assert_eq!(majors(0, "3 3 B 2 C 2"), "AAmA 2.0, BBfA 2.0, AAmA 2.0, AAmA 2.0");
    assert_eq!(majors(0, "3 9 B 2 C 2"), "AAmA 2.0, CCfA 2.0, AAmA 2.0, AAmA 2.0");
    // Between two failures: 1+9-4-3 = 3 over, then from L 3+9-4-3 = 5; from S it would be 3 again.
    assert_eq!(overshoots(1, "9 B 9 C 9"), [30, 50, 50]);
    // Beside a break: this restarts at the S of the second plan's designated grade, 1, not 2.
    assert_eq!(majors(1, "6 C | 4"), "BBmB 3.0, BBmB 1.0");
    assert_eq!(majors(1, "6 | C 4"), "BBmB 3.0, BBmB 1.0");
    assert_eq!(majors(2, "9 C | 6 A | 6"), "CCmC 5.0, CCmC 2.0, CCmC 2.0");
}

#[test]
fn breaks_restart() {
    assert_eq!(majors(1, "6 | 4"), "BBmB 3.0, BBmB 1.0");
    assert_eq!(majors(1, "| 6 | | 4 |"), "BBmB 3.0, BBmB 1.0");
    // From below S as well: 1+0-4 -> 0, then 0+4-4 = 0 and 1+4-4 = 1.
    assert_eq!(majors(1, "0 4 | 4"), "BBmB 0.0, BBmB 0.0, BBmB 1.0");
    // A failure before it counts, and the one behind it starts from S: 3 over both.
    assert_eq!(majors(1, "9 | 9 4"), "CCfB 3.0, CCfB 3.0, BBmB 3.0");
    assert_eq!(overshoots(1, "9 | 9 9"), [30, 30, 50]);
}

#[test]
fn two_in_a_row_start_nothing() {
    // "NOTE: Two-in-row rule, step 3, does not apply to reevaluated tally sheet" (appendix 7). The 4 is
    // 3+4-4 = 3 at B; in step 3 it would be 2+4-6 = 0 at C. Three units without defects end nothing:
    // the last 6 is 0+6-4 = 2, and 3 from S.
    let expected = "CCfB 3.0, CCfB 3.0, BBmB 3.0, BBmB 0.0, BBmB 0.0, BBmB 0.0, BBmB 2.0";
    assert_eq!(majors(1, "9 9 4 0 0 0 6"), expected);
    // Not at four either (A.4), nor where no grade admits them.
    assert_eq!(majors(0, "7 7 8 8 2"), "BBfA 2.0, BBfA 2.0, CCfA 2.0, CCfA 2.0, AAmA 2.0");
    assert_eq!(majors(1, "99 99 99 4"), "SSfB 3.0, SSfB 3.0, SSfB 3.0, BBmB 3.0");
    // In different classes: severe 0.5+5-1.5 = 4, then major 0+7-3 = 4.
    let records = vec![counted(1, [0, 5, 0, 0]), counted(2, [0, 0, 7, 0]), counted(3, [0; 4])];
    let sheet = Sheet { designated: 1, ..peach(records) }.bytes();
    let expected = "1 1 B B f A 0.0 2.0 0.0 0.0\n2 2 B B f A 0.0 0.5 3.0 1.0\n\
        3 3 A A m A 0.0 0.0 0.0 0.0\n";
    assert_eq!(print_checked(&sheet, &plan(0, table(PEACH)), true), expected);
}

#[test]
fn recoverable_is_not_looked_at() {
    for script in ["9 9 0 0 0 4", "9 9 2 1 1 1 C 9 0 0 0", "4 9 | 9 9 9 B 3 3 3"] {
        let mut other = sheet::read(&majors_sheet(0, STEPS, script)).unwrap();
        for record in &mut other.records {
            if let Record::Unit(unit) = record {
                unit.recoverable = false;
            }
        }
        let shortened = shorten(&print_checked(&other.bytes(), &buyer(1), true));
        assert_eq!(shortened, majors(1, script), "{script}");
    }
    assert_eq!(majors(1, "9 0 0 0"), "CCfB 3.0, BBmB 0.0, BBmB 0.0, BBmB 0.0");
}

#[test]
fn prerequisites_and_codes() {
    // "record the prerequisites as the actual grade that they are assigned and not the designated
    // grade" (note 1 of the manual): A does not make a B better, and S fails no unit. Unit 5 fails
    // major, 0+9-5 = 4, to C, and code 1 with it; code 4 is Substandard by a prerequisite.
    #[rustfmt::skip]
    let sheet = peaches([
        (1, [0; 4], 0, 0), (2, [0; 4], 1, 0), (3, [0; 4], 2, 1), (4, [0; 4], 3, 1),
        (1, [0, 0, 9, 0], 0, 1), (4, [0, 0, 9, 0], 1, 0),
    ]);
    let expected = "1 1 B C m B 0.0 0.0 0.0 0.0\n2 2 B B m B 0.0 0.0 0.0 0.0\n\
        3 3 C C m B 0.0 0.0 0.0 0.0\n4 4 S S m B 0.0 0.0 0.0 0.0\n5 1 C C f B 0.0 0.0 3.0 0.0\n\
        6 4 C S f B 0.0 0.0 3.0 0.0\n";
    assert_eq!(print_checked(&sheet, &plan(1, table(PEACH)), true), expected);
    // Without the code grades the other bytes are the same.
    let [mut whole, mut but_codes] = [[0xA5; 200]; 2];
    let second = plan(1, table(PEACH));
    let answer = regrade(&sheet, &second, &mut whole);
    assert_eq!(regrade_but_codes(&sheet, &second, &mut but_codes), answer);
    for unit in 0..6 {
        (whole[RESULT_SIZE * unit + 5], but_codes[RESULT_SIZE * unit + 5]) = (0, 0);
    }
    assert_eq!(whole, but_codes);
}

#[test]
fn second_plans_turned_away() {
    let (sheet, right) = (majors_sheet(0, STEPS, "4 B 9 | 4"), buyer(1));
    assert_eq!(sheet.len(), 75 + 3 * 14 + 3 + 2);
    assert_eq!(answer(&sheet, &right, 96), (0, 3, 122));
    let refused = (18, 0, 0);
    // Shorter and longer, by a byte, by a break, a redesignation, a unit, another plan and a sheet.
    for length in [0, 1, 2, 74] {
        assert_eq!(answer(&sheet, &right[..length], 96), refused, "length {length}");
    }
    let unit = counted(1, [0; 4]).bytes();
    for more in [&[0][..], &[0x50], &[0x42, 0x4B], &[0x52, 0x44, 0], &unit, &right, &sheet] {
        assert_eq!(answer(&sheet, &[&right, more].concat(), 96), refused, "{more:?}");
    }
    assert_eq!(answer(&sheet, &sheet, 96), refused);
    // Bytes put at an offset: a wrong mark, then 2, 3, 4 and 5, as in a sheet's own plan.
    let peaches = plan(0, table(PEACH));
    assert_eq!(answer(&sheet, &peaches, 96), (0, 3, 122));
    #[rustfmt::skip]
    let cases: [(usize, &[u8]); 14] = [
        (0, &[0x51]), (1, &[0x4D]), (0, &[0x53, 0x55]), (0, &[0x4C, 0x50]), (2, &[3]), (2, &[255]),
        (3, &[0x27, 0x10]), (73, &[0x27, 0x10]), (3, &[0, 6]), (3 + 66, &[0, 71]),
        (3 + 24 + 2, &[0, 4, 0, 20]), (3 + 24 + 2, &[0, 5, 0, 4]), (3 + 48 + 18 + 2, &[0, 119, 0, 70]),
        (2, &[3, 0x27, 0x10]),
    ];
    for (at, bytes) in cases {
        let mut damaged = peaches.clone();
        damaged[at..at + bytes.len()].copy_from_slice(bytes);
        // 18 is before 13, and is not for the units' sake alone.
        for room in [0, 1, 95, 96, 200] {
            assert_eq!(answer(&sheet, &damaged, room), refused, "{bytes:?} at {at}");
        }
        assert_eq!(answer(&sheet[..75], &damaged, 0), refused, "{bytes:?} at {at}");
        // The same bytes in the sheet's own plan are its own number, whatever the second plan.
        let mut own = [&peaches[..], &sheet[75..]].concat();
        own[at..at + bytes.len()].copy_from_slice(bytes);
        let (number, offset) = sheet::read(&own).unwrap_err();
        assert!((1..=5).contains(&number) && offset == 0);
        for second in [&right, &damaged, &own] {
            assert_eq!(answer(&own, second, 96), (number, 0, 0), "{bytes:?} at {at}");
        }
    }
}

#[test]
fn which_of_two_refusals() {
    let records =
        vec![counted(1, [0; 4]), Record::Break, Record::Redesignation(1), counted(2, [0; 4])];
    let sheet = peach(records).bytes();
    let (right, short, long) = (buyer(1), &buyer(1)[..74], [&buyer(1)[..], &[0]].concat());
    assert_eq!(answer(&sheet, &right, 64), (0, 2, 108));
    // "after all checks of the sheet's records": bytes put at an offset of the sheet, the number and
    // the offset. 11 goes by the sheet's own designations: A, then B; not by the second plan's B.
    #[rustfmt::skip]
    let cases: [(usize, &[u8], u32, usize); 12] = [
        (0, &[0x51], 1, 0), (2, &[3], 2, 0), (3, &[0x27, 0x10], 3, 0), (3, &[0, 6], 4, 0),
        (3 + 24 + 2, &[0, 4, 0, 20], 5, 0), (94, &[0x53, 0x44], 6, 94), (79, &[7, 0xD1], 8, 75),
        (94 + 10, &[7, 0xD1], 8, 94), (94 + 13, &[2], 9, 94), (87, &[4], 9, 75), (93, &[3], 10, 91),
        (93, &[0], 11, 91),
    ];
    for (at, bytes, number, offset) in cases {
        let mut damaged = sheet.clone();
        damaged[at..at + bytes.len()].copy_from_slice(bytes);
        for (second, room) in [(&right[..], 64), (&right, 0), (short, 64), (&long, 0), (&[], 63)] {
            assert_eq!(answer(&damaged, second, room), (number, 0, offset), "{bytes:?} at {at}");
        }
    }
    for (length, number, offset) in [(74, 1, 0), (76, 6, 75), (88, 7, 75), (107, 7, 94)] {
        assert_eq!(answer(&sheet[..length], short, 0), (number, 0, offset), "length {length}");
    }
    let mut many = peach(Vec::new());
    many.fill(1_001);
    assert_eq!(answer(&many.bytes(), short, 0), (12, 0, 14_075));
    many.records.pop();
    assert_eq!(answer(&many.bytes(), short, 0), (18, 0, 0));
    assert_eq!(answer(&many.bytes(), &right, 31_999), (13, 0, 14_075));
    assert_eq!(answer(&many.bytes(), &right, 32_000), (0, 1_000, 14_075));
    // "and before 13"; 31 and 32 bytes for a unit.
    for (second, room, expected) in [
        (&right[..], 64, (0, 2, 108)),
        (&right, 65, (0, 2, 108)),
        (&right, 63, (13, 0, 108)),
        (&right, 0, (13, 0, 108)),
        (short, 64, (18, 0, 0)),
        (&long, 63, (18, 0, 0)),
    ] {
        assert_eq!(answer(&sheet, second, room), expected, "room {room}");
    }
    // No unit: no room is needed, and 18 stands all the same.
    let none = peach(vec![Record::Redesignation(2), Record::Break]).bytes();
    assert_eq!(answer(&none, &right, 0), (0, 0, 80));
    assert_eq!(answer(&none, &long, 0), (18, 0, 0));
    assert_eq!(print_checked(&none, &right, true), "");
    // Printing: 15 is about the sheet alone, and before all else.
    let wide = vec![0; 65_537];
    assert_eq!(print_checked(&wide, &right, true), "refused 15 65536\n");
    assert_eq!(print_checked(&wide, short, true), "refused 15 65536\n");
    assert_eq!(print_checked(&wide[1..], short, true), "refused 1 0\n");
    assert_eq!(print_checked(&sheet, &wide, true), "refused 18 0\n");
    assert_eq!(print_checked(&sheet[..107], short, true), "refused 7 94\n");
}

/// The result records of these rows, after their code grades.
fn recorded(mut rows: Vec<Row>) -> Vec<[u8; RESULT_SIZE]> {
    rules::grade_codes(&mut rows);
    rows.iter().map(Row::result).collect()
}

/// The records with each redesignation replaced.
fn redesignations_as(records: &[Record], other: &[Record]) -> Vec<Record> {
    let replaced = records.iter().flat_map(|record| match record {
        Record::Redesignation(_) => other.iter(),
        _ => std::slice::from_ref(record).iter(),
    });
    replaced.copied().collect()
}

/// The programs that are wrong about units, and what each records for a sheet and a second plan, which
/// is a sheet without records.
fn wrong_programs(sheet: &Sheet, plan: &Sheet) -> [(&'static str, Vec<[u8; RESULT_SIZE]>); 7] {
    let regraded = |records: Vec<Record>| {
        let sheet = Sheet { records, ..sheet.clone() };
        regrade_sheet(&sheet, plan.designated, &plan.table).rows
    };
    let right = regraded(sheet.records.clone());
    let without = |rows: &[Row]| {
        let mut rows = rows.iter();
        let stays = |record: &&Record| match record {
            Record::Unit(_) => !rows.next().expect("a row a unit").fails(),
            _ => true,
        };
        regraded(sheet.records.iter().filter(stays).copied().collect())
    };
    // From each redesignation on, under the new grade.
    let mut changing = Vec::new();
    let mut designated = plan.designated;
    for part in sheet.records.split_inclusive(|record| matches!(record, Record::Redesignation(_))) {
        let of_part = Sheet { records: part.to_vec(), ..sheet.clone() };
        changing.extend(regrade_sheet(&of_part, designated, &plan.table).rows);
        if let Some(Record::Redesignation(new)) = part.last() {
            designated = *new;
        }
    }
    let with_step_3 = Sheet { records: redesignations_as(&sheet.records, &[]), ..plan.clone() };
    let mut recovering = right.clone();
    for row in recovering.iter_mut().filter(|row| row.fails() && row.unit.recoverable) {
        row.portion_grade = row.plan.max(row.unit.prerequisite);
        row.standing = RECOVERED;
    }
    [
        ("leaves out what fails", recorded(without(&right))),
        ("leaves out what failed at first", recorded(without(&rules::grade_sheet(sheet).rows))),
        (
            "uses the sheet's own plan",
            recorded(regrade_sheet(sheet, sheet.designated, &sheet.table).rows),
        ),
        (
            "restarts at a redesignation",
            recorded(regraded(redesignations_as(&sheet.records, &[Record::Break]))),
        ),
        ("changes the plan at a redesignation", recorded(changing)),
        ("begins step 3", recorded(rules::grade_sheet(&with_step_3).rows)),
        ("recovers what is marked so", recorded(recovering)),
    ]
}

#[test]
fn wrong_programs_are_caught() {
    // By one sheet by hand: 1+6-4 = 3; 3+4-4 = 3; the two 9s fail; 3+4-4 = 3.
    let (sheet, plan) = (majors_sheet(0, STEPS, "6 C 4 9 9 4"), buyer(1));
    assert_eq!(majors(1, "6 C 4 9 9 4"), "BBmB 3.0, BBmB 3.0, CCfB 3.0, CCfB 3.0, BBmB 3.0");
    let mut results = [0; 160];
    assert_eq!(regrade(&sheet, &plan, &mut results).units, 5);
    let [sheet, plan] = [sheet, plan].map(|bytes| sheet::read(&bytes).unwrap());
    for (wrong, recorded) in wrong_programs(&sheet, &plan) {
        assert_ne!(recorded.concat(), results, "{wrong}");
    }
    // By random sheets.
    let mut caught = std::collections::BTreeMap::new();
    let mut accepted = 0;
    for seed in 0..3_000 {
        let case = regrade_case(seed);
        let mut results = vec![0xA5; case.room];
        let Answer { number, units, .. } = regrade(&case.sheet, &case.plan, &mut results);
        if number != 0 {
            continue;
        }
        accepted += 1;
        let [sheet, plan] = [&case.sheet, &case.plan].map(|bytes| sheet::read(bytes).unwrap());
        for (wrong, recorded) in wrong_programs(&sheet, &plan) {
            let differs = recorded.concat() != results[..RESULT_SIZE * units];
            *caught.entry(wrong).or_insert(0) += usize::from(differs);
        }
    }
    println!("of {accepted} accepted: {caught:#?}");
    assert!(caught.values().all(|&times| 5 * times > accepted));
}

/// What holds of a regrading besides the self check: it does not look at the sheet's own plan, at
/// redesignations and at recoverable marks; and it is a grading under the second plan, without
/// redesignations, up to the unit with which step 3 would begin.
fn related(sheet: &[u8], plan: &[u8], regraded: &Graded) {
    let [sheet, plan] = [sheet, plan].map(|bytes| sheet::read(bytes).unwrap());
    let mut tally = Sheet { records: redesignations_as(&sheet.records, &[]), ..plan };
    let graded = rules::grade_sheet(&tally);
    let reach = first_two_in_a_row(&graded).map_or(graded.rows.len(), |unit| unit + 1);
    for (x, y) in regraded.rows.iter().zip(&graded.rows).take(reach) {
        let [x, y] = [x, y].map(|row| Row { code_grade: 0, ..*row }.result());
        assert_eq!(x, y);
    }
    for record in &mut tally.records {
        if let Record::Unit(unit) = record {
            unit.recoverable = !unit.recoverable;
        }
    }
    let again = regrade_sheet(&tally, tally.designated, &tally.table);
    assert!(regraded.rows.iter().map(Row::result).eq(again.rows.iter().map(Row::result)));
}

#[test]
fn random_regradings() {
    let mut counts = Counts::default();
    for seed in 0..10_000 {
        let case = regrade_case(seed);
        let mut results = vec![0xA5; case.room];
        let (answer, graded) = regrade_traced(&case.sheet, &case.plan, &mut results, true);
        if let Some(expected) = case.expected {
            assert_eq!((answer.number, answer.offset), expected, "seed {seed}");
        }
        let behind = &results[RESULT_SIZE * answer.units..];
        assert!(behind.iter().all(|&byte| byte == 0xA5), "seed {seed}");
        counts.note_regrade(&case, answer, graded.as_ref());
        if let Some(graded) = graded {
            related(&case.sheet, &case.plan, &graded);
        }
    }
    println!("{counts}");
    assert_eq!(counts.missing().next(), None);
}

#[test]
fn monotone_pairs() {
    let (mut unequal, mut in_step_3) = (0, 0);
    let mut counts = Counts::default();
    for seed in 0..5_000 {
        let (first, second, plan) = regrade_pair(seed);
        unequal += usize::from(first != second);
        let own = rules::grade_sheet(&sheet::read(&second).unwrap());
        in_step_3 += usize::from(first_two_in_a_row(&own).is_some());
        let [first, second] = [first, second].map(|sheet| {
            let (_, graded) = regrade_traced(&sheet, &plan, &mut [0; MOST_ROOM], true);
            graded.unwrap_or_else(|| panic!("seed {seed}: refused"))
        });
        counts.note_regrade_pair(&first, &second);
        if let Err(violated) = check::monotone_regraded(&first, &second) {
            panic!("seed {seed}: {violated}");
        }
    }
    println!("{counts}5000 pairs, {unequal} unequal, {in_step_3} in step 3 under their own plan");
    assert!(unequal > 2_000 && in_step_3 > 1_000);
    assert_eq!(counts.missing().next(), None);
}

#[test]
fn wrong_pairs_are_noticed() {
    // 1+3-4 = 0 and 1+6-4 = 3; then 0+9-4 = 5 and 3+9-4 = 8, over by 2 and 5. Behind the redesignation
    // and the two failures the claim goes on: 3+0-4 -> 0 and 3+4-4 = 3.
    let [first, second] = ["3 B 9 9 0", "6 B 9 9 4"].map(|script| {
        let sheet = majors_sheet(0, STEPS, script);
        regrade_traced(&sheet, &buyer(1), &mut [0; MOST_ROOM], true).1.unwrap()
    });
    assert_eq!(check::monotone_regraded(&first, &second), Ok(()));
    assert_eq!(check::monotone_regraded(&second, &second), Ok(()));
    let wrong = |change: &dyn Fn(&mut Graded)| {
        let mut wrong = first.clone();
        change(&mut wrong);
        check::monotone_regraded(&wrong, &second).unwrap_err()
    };
    let at_4 = "unit 4 class 2:";
    assert_eq!(wrong(&|first| first.rows[3].cusums[2] = 31), format!("{at_4} a higher CuSum"));
    assert_eq!(
        wrong(&|first| first.rows[3].class_fails[2] = true),
        format!("{at_4} fails in the first only")
    );
    assert_eq!(
        wrong(&|first| first.rows[3].overshoots[2] = 1),
        format!("{at_4} a larger overshoot")
    );
    assert_eq!(wrong(&|first| first.rows[3].portion_grade = 2), "unit 4: a lower grade");
    assert_eq!(wrong(&|first| first.rows[3].code_grade = 2), "unit 4: a lower grade");
    assert_eq!(wrong(&|first| first.rows.truncate(3)), "not the same units");
}

#[test]
fn wrong_restarts_are_noticed() {
    // The only events are breaks. Without the break, or with one more where the redesignation is, the
    // CuSums 3, 3, 1 found a second time are 3, 3, 3 or 3, 1, 1; overshoots 0, 5, 3 are 0, 5, 5 or 0,
    // 3, 3.
    type Check = fn(&Graded);
    let checks: [Check; 2] = [check::cusums_twice, check::overshoots_twice];
    for (script, check) in ["6 C 4 | 4", "6 C 9 | 9"].into_iter().zip(checks) {
        let sheet = majors_sheet(0, STEPS, script);
        let graded = regrade_traced(&sheet, &buyer(1), &mut [0; MOST_ROOM], true).1.unwrap();
        assert_eq!(graded.events.iter().map(|event| event.units_before).collect::<Vec<_>>(), [2]);
        assert_eq!(graded.passed_over, [1]);
        let [mut fewer, mut more] = [graded.clone(), graded];
        more.events.insert(0, rules::Event { units_before: 1, ..fewer.events[0] });
        fewer.events.clear();
        for wrong in [fewer, more] {
            assert!(std::panic::catch_unwind(|| check(&wrong)).is_err(), "{script}");
        }
    }
}
