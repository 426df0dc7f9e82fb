//! The sheets of paper 01 by hand, falls, every refusal, overshoots, the wrong readings, and random
//! sheets.

use crate::generate::{any_case, counted, pair, table, Counts, MOST_ROOM};
use crate::peach::{p10, peach, peaches, P10_LINES};
use crate::rules::{Event, Graded, What};
use crate::sheet::{Record, Sheet};
use crate::{check, grade, grade_traced, print, print_checked, Answer, RESULT_SIZE};

/// Recoverable units of major defects; S/T/L of major at A, B and C, the other classes being so wide
/// that they neither fail nor hinder. The script lists counts (with a code behind "@", else 1, 2,
/// ...), "|" for a break and A, B, C for redesignations.
pub(crate) fn majors_sheet(designated: u8, grades: [[i64; 3]; 3], script: &str) -> Vec<u8> {
    let tenths = grades.map(|major| [[0, 9_999, 0], [0, 9_999, 0], major, [0, 9_999, 0]]);
    let mut draft = Sheet { designated, table: table(tenths), records: Vec::new() };
    for word in script.split_whitespace() {
        let next = draft.units() as u16 + 1;
        draft.records.push(match word.split_once('@') {
            _ if word == "|" => Record::Break,
            _ if "ABC".contains(word) => Record::Redesignation(word.as_bytes()[0] - b'A'),
            None => counted(next, [0, 0, word.parse().unwrap(), 0]),
            Some((count, code)) => {
                counted(code.parse().unwrap(), [0, 0, count.parse().unwrap(), 0])
            }
        });
    }
    draft.bytes()
}

/// Grades such a sheet, with the self check. Returns for each unit "portion code standing plan",
/// without spaces, and the CuSum.
fn majors(designated: u8, grades: [[i64; 3]; 3], script: &str) -> String {
    shorten(&print_checked(&majors_sheet(designated, grades, script), true))
}

pub(crate) fn shorten(printed: &str) -> String {
    let short = |line: &str| {
        let fields: Vec<&str> = line.split(' ').collect();
        format!("{} {}", fields[2..6].concat(), fields[8])
    };
    printed.lines().map(short).collect::<Vec<_>>().join(", ")
}

/// The overshoots of each unit in tenths, class by class, from the bytes recorded for them: "after the
/// CuSums come four overshoots in tenths, four bytes each, high byte first" (paper 02, A.1). Graded
/// with the self check.
fn overshoots(sheet: &[u8]) -> Vec<[u32; 4]> {
    let mut results = vec![0xA5; MOST_ROOM];
    let (answer, _) = grade_traced(sheet, &mut results, true);
    assert_eq!(answer.number, 0);
    recorded_overshoots(&results[..RESULT_SIZE * answer.units])
}

pub(crate) fn recorded_overshoots(results: &[u8]) -> Vec<[u32; 4]> {
    let of_record = |record: &[u8]| {
        [16, 20, 24, 28].map(|at| u32::from_be_bytes(record[at..at + 4].try_into().unwrap()))
    };
    results.chunks_exact(RESULT_SIZE).map(of_record).collect()
}

/// Of each unit the overshoot in one class, the others being zero.
fn overshoots_in(class: usize, sheet: &[u8]) -> Vec<u32> {
    let alone = |mut all: [u32; 4]| {
        let overshoot = std::mem::take(&mut all[class]);
        assert_eq!(all, [0; 4], "another class than {class}");
        overshoot
    };
    overshoots(sheet).into_iter().map(alone).collect()
}

/// Number, units and offset, with a buffer of `room` bytes, of which no other byte changes.
fn answer(sheet: &[u8], room: usize) -> (u32, usize, usize) {
    let mut results = vec![0xA5; room];
    let Answer { number, units, offset } = grade(sheet, &mut results);
    assert!(results[RESULT_SIZE * units..].iter().all(|&byte| byte == 0xA5));
    (number, units, offset)
}

#[test]
fn peach_sheet() {
    let sheet = p10();
    assert_eq!(print_checked(&sheet, true), P10_LINES);
    let mut results = [0xA5; 224 + 1];
    assert_eq!(grade(&sheet, &mut results), Answer { number: 0, units: 7, offset: 75 + 7 * 14 });
    // Unit 2 fails in total by 2 + 12 - 6 - 4 = 4, unit 5 is recovered.
    assert_eq!(results[32..48], [0x47, 0x52, 0, 2, 1, 1, 0, 1, 0, 0, 0, 5, 0, 10, 0, 40]);
    assert_eq!(results[48..64], [0, 0, 0, 0, 0, 0, 0, 0, 0, 0, 0, 0, 0, 0, 0, 40]);
    assert_eq!(results[128..144], [0x47, 0x52, 0, 5, 0, 1, 1, 3, 0, 0, 0, 0, 0, 0, 0, 0]);
    assert_eq!(results[144..160], [0; 16]);
    assert_eq!(results[224], 0xA5);
}

#[test]
fn total_and_prerequisites() {
    // Units 1 and 2 have a total of 18, above the 17 of B; their prerequisite S does not count for
    // step 3. Unit 3 has a total of 7, above the 6 of A, and does not qualify. A recovered portion is
    // no better than its prerequisite.
    #[rustfmt::skip]
    let sheet = peaches([
        (1, [1, 1, 1, 15], 3, 0), (2, [1, 1, 1, 15], 3, 0), (3, [0, 0, 0, 7], 0, 1),
        (4, [0, 0, 0, 6], 0, 1), (5, [0, 0, 0, 6], 1, 1), (6, [0, 0, 0, 6], 0, 0),
    ]);
    let expected = "1 1 S S f A 0.5 0.0 0.0 4.0\n2 2 S S f A 0.5 0.0 0.0 4.0\n\
        3 3 C C u C 0.0 0.0 0.0 0.0\n4 4 A A r C 0.0 0.0 0.0 0.0\n5 5 B B r C 0.0 0.0 0.0 0.0\n\
        6 6 C C u C 0.0 0.0 0.0 0.0\n";
    assert_eq!(print_checked(&sheet, true), expected);
}

/// Legible examples of document 000: designated grade, S/T/L at A, B, C, script, CuSums (0 where
/// there is no plan). Where only one row is printed it stands for all.
#[test]
fn examples_of_the_manual() {
    #[rustfmt::skip]
    let examples = [
        // Computing, 1, 3, 4; step 1, 1 and 2.
        (0, [[10, 40, 30]; 3], "3 4 0 8 2", "0.0 0.0 0.0 3.0 1.0"),
        (0, [[3, 1, 9]; 3], "0 0 0 0 2", "0.2 0.1 0.0 0.0 0.9"),
        (0, [[5, 15, 20]; 3], "0 2 1 3 3", "0.0 0.5 0.0 1.5 2.0"),
        (0, [[2, 2, 8], [5, 5, 15], [5, 5, 15]], "0 1 0 0 0", "0.0 0.8 0.6 0.4 0.2"),
        (1, [[10, 80, 30], [20, 120, 50], [20, 120, 50]], "10 14 0 16 10", "0.0 2.0 0.0 4.0 2.0"),
        // Step 3, 2 and 4; step 4, 1 and 2.
        (0, [[0, 5, 5], [4, 8, 16], [15, 15, 30]], "2 2 0 0 0 0", "0.5 0.5 0.0 0.0 0.0 0.0"),
        (0, [[10, 80, 40], [20, 120, 50], [20, 170, 70]],
         "9 8 14 28 10 8 8 6 9", "2.0 2.0 4.0 4.0 0.0 0.0 0.0 0.0 2.0"),
        (0, [[20, 100, 50], [20, 140, 70], [30, 220, 90]],
         "10 18 25 B 20 12 10 14 13 12", "2.0 5.0 5.0 1.0 0.0 0.0 0.0 1.0 0.0"),
        (1, [[30, 220, 90], [40, 430, 120], [60, 840, 180]],
         "20 10 22 A 20 20 0 25 20 22", "0.0 0.0 0.0 1.0 0.0 0.0 3.0 1.0 1.0"),
        // Appendix 1, 1 and 3; appendix 2, 2 and 3; appendix 4, 1.
        (0, [[20, 120, 50], [20, 170, 70], [30, 220, 90]],
         "12 16 14 14 12 10 10 11 12", "2.0 5.0 5.0 0.0 0.0 0.0 0.0 1.0 1.0"),
        (0, [[10, 60, 40], [20, 120, 50], [30, 180, 90]],
         "8 10 18 B | 14 13 10 9", "3.0 4.0 4.0 0.0 0.0 0.0 0.0"),
        (0, [[10, 80, 40], [20, 140, 70], [30, 220, 90]],
         "10 10 5 8 25 5 8 7 35", "3.0 4.0 1.0 1.0 4.0 1.0 1.0 0.0 4.0"),
        (0, [[10, 60, 40], [20, 120, 50], [30, 180, 90]],
         "6 12 12 6 5 0 6 4 5", "1.0 4.0 4.0 0.0 0.0 0.0 1.0 0.0 0.0"),
        (0, [[10, 30, 30], [10, 50, 30], [10, 60, 40]],
         "3 3 3 6 6 3 2 3 2", "1.0 1.0 1.0 3.0 3.0 0.0 0.0 0.0 0.0"),
    ];
    for (designated, grades, script, expected) in examples {
        let graded = majors(designated, grades, script);
        let cusums: Vec<&str> = graded.split(", ").map(|unit| &unit[5..]).collect();
        assert_eq!(cusums.join(" "), expected, "{script}");
    }
}

#[test]
fn p1_to_p9() {
    // P1, P2: "1/3/3, counts 8,3,2,1,12: CuSums 3 (fails),3,2,0,3 (fails)"; "T+L at B 10 and at C 13:
    // the 8 grades B, the 12 C". The wrong reading is to carry the raw value on after a failure.
    let p1 = majors(0, [[10, 30, 30], [10, 60, 40], [10, 90, 40]], "8 3 2 1 12");
    assert_eq!(p1, "BBfA 3.0, AAmA 3.0, AAmA 2.0, AAmA 0.0, CCfA 3.0");
    // P3: "CuSum at L, count equal to T: stays L, meets"; S is equal to L.
    assert_eq!(majors(0, [[30, 30, 30]; 3], "3 3"), "AAmA 3.0, AAmA 3.0");
    // P4: "raw value L+0.1 fails"; L does not. P5: "raw -0.1 gives 0".
    assert_eq!(majors(0, [[0, 9, 0]; 3], "1"), "SSfA 0.0");
    assert_eq!(majors(0, [[0, 9, 1]; 3], "1"), "AAmA 0.1");
    assert_eq!(majors(0, [[0, 1, 9]; 3], "0 1"), "AAmA 0.0, AAmA 0.9");
    // P6: "0/0.5/0.5, counts 1,0,1: 0.5,0,0.5".
    assert_eq!(majors(0, [[0, 5, 5]; 3], "1 0 1"), "AAmA 0.5, AAmA 0.0, AAmA 0.5");
    // P7, P8: "1.5/1.5/3, counts 1,4,3: 1, 3 (fails), 3 (fails)"; "then 2,2,1,1,1 at lower plan 1/3/3
    // are all zero; the last three qualify, since 2 is above 1.5". The wrong reading is to count the
    // lower plan's T for recovery. The ninth unit is that of the manual's page 39.
    let p8 = majors(1, [[10, 5, 20], [15, 15, 30], [10, 30, 30]], "1 4 3 2 2 1 1 1 1");
    let (before, recovered) = ("BBmB 1.0, CCfB 3.0, CCfB 3.0, CCuC 0.0, CCuC 0.0", "BBrC 0.0");
    assert_eq!(p8, format!("{before}, {recovered}, {recovered}, {recovered}, BBmB 1.0"));
    // P9: "count 2,001 is refused with 8, 2,000 is not".
    assert_eq!(answer(&peach(vec![counted(1, [0, 0, 2_001, 0])]).bytes(), 32), (8, 0, 75));
    assert_eq!(answer(&peach(vec![counted(1, [2_000; 4])]).bytes(), 32), (0, 1, 89));
}

#[test]
fn overshoots_of_p1_to_p10() {
    // P1: 1+8-3-3 = 3, and from the 0 of the unit before 0+12-3-3 = 6; "zero where the class met",
    // also with the CuSum at L (the 3) and below it (the 2).
    let p1 = majors_sheet(0, [[10, 30, 30]; 3], "8 3 2 1 12");
    assert_eq!(overshoots_in(2, &p1), [30, 0, 0, 0, 60]);
    // P3, P4, P5, P6: L is met, L+0.1 is over by 0.1, and a raw value below zero is not over.
    assert_eq!(overshoots_in(2, &majors_sheet(0, [[30, 30, 30]; 3], "3 3")), [0, 0]);
    assert_eq!(overshoots_in(2, &majors_sheet(0, [[0, 9, 0]; 3], "1")), [1]);
    assert_eq!(overshoots_in(2, &majors_sheet(0, [[0, 9, 1]; 3], "1")), [0]);
    assert_eq!(overshoots_in(2, &majors_sheet(0, [[0, 1, 9]; 3], "0 1")), [0, 0]);
    assert_eq!(overshoots_in(2, &majors_sheet(0, [[0, 5, 5]; 3], "1 0 1")), [0, 0, 0]);
    // P7: 1+4-1.5-3 = 0.5, then from L 3+3-1.5-3 = 1.5; P8: all met.
    let p8 = majors_sheet(1, [[10, 5, 20], [15, 15, 30], [10, 30, 30]], "1 4 3 2 2 1 1 1");
    assert_eq!(overshoots_in(2, &p8), [0, 5, 15, 0, 0, 0, 0, 0]);
    // P10: in total 2+12-6-4 = 4, then from L 4+7-6-4 = 1.
    assert_eq!(overshoots_in(3, &p10()), [0, 40, 10, 0, 0, 0, 0]);
}

#[test]
fn overshoots_by_hand() {
    // P9: 2,000 of each, a total of 8,000. In total 1+8,000-6-4 = 7,991.0, 01 38 26 in tenths.
    let sheet = peach(vec![counted(1, [2_000; 4])]).bytes();
    assert_eq!(overshoots(&sheet), [[19_990, 19_970, 19_950, 79_910]]);
    let mut results = [0xA5; 32];
    grade(&sheet, &mut results);
    assert_eq!(results[16..24], [0, 0, 0x4E, 0x16, 0, 0, 0x4E, 0x02]);
    assert_eq!(results[24..], [0, 0, 0x4D, 0xEE, 0, 1, 0x38, 0x26]);
    // The largest there is: no T and no L. The smallest of a count of 2,000: the largest T and L.
    let wide = |number| Sheet { table: table([[[0, number, number]; 4]; 3]), ..peach(vec![]) };
    let of = |number, counts| {
        overshoots(&Sheet { records: vec![counted(1, counts)], ..wide(number) }.bytes())
    };
    assert_eq!(of(0, [2_000; 4]), [[20_000, 20_000, 20_000, 80_000]]);
    assert_eq!(of(9_999, [2_000, 0, 0, 0]), [[2, 0, 0, 2]]);
    // All classes at once, each by its own S, T and L, then from L; at B by the numbers of B: against
    // the L of A the third unit would be over by 15, 40, 20 and 90.
    let [first, second, third] = [[2, 5, 8, 2], [1, 4, 5, 6], [3, 8, 9, 3]];
    let records = vec![counted(1, first), counted(2, second), counted(3, third)];
    let expected = [[10, 20, 30, 80], [5, 25, 20, 100], [10, 30, 20, 80]];
    assert_eq!(overshoots(&peach(records).bytes()), expected);
    // The raw value starts from S after a restart: a break, a redesignation, step 3 and its end.
    let grades = [[0, 10, 10], [10, 30, 30], [20, 50, 50]];
    let majors_over = |script: &str| overshoots_in(2, &majors_sheet(0, grades, script));
    assert_eq!(majors_over("4 4 | 9"), [20, 30, 40]);
    assert_eq!(majors_over("4 | 4 B 9 9"), [20, 20, 40, 60]);
    assert_eq!(majors_over("4 4 8 8 0 0 0 0 4"), [20, 30, 30, 50, 0, 0, 0, 0, 20]);
    // In step 3 a redesignation to a better grade keeps the CuSums, from which the 9 is over.
    assert_eq!(majors_over("9 9 9 B 9"), [70, 80, 10, 40]);
    // "zero where no plan is in force"; a recovered portion has none, and those that failed before
    // keep theirs.
    assert_eq!(majors_over("99 99 99 0 0 0 3"), [970, 980, 0, 0, 0, 0, 10]);
}

#[test]
fn overshoots_of_a_pair() {
    // A 1 in place of the first 4: no overshoot is larger up to the second 4, with which the second
    // sheet fails two in a row. Then the second is under B and the first under A, where the 9 is over
    // by more: the claim ends before it.
    let grades = [[0, 10, 10], [10, 30, 30], [20, 50, 50]];
    let [first, second] = ["1 4 9", "4 4 9"].map(|script| majors_sheet(0, grades, script));
    assert_eq!(overshoots_in(2, &first), [0, 20, 80]);
    assert_eq!(overshoots_in(2, &second), [20, 30, 40]);
    let graded = |sheet: &[u8]| grade_traced(sheet, &mut [0; MOST_ROOM], true).1.unwrap();
    let (first, second) = (graded(&first), graded(&second));
    assert_eq!(check::monotone(&first, &second), Ok(false));
    // What the monotone half does with a larger one in the first: at the last unit compared, and
    // behind it.
    let larger = |unit: usize| {
        let mut wrong = first.clone();
        wrong.rows[unit].overshoots[2] = 31;
        check::monotone(&wrong, &second)
    };
    assert_eq!(larger(1), Err("unit 2 class 2: a larger overshoot".to_string()));
    assert_eq!(larger(2), Ok(false));
}

#[test]
fn wrong_overshoots_are_noticed() {
    // P10 with one overshoot another: of units that meet, that fail by 4 and by 1, that are under B.
    let graded = grade_traced(&p10(), &mut [0; MOST_ROOM], true).1.unwrap();
    for (unit, class, wrong) in
        [(0, 3, 1), (1, 3, 39), (1, 3, 41), (1, 3, 0), (1, 2, 1), (2, 3, 9), (2, 3, 40), (3, 3, 1)]
    {
        let mut changed = graded.clone();
        changed.rows[unit].overshoots[class] = wrong;
        let noticed = std::panic::catch_unwind(|| check::overshoots_twice(&changed)).is_err();
        assert!(noticed, "unit {} class {class}: {wrong}", unit + 1);
    }
}

#[test]
fn small_cases() {
    let none = peach(Vec::new()).bytes();
    assert_eq!(answer(&none[..74], 0), (1, 0, 0));
    assert_eq!(answer(&none, 0), (0, 0, 75));
    assert_eq!(print(&none), "");
    let mut many = peach(Vec::new());
    many.fill(1_000);
    assert_eq!(answer(&many.bytes(), 31_999), (13, 0, 14_075));
    assert_eq!(answer(&many.bytes(), 32_000), (0, 1_000, 14_075));
    many.records.push(counted(1, [2_001, 0, 0, 0]));
    assert_eq!(answer(&many.bytes(), 32_000), (12, 0, 14_075));
    assert_eq!(answer(&many.bytes()[..14_088], 32_000), (7, 0, 14_075));
    let one = peach(vec![counted(1, [0; 4])]).bytes();
    assert_eq!(answer(&one, 31), (13, 0, 89));
    assert_eq!(answer(&one, 32), (0, 1, 89));
    // A break between two failures: both fail, and step 3 does not begin.
    let grades = [[10, 30, 30], [10, 60, 40], [10, 90, 40]];
    assert_eq!(majors(0, grades, "8 | 8 0"), "BBfA 3.0, BBfA 3.0, AAmA 0.0");
    assert_eq!(print(&[0; 65_537]), "refused 15 65536\n");
    assert_eq!(print(&[0; 65_536]), "refused 1 0\n");
    assert_eq!(print(&one[..88]), "refused 7 75\n");
}

#[test]
fn in_step_3() {
    let after = |script: &str| {
        let graded = majors(0, [[0, 10, 10], [10, 30, 30], [20, 50, 50]], &format!("9 9 {script}"));
        graded.strip_prefix("CCfA 1.0, CCfA 1.0, ").expect("two failures").to_string()
    };
    // B is better than C: step 3 and the CuSums are kept, the run is not, recovery is for B. Right
    // after the second failure that is step 3 already. C is not better than C and ends step 3.
    let recovered = "BBrC 0.0, BBrC 0.0, BBrC 0.0";
    assert_eq!(after("1 1 B 3 3 3 4"), format!("CCuC 0.0, CCuC 0.0, {recovered}, BBmB 2.0"));
    assert_eq!(after("B 5"), "CCuC 2.0");
    assert_eq!(after("6 B 6"), "CCuC 3.0, CCuC 4.0");
    assert_eq!(after("6 C 6"), "CCuC 3.0, CCmC 3.0");
    // Right after the third qualifying unit a redesignation is outside step 3.
    let recovered = "AArC 0.0, AArC 0.0, AArC 0.0";
    assert_eq!(after("0 0 0 B 3"), format!("{recovered}, BBmB 1.0"));
    // A break takes the CuSums to S and the run to none; a failure goes by grades lower than C.
    assert_eq!(after("1 0 | 1 1 1 20"), format!("CCuC 0.0, CCuC 0.0, {recovered}, SSfA 1.0"));
    assert_eq!(after("4 | 4 20 20"), "CCuC 1.0, CCuC 1.0, SSuC 5.0, SSuC 5.0");
    // The worse of the two defect grades counts, whichever is first; a CuSum above zero hinders.
    let grades = [[0, 10, 10], [30, 20, 30], [40, 20, 50]];
    assert_eq!(majors(0, grades, "7 3 0"), "CCfA 1.0, BBfA 1.0, CCuC 2.0");
    let expected = "BBfA 1.0, BBfA 1.0, BBuB 1.0, AArB 0.0, AArB 0.0, AArB 0.0, AAmA 0.0";
    assert_eq!(majors(0, grades, "3 3 0 0 0 0 0"), expected);
    // Without a plan every new grade is better than Substandard.
    let graded = majors(0, [[0, 10, 10], [10, 30, 30], [20, 50, 50]], "9 99 C 6 5 5 5 3");
    let recovered = "CCrS 0.0, CCrS 0.0, CCrS 0.0";
    assert_eq!(graded, format!("CCfA 1.0, SSfA 1.0, SSuS 0.0, {recovered}, CCmC 0.0"));
}

/// S/T/L at A, B, C for falls: T+L is 2, 6 and 10, and a CuSum differs after a start at B, at C, from L
/// of B and from L of C.
pub(crate) const STEPS: [[i64; 3]; 3] = [[0, 10, 10], [10, 30, 30], [20, 50, 50]];

/// What comes after two 4s, which fail A within T+L of B and begin step 3 at B.
fn at_b(script: &str) -> String {
    let graded = majors(0, STEPS, &format!("4 4 {script}"));
    graded.strip_prefix("BBfA 1.0, BBfA 1.0, ").expect("step 3 at B").to_string()
}

/// What comes after two 9s, which fail A within T+L of C and begin step 3 at C.
fn at_c(script: &str) -> String {
    let graded = majors(0, STEPS, &format!("9 9 {script}"));
    graded.strip_prefix("CCfA 1.0, CCfA 1.0, ").expect("step 3 at C").to_string()
}

#[test]
fn lower_plans_in_step_3() {
    // "Two units in a row that fail the lower plan in step 3 now make the worse of their two defect
    // grades the new lower grade, each class at its S" (paper 02, A.4). The last unit starts from the
    // 2 of C: 2+4-5 = 1; from the L of B it would be 2, from that of C 4, and under B 3+4-3 fails.
    assert_eq!(at_b("8 8 4"), "CCuB 3.0, CCuB 3.0, CCuC 1.0");
    // A failure by the CuSum alone, within T+L of B, is one as well, and grades C.
    assert_eq!(at_b("5 4 4 4"), "BBuB 3.0, CCuB 3.0, CCuB 3.0, CCuC 1.0");
    // B to C to no plan, and C to no plan. Without a plan no unit fails, and nothing starts.
    assert_eq!(at_b("8 8 11 11 0"), "CCuB 3.0, CCuB 3.0, SSuC 5.0, SSuC 5.0, SSuS 0.0");
    assert_eq!(at_c("9 11 99 99 99"), "SSuC 5.0, SSuC 5.0, SSuS 0.0, SSuS 0.0, SSuS 0.0");
    // The worse of the two defect grades, whichever is first: from B to no plan.
    assert_eq!(at_b("8 11 0"), "CCuB 3.0, SSuB 3.0, SSuS 0.0");
    assert_eq!(at_b("11 8 0"), "SSuB 3.0, CCuB 3.0, SSuS 0.0");
    // "Both failures must come after the latest start of a lower plan": the second failure that began
    // step 3 does not pair with the 8, nor the one that brought about the fall with the 9. The last
    // units stay at L of their plan.
    assert_eq!(at_b("8 3"), "CCuB 3.0, BBuB 3.0");
    assert_eq!(at_b("8 8 9 5"), "CCuB 3.0, CCuB 3.0, SSuC 5.0, CCuC 5.0");
    // Of four failures in a row the last two fall again.
    assert_eq!(at_b("8 8 9 9 0"), "CCuB 3.0, CCuB 3.0, SSuC 5.0, SSuC 5.0, SSuS 0.0");
    // "in the same class or not": at B severe, then major, fall to C; and the prerequisite S of both
    // does not count, as "the worse of their two defect grades" does.
    #[rustfmt::skip]
    let sheet = peaches([
        (1, [0, 5, 0, 0], 0, 0), (2, [0, 5, 0, 0], 0, 0), (3, [0, 7, 0, 0], 3, 0),
        (4, [0, 0, 9, 0], 3, 0), (5, [0, 5, 0, 0], 0, 0),
    ]);
    let expected = "3 3 S S u B 0.0 3.0 0.0 0.0\n4 4 S S u B 0.0 0.0 3.0 0.0\n\
        5 5 C C u C 0.0 1.0 0.0 0.0\n";
    assert!(print_checked(&sheet, true).ends_with(expected));
    // With B designated step 3 begins at C and falls to no plan; 3 is the T of B.
    let expected = "CCfB 3.0, CCfB 3.0, SSuC 5.0, SSuC 5.0, BBrS 0.0, BBrS 0.0, BBrS 0.0, BBmB 1.0";
    assert_eq!(majors(1, STEPS, "8 8 11 11 3 3 3 3"), expected);
}

#[test]
fn failures_in_step_3_forgotten() {
    // "A break or a redesignation forgets a failure just before, here too" (paper 02, A.4). A break:
    // under C the last 3 would be 0; behind the break two failures pair as ever.
    assert_eq!(at_b("8 | 8 3"), "CCuB 3.0, CCuB 3.0, BBuB 3.0");
    assert_eq!(at_b("8 | 8 8 3"), "CCuB 3.0, CCuB 3.0, CCuB 3.0, CCuC 0.0");
    // A redesignation that keeps step 3, and its CuSums: after a fall the 5 would have no plan.
    assert_eq!(at_c("9 B 9 5"), "SSuC 5.0, SSuC 5.0, CCuC 5.0");
    assert_eq!(at_c("9 B 9 9 5"), "SSuC 5.0, SSuC 5.0, SSuC 5.0, SSuS 0.0");
    // One that ends step 3: the 8 behind it is a first failure of the designated plan, now B.
    assert_eq!(at_b("8 B 8 3"), "CCuB 3.0, CCfB 3.0, BBmB 3.0");
    assert_eq!(at_b("8 B 8 8 3"), "CCuB 3.0, CCfB 3.0, CCfB 3.0, CCuC 0.0");
    // Units that meet are no failures in a row: one that does not qualify, and one that does.
    assert_eq!(at_b("8 3 8 3"), "CCuB 3.0, BBuB 3.0, CCuB 3.0, BBuB 3.0");
    assert_eq!(at_b("8 0 8 3"), "CCuB 3.0, BBuB 0.0, CCuB 3.0, BBuB 3.0");
}

#[test]
fn after_a_lower_plan_starts() {
    // "the qualifying run none": two units qualify before the failures, and two behind them do not end
    // step 3; the 5 takes the CuSum to zero, but is above the T of A.
    let before = "BBuB 0.0, BBuB 0.0, CCuB 3.0, CCuB 3.0";
    let expected = format!("{before}, CCuC 0.0, CCuC 0.0, CCuC 0.0");
    assert_eq!(at_b("0 0 8 8 0 0 5"), expected);
    // One failure does that to a run as well.
    let expected = "BBuB 0.0, BBuB 0.0, CCuB 3.0, BBuB 0.0, BBuB 0.0";
    assert_eq!(at_b("0 0 8 0 0"), expected);
    // "The designated grade stays": A is what portions recover to, and what is in force then, from
    // its S. 1 is the T of A; with a 2, which is within the T of C, none would qualify.
    let recovered = "AArC 0.0, AArC 0.0, AArC 0.0";
    assert_eq!(at_b("0 8 8 1 1 1 2"), format!("{}, {recovered}, AAmA 1.0", &before[10..]));
    // A redesignation goes by the new lower grade: B is better than C and keeps step 3 (2+5-5 = 2),
    // though it is not better than the old one, B; C is not better, and ends it.
    assert_eq!(at_b("8 8 B 5"), "CCuB 3.0, CCuB 3.0, CCuC 2.0");
    assert_eq!(at_b("8 8 C 5"), "CCuB 3.0, CCuB 3.0, CCmC 2.0");
    assert_eq!(at_b("8 11 C 5"), "CCuB 3.0, SSuB 3.0, SSuS 0.0");
    assert_eq!(at_c("11 11 C 5"), "SSuC 5.0, SSuC 5.0, SSuS 0.0");
    // A break right after it changes nothing, and a later one takes the CuSum to the S of C.
    assert_eq!(at_b("8 8 | 4"), "CCuB 3.0, CCuB 3.0, CCuC 1.0");
    assert_eq!(at_b("8 8 6 | 4"), "CCuB 3.0, CCuB 3.0, CCuC 3.0, CCuC 1.0");
    // Overshoots: 1+8-3-3 = 3 and 3+8-3-3 = 5 at B, then from the S of C 2+9-5-5 = 1 and from its L
    // 5+9-5-5 = 4, and none without a plan.
    let sheet = majors_sheet(0, STEPS, "4 4 8 8 9 9 99");
    assert_eq!(overshoots_in(2, &sheet), [20, 30, 30, 50, 10, 40, 0]);
}

#[test]
fn failures_of_a_lower_plan_are_not_two_in_a_row() {
    // Of the monotone half two in a row fail the designated plan: the claim ends at the second 4, and
    // not at the fall. Behind it the first sheet is under B, where the 9 is over by 6, and the second
    // under C, where it is over by 1.
    let [first, second] = ["4 4 3 8 9", "4 4 8 8 9"].map(|script| {
        let sheet = majors_sheet(0, STEPS, script);
        grade_traced(&sheet, &mut [0; MOST_ROOM], true).1.unwrap()
    });
    assert_eq!([first.rows[4].overshoots[2], second.rows[4].overshoots[2]], [60, 10]);
    assert_eq!(check::first_two_in_a_row(&second), Some(1));
    assert_eq!(check::monotone(&first, &second), Ok(false));
}

#[test]
fn wrong_lower_plans_are_noticed() {
    // The start of step 3 and a fall, which is changed: none, one a unit later, one to another grade,
    // one more at the next unit.
    let none = |graded: &mut Graded| graded.events.truncate(1);
    let later = |graded: &mut Graded| graded.events[1].units_before += 1;
    let lower = |graded: &mut Graded| graded.events[1].what = What::LowerPlanStarts { lower: 3 };
    let again = |graded: &mut Graded| {
        graded.events.push(Event { units_before: 5, ..graded.events[1] });
    };
    let noticed = |script: &str, check: fn(&Graded), change: &dyn Fn(&mut Graded)| {
        let sheet = majors_sheet(0, STEPS, script);
        let mut graded = grade_traced(&sheet, &mut [0; MOST_ROOM], true).1.unwrap();
        let [_, Event { what: What::LowerPlanStarts { lower: 2 }, units_before: 4, .. }] =
            graded.events[..]
        else {
            panic!("{script}: {:?}", graded.events);
        };
        change(&mut graded);
        std::panic::catch_unwind(|| check(&graded)).is_err()
    };
    for change in [&none as &dyn Fn(&mut Graded), &later, &lower, &again] {
        assert!(noticed("4 4 8 8 9 5", check::lower_plans_twice, change));
    }
    // "this start counts as a restart for the anchor" (paper 02, A.4). Unit 5, of 4: 1 from the S of C,
    // 4 from its L at unit 4. Unit 5, of 9: over by 1 from the S of C, by 2 from the CuSum of unit 4.
    for change in [&none as &dyn Fn(&mut Graded), &later] {
        assert!(noticed("4 4 8 8 4", check::cusums_twice, change));
        assert!(noticed("4 4 8 8 9", check::overshoots_twice, change));
    }
    // Unit 6, of 5: 5 from the L of unit 5, and 2 from an S there.
    assert!(noticed("4 4 8 8 9 5", check::cusums_twice, &again));
}

#[test]
fn every_refusal_with_its_offset() {
    let base = peach(vec![
        counted(1, [0; 4]),
        Record::Break,
        Record::Redesignation(1),
        counted(2, [0; 4]),
    ]);
    let sheet = base.bytes();
    assert_eq!(answer(&sheet, 64), (0, 2, 108));
    // Bytes put at an offset, and the refusal's number and offset.
    #[rustfmt::skip]
    let cases: [(usize, &[u8], u32, usize); 24] = [
        (0, &[0x51], 1, 0), (1, &[0x4D], 1, 0), (2, &[3], 2, 0),
        (3, &[0x27, 0x10], 3, 0), (73, &[0x27, 0x10], 3, 0),
        (3, &[0, 6], 4, 0), (3 + 66, &[0, 71], 4, 0),
        (3 + 24 + 2, &[0, 4, 0, 20], 5, 0), (3 + 24 + 2, &[0, 5, 0, 4], 5, 0),
        (3 + 48 + 18 + 2, &[0, 119, 0, 70], 5, 0),
        (75, &[0x50, 0x4C], 6, 75), (89, &[0x42, 0x4C], 6, 89), (91, &[0x53, 0x44], 6, 91),
        (79, &[7, 0xD1], 8, 75), (94 + 10, &[7, 0xD1], 8, 94),
        (87, &[4], 9, 75), (94 + 13, &[2], 9, 94), (93, &[3], 10, 91), (93, &[0], 11, 91),
        // The first row met, and the first record met.
        (2, &[3, 0x27, 0x10], 2, 0), (3, &[0, 6, 0x27, 0x10], 3, 0), (3, &[0, 6, 0, 11], 4, 0),
        (79, &[7, 0xD1, 0, 0, 0, 0, 0, 0, 9], 8, 75), (87, &[4, 1, 0, 0], 9, 75),
    ];
    for (at, bytes, number, offset) in cases {
        let mut damaged = sheet.clone();
        damaged[at..at + bytes.len()].copy_from_slice(bytes);
        assert_eq!(answer(&damaged, 0), (number, 0, offset), "{bytes:?} at {at}");
    }
    let cuts = [(0, 1, 0), (76, 6, 75), (77, 7, 75), (88, 7, 75), (90, 6, 89), (93, 7, 91)];
    for (length, number, offset) in cuts {
        assert_eq!(answer(&sheet[..length], 64), (number, 0, offset), "length {length}");
    }
    assert_eq!(answer(&sheet, 63), (13, 0, 108));
    // 11 goes by the grade designated just before, also with no unit between.
    let twice = peach([1, 0, 0].map(Record::Redesignation).to_vec());
    assert_eq!(answer(&twice.bytes(), 0), (11, 0, 81));
}

#[test]
fn wrong_readings_are_not_taken() {
    // Carrying the raw value on, see P1. Counting the lower plan's T for recovery, see P8.
    // Recalculating a CuSum at the lower grade: from S 1 the 10 would fail B (1+10-6 is above 4).
    let grades = [[10, 30, 30], [10, 60, 40], [10, 90, 40]];
    assert_eq!(majors(0, grades, "10"), "BBfA 3.0");
    // Requiring the same class to fail twice: severe, then major, begins step 3.
    let records = vec![counted(1, [0, 5, 0, 0]), counted(2, [0, 0, 7, 0]), counted(3, [0; 4])];
    assert!(print(&peach(records).bytes()).ends_with("3 3 B B u B 0.0 0.0 0.0 0.0\n"));
    // Grading codes before recovery: code 3 of recovered portions alone is as good as they are, and
    // code 1, shared with a failed portion far off, is not.
    let recovered = "AArB 0.0, AArB 0.0, ABrB 0.0";
    let expected = format!("BBfA 3.0, BBfA 3.0, {recovered}, AAmA 0.0");
    assert_eq!(majors(0, grades, "8@1 8@2 0@3 0@3 0@1 0@4"), expected);
}

#[test]
fn random_sheets() {
    let mut counts = Counts::default();
    for seed in 0..20_000 {
        let case = any_case(seed);
        let mut results = vec![0xA5; case.room];
        let (answer, graded) = grade_traced(&case.sheet, &mut results, true);
        if let Some(expected) = case.expected {
            assert_eq!((answer.number, answer.offset), expected, "seed {seed}");
        }
        let behind = &results[RESULT_SIZE * answer.units..];
        assert!(behind.iter().all(|&byte| byte == 0xA5), "seed {seed}");
        counts.note(answer.number, graded.as_ref());
        counts.note_overshoots(graded.as_ref());
    }
    println!("{counts}");
    assert_eq!(counts.missing().next(), None);
}

#[test]
fn monotone_pairs() {
    let (mut unequal, mut calm) = (0, 0);
    let mut counts = Counts::default();
    for seed in 0..5_000 {
        let (first, second) = pair(seed);
        unequal += usize::from(first != second);
        let [first, second] = [first, second].map(|sheet| {
            let (_, graded) = grade_traced(&sheet, &mut [0; MOST_ROOM], true);
            graded.unwrap_or_else(|| panic!("seed {seed}: refused"))
        });
        counts.note_pair(&first, &second);
        match check::monotone(&first, &second) {
            Ok(never_two_in_a_row) => calm += usize::from(never_two_in_a_row),
            Err(violated) => panic!("seed {seed}: {violated}"),
        }
    }
    println!("{counts}5000 pairs, {unequal} unequal, {calm} with never two in a row in the second");
    assert!(unequal > 2_000 && calm > 1_000 && calm < 4_500);
    assert_eq!(counts.missing().next(), None);
}
