//! Prints `crates/computed/specs/FurtherSheets.antt`: whole sheets in bytes, with the answers and the
//! result bytes that the independent grader gives for them, to be proved of the definitions by
//! computation. Sizes and bytes are the grader's. What stands with each sheet by hand, from the papers,
//! holds the grader to what the sheet is to show: letters and overshoots for an accepted one, else the
//! number.

#[path = "../antt.rs"]
mod antt;
#[path = "../plans.rs"]
mod plans;

use antt::{
    abbreviations, elements, field, graded, part_lines, raw, results, shows, Expected, Part,
};
use grader::peach::peach;
use grader::sheet::{Numbers, Record, Sheet, Unit, MOST_UNITS};
use grader::{Answer, RESULT_SIZE};
use plans::{largest, plan_lines, GRADES};

/// Classes by their places.
const CLASSES: [&str; 4] = ["critical", "severe", "major", "total"];
const CRITICAL: usize = 0;
const SEVERE: usize = 1;
const MAJOR: usize = 2;
const TOTAL: usize = 3;
/// Where the overshoots begin in a result record: after the CuSums.
const OVERSHOOTS: usize = 16;
const A: u8 = 0;
const B: u8 = 1;
const C: u8 = 2;
const SUBSTANDARD: u8 = 3;

/// A unit, counted from 1, a class, and how far over it is, in tenths.
type Overshoot = (usize, usize, u32);

struct Tally;
type Case = antt::Case<Tally>;
type Group = antt::Group<Tally>;

impl antt::Kind for Tally {
    /// For each unit portion grade, code grade, standing and plan grade, as printed; and the overshoots
    /// that are not zero, by unit and class.
    type ByHand = (&'static str, &'static [Overshoot]);
    const RESULT_SIZE: usize = RESULT_SIZE;

    fn grade(sheet: &[u8], results: &mut [u8]) -> Answer {
        grader::grade_traced(sheet, results, true).0
    }

    fn print(sheet: &[u8]) -> String {
        grader::print(sheet)
    }

    fn hold(name: &str, &(letters, overshoots): &Self::ByHand, results: &[u8], printed: &str) {
        assert_eq!(overshoots_in(results), overshoots, "{name}: overshoots");
        let found = printed.lines().map(|line| line.split(' ').skip(2).take(4).collect());
        assert_eq!(found.collect::<Vec<String>>().join(" "), letters, "{name}");
    }

    /// Says what differs in the plan from the peach plan.
    fn comment(plan: &[u8]) -> String {
        plan_comment(plan)
    }

    fn list(case: &Case) -> String {
        let plan = plan_text(&case.opening);
        if case.parts.is_empty() {
            return format!(" {plan}");
        }
        if case.full {
            let part = |Part { bytes, comment }: &Part| {
                format!("\n    ({} ∷ [])  -- {comment}", elements(bytes, ""))
            };
            let parts: String = case.parts.iter().map(part).collect();
            return format!("\n    {plan}\n    ++ repeated {MOST_UNITS}{parts}");
        }
        format!("\n    {plan}\n    ++ ({})", part_lines(&case.parts))
    }
}

// ---- plans and records

/// The peach plan.
fn plan() -> Vec<u8> {
    peach(Vec::new()).bytes()
}

fn designated(grade: u8) -> Vec<u8> {
    Sheet { designated: grade, ..peach(Vec::new()) }.bytes()
}

/// The peach plan with other S, T, L (tenths) in some classes of some grades.
fn plan_with(cells: &[(u8, usize, [i64; 3])]) -> Vec<u8> {
    let mut sheet = peach(Vec::new());
    for &(grade, class, [s, t, l]) in cells {
        sheet.table[usize::from(grade)][class] = Numbers { s, t, l };
    }
    sheet.bytes()
}

/// A record that need not be well formed. `counts` are critical, severe, major, minor; further kinds
/// have none.
fn unit_as(code: u16, counts: [i64; 4], prerequisite: u8, recoverable: bool) -> Record {
    let mut unit = Unit { code, counts: Default::default(), prerequisite, recoverable };
    unit.counts[..4].copy_from_slice(&counts);
    Record::Unit(unit)
}

/// A recoverable unit with prerequisite A.
fn unit(code: u16, counts: [i64; 4]) -> Record {
    unit_as(code, counts, A, true)
}

/// With minor defects alone, which count in total alone.
fn minor(code: u16, count: i64) -> Record {
    unit(code, [0, 0, 0, count])
}

/// Fails A and grades B, from any CuSums, in total alone: by 3.0 from S, by 6.0 from L.
fn fails(code: u16) -> Record {
    minor(code, 12)
}

/// Fails A and grades C, in total alone: by 9.0 from S, by 12.0 from L. Fails B and grades C, in total
/// alone: by 2+18-12-5 = 3.0 from S, by 5+18-12-5 = 6.0 from L.
fn fails_to_c(code: u16) -> Record {
    minor(code, 18)
}

/// Fails A and grades Substandard, in critical alone: by 4.0 from S, by 4.5 from L.
fn fails_to_s(code: u16) -> Record {
    unit(code, [5, 0, 0, 0])
}

/// Fails C, in total alone: by 2+23-17-7 = 1.0 from S, by 7+23-17-7 = 6.0 from L.
fn fails_c(code: u16) -> Record {
    minor(code, 23)
}

/// At the T of B in total, where it keeps a CuSum at L and meets. Under C it makes that of S zero.
fn stays_at_b(code: u16) -> Record {
    minor(code, 12)
}

/// At the T of C in total, where it keeps a CuSum at L and meets.
fn stays_at_c(code: u16) -> Record {
    minor(code, 17)
}

/// Within every designated T; from S it makes each CuSum of every plan zero.
fn clean(code: u16) -> Record {
    unit(code, [0, 0, 1, 2])
}

fn to(grade: u8) -> Record {
    Record::Redesignation(grade)
}

const BREAK: Record = Record::Break;

fn part(record: &Record) -> Part {
    let grade = |grade: u8| {
        GRADES.get(usize::from(grade)).map_or(grade.to_string(), |letter| letter.to_string())
    };
    let comment = match *record {
        Record::Unit(Unit { code, counts, prerequisite, recoverable }) => {
            let counts = counts.map(|count| count.to_string()).join(",");
            format!("{code}: {counts};{};{}", grade(prerequisite), u8::from(recoverable))
        }
        Record::Redesignation(new) => format!("redesignation to {}", grade(new)),
        Record::Break => "break".to_string(),
    };
    Part { bytes: record.bytes(), comment }
}

/// All bytes of a record but the last.
fn cut_by_one(record: &Record) -> Part {
    cut(record, record.bytes().len() - 1)
}

/// The first bytes of a record.
fn cut(record: &Record, length: usize) -> Part {
    part(record).cut(length)
}

/// A unit with another last byte, recoverable, and the end of what is said of it.
fn recoverable(record: &Record, byte: u8) -> Part {
    let Part { mut bytes, mut comment } = part(record);
    bytes.pop();
    bytes.push(byte);
    comment.pop();
    Part { bytes, comment: format!("{comment}{byte}") }
}

fn accepted(
    name: &'static str,
    shows: &'static str,
    plan: Vec<u8>,
    records: &[Record],
    letters: &'static str,
    overshoots: &'static [Overshoot],
) -> Case {
    let parts = records.iter().map(part).collect();
    let expected = Expected::Accepted((letters, overshoots));
    Case { name, shows, opening: plan, parts, full: false, expected }
}

fn refused(
    number: u32,
    name: &'static str,
    shows: &'static str,
    plan: Vec<u8>,
    parts: Vec<Part>,
) -> Case {
    let expected = Expected::Number(number, None);
    Case { name, shows, opening: plan, parts, full: false, expected }
}

/// A sheet of as many units as there may be, and one part more.
fn refused_full(number: u32, name: &'static str, shows: &'static str, last: Part) -> Case {
    let parts = vec![part(&clean(1)), last];
    Case { full: true, ..refused(number, name, shows, plan(), parts) }
}

// ---- the sheets

fn groups() -> Vec<Group> {
    vec![
        Group { name: "BreakSheets", field: "breaks", title: "breaks", cases: breaks() },
        Group {
            name: "RedesignationSheets",
            field: "redesignations",
            title: "redesignations",
            cases: redesignations(),
        },
        Group {
            name: "UnitSheets",
            field: "units",
            title: "defect grades, portion grades, code grades; what begins step 3",
            cases: units(),
        },
        Group {
            name: "StepThreeSheets",
            field: "step_three_holds",
            title: "units in step 3, its end and recovery",
            cases: step_three(),
        },
        Group {
            name: "LowerPlanSheets",
            field: "lower_plans",
            title: "two units in a row that fail the lower plan, and failures that are not two in a row",
            cases: lower_plans(),
        },
        Group {
            name: "OvershootSheets",
            field: "overshoots",
            title: "how far a class is over",
            cases: overshoots(),
        },
        Group {
            name: "FewerDefectSheets",
            field: "fewer_defects",
            title: "sheets with a defect fewer than another",
            cases: fewer(),
        },
        Group {
            name: "RefusedSheets",
            field: "refusals",
            title: "refusals, most of them where two rows of the table apply",
            cases: refusals(),
        },
        Group {
            name: "FullSheets",
            field: "full",
            title: "refusals behind as many units as there may be",
            cases: full(),
        },
    ]
}

fn breaks() -> Vec<Case> {
    vec![
        accepted(
            "a break between units",
            "A break sets the CuSums to S: with those of unit 1 the second would fail, from zero they\n\
             would be lower. Unit 3 goes on from unit 2.",
            plan(),
            &[unit(1, [0, 1, 4, 4]), BREAK, unit(2, [0, 1, 4, 4]), unit(3, [0, 0, 3, 3])],
            "AAmA AAmA AAmA",
            &[],
        ),
        accepted(
            "a break between failures",
            "A break forgets the failure just before: no step 3, else unit 3 would be under B.",
            plan(),
            &[fails(1), BREAK, fails(2), unit(3, [0, 0, 3, 3])],
            "BBfA BBfA AAmA",
            &[(1, TOTAL, 30), (2, TOTAL, 30)],
        ),
        accepted(
            "a break in step three",
            "A break in step 3 sets the CuSums to the S of the lower plan, not to that of the designated\n\
             one, and does not end step 3. With CuSums kept, unit 4 would fail.",
            plan(),
            &[fails(1), fails(2), unit(3, [0, 4, 6, 4]), BREAK, unit(4, [0, 4, 6, 4])],
            "BBfA BBfA BBuB BBuB",
            &[(1, TOTAL, 30), (2, TOTAL, 60)],
        ),
        accepted(
            "a break in a run",
            "A break sets the run of qualifying units to none: else units 3 to 5 would be recovered and unit\n\
             6 be under A.",
            plan(),
            &[fails(1), fails(2), clean(3), clean(4), BREAK, clean(5), clean(6)],
            "BBfA BBfA BBuB BBuB BBuB BBuB",
            &[(1, TOTAL, 30), (2, TOTAL, 60)],
        ),
        accepted(
            "a break without a plan",
            "Without a plan a break sets the run to none as well, else units 3 to 5 would be recovered; and\n\
             it does not end step 3.",
            plan(),
            &[
                fails_to_s(1),
                fails_to_s(2),
                clean(3),
                clean(4),
                BREAK,
                clean(5),
                clean(6),
                clean(7),
            ],
            "SSfA SSfA SSuS SSuS AArS AArS AArS",
            &[(1, CRITICAL, 40), (2, CRITICAL, 45)],
        ),
        accepted(
            "no unit",
            "The plan alone: accepted, and every buffer is kept as it is.",
            plan(),
            &[],
            "",
            &[],
        ),
        accepted(
            "no unit but records",
            "Breaks and redesignations are no units and have no result records.",
            plan(),
            &[BREAK, to(B), BREAK, to(A)],
            "",
            &[],
        ),
    ]
}

fn redesignations() -> Vec<Case> {
    vec![
        accepted(
            "a redesignation outside step three",
            "It starts the new plan at S, not at the CuSums of A, and forgets the failure just before: no\n\
             step 3, else unit 3 would be under C.",
            plan(),
            &[unit(1, [0, 1, 4, 9]), to(B), unit(2, [0, 3, 6, 9]), unit(3, [0, 3, 5, 3])],
            "BBfA CCfB BBmB",
            &[(1, TOTAL, 50), (2, TOTAL, 30)],
        ),
        accepted(
            "a redesignation in step three",
            "Step 3 is at C, the worse of the two defect grades, not the second's. B is better than C, so\n\
             step 3 goes on at C with its CuSums: a restart would give unit 4 lower ones.",
            plan(),
            &[fails_to_c(1), fails(2), unit(3, [0, 6, 7, 5]), to(B), unit(4, [0, 5, 6, 6])],
            "CCfA BBfA CCuC CCuC",
            &[(1, TOTAL, 90), (2, TOTAL, 60)],
        ),
        accepted(
            "a redesignation in a run",
            "It sets the run to none: else units 3 to 5 would be recovered. Units 5 to 7 are above the T of\n\
             A and within that of B, the grade now designated, which they get.",
            plan(),
            &[
                fails(1),
                fails_to_c(2),
                clean(3),
                clean(4),
                to(B),
                unit(5, [0, 2, 4, 2]),
                unit(6, [0, 2, 4, 2]),
                unit(7, [0, 2, 4, 2]),
            ],
            "BBfA CCfA CCuC CCuC BBrC BBrC BBrC",
            &[(1, TOTAL, 30), (2, TOTAL, 120)],
        ),
        accepted(
            "a redesignation to the lower grade",
            "A new grade equal to the lower one ends step 3 and starts at S: unit 4 meets the designated\n\
             plan; with CuSums kept it would fail.",
            plan(),
            &[fails(1), fails(2), unit(3, [0, 4, 6, 4]), to(B), unit(4, [0, 4, 6, 4])],
            "BBfA BBfA BBuB BBmB",
            &[(1, TOTAL, 30), (2, TOTAL, 60)],
        ),
        accepted(
            "a redesignation below the lower grade",
            "A new grade worse than the lower one ends step 3: unit 4 is under C.",
            plan(),
            &[fails(1), fails(2), unit(3, [0, 4, 6, 4]), to(C), unit(4, [0, 6, 7, 5])],
            "BBfA BBfA BBuB CCmC",
            &[(1, TOTAL, 30), (2, TOTAL, 60)],
        ),
        accepted(
            "a redesignation without a plan",
            "C is better than Substandard, so step 3 goes on without a plan, and the run is none: else unit\n\
             5 would end step 3. Units 4 to 6 are at the T of C in every class, which none exceeds.",
            plan(),
            &[
                fails_to_s(1),
                fails(2),
                clean(3),
                to(C),
                unit(4, [2, 5, 6, 4]),
                unit(5, [2, 5, 6, 4]),
                unit(6, [2, 5, 6, 4]),
            ],
            "SSfA BBfA SSuS CCrS CCrS CCrS",
            &[(1, CRITICAL, 40), (2, TOTAL, 20)],
        ),
        accepted(
            "a redesignation after step three",
            "Unit 5 is the third that qualifies: units 3 to 5 get A, which is designated there, and not B.\n\
             The redesignation is outside step 3 and starts B at S: from zero unit 6 would have lower CuSums.",
            plan(),
            &[
                fails(1),
                fails(2),
                clean(3),
                clean(4),
                clean(5),
                to(B),
                unit(6, [0, 3, 5, 5]),
            ],
            "BBfA BBfA AArB AArB AArB BBmB",
            &[(1, TOTAL, 30), (2, TOTAL, 60)],
        ),
        accepted(
            "every kind of record",
            "B is better than C, so that step 3 goes on at C; C is not, and ends it. Then C fails twice, and\n\
             unit 6 has no plan. Code 300 is met again in unit 6, which grades lower than unit 1.",
            plan(),
            &[
                fails_to_c(300),
                fails(2),
                to(B),
                unit(3, [0, 6, 7, 5]),
                to(C),
                unit(4, [0, 8, 0, 0]),
                unit(5, [0, 8, 9, 0]),
                BREAK,
                clean(300),
            ],
            "CSfA BBfA CCuC SSfC SSfC SSuS",
            &[(1, TOTAL, 90), (2, TOTAL, 60), (4, SEVERE, 10), (5, SEVERE, 30)],
        ),
    ]
}

fn units() -> Vec<Case> {
    vec![
        accepted(
            "the best lower grade",
            "Unit 1 exceeds T+L of B in severe and grades C, not the next lower grade. Unit 2 is at T+L of B\n\
             in every class, unit 3 at that of C, which admit them; unit 4 exceeds that of C in total alone.",
            plan(),
            &[
                unit(1, [0, 7, 0, 0]),
                BREAK,
                unit(2, [2, 6, 8, 1]),
                BREAK,
                unit(3, [4, 8, 10, 2]),
                BREAK,
                unit(4, [0, 0, 0, 25]),
            ],
            "CCfA BBfA CCfA SSfA",
            &[(1, SEVERE, 40), (2, CRITICAL, 10), (2, SEVERE, 30), (2, MAJOR, 30), (2, TOTAL, 80), (3, CRITICAL, 30), (3, SEVERE, 50), (3, MAJOR, 50), (3, TOTAL, 150), (4, TOTAL, 160)],
        ),
        accepted(
            "designated C failed twice",
            "No grade is lower than C, so that both are Substandard, though within T+L of C. There is no\n\
             plan then: CuSums are zero and plan grade 3.",
            designated(C),
            &[unit(1, [0, 8, 0, 0]), unit(2, [0, 8, 0, 0]), clean(3)],
            "SSfC SSfC SSuS",
            &[(1, SEVERE, 10), (2, SEVERE, 30)],
        ),
        accepted(
            "prerequisite Substandard",
            "A prerequisite never makes a unit fail: no step 3 behind two of them. Unit 3 meets A and grades\n\
             C by its prerequisite.",
            plan(),
            &[
                unit_as(1, [0, 0, 1, 2], SUBSTANDARD, true),
                unit_as(2, [0, 0, 1, 2], SUBSTANDARD, true),
                unit_as(3, [0, 1, 4, 5], C, true),
            ],
            "SSmA SSmA CCmA",
            &[],
        ),
        accepted(
            "prerequisites of two failures",
            "Step 3 is at the worse of the two defect grades, B, and not of the portion grades.",
            plan(),
            &[
                unit_as(1, [0, 0, 0, 12], C, true),
                unit_as(2, [0, 0, 0, 12], SUBSTANDARD, true),
                unit(3, [0, 3, 5, 5]),
            ],
            "CCfA SSfA BBuB",
            &[(1, TOTAL, 30), (2, TOTAL, 60)],
        ),
        accepted(
            "total alone fails",
            "Minor defects count in total, and so do all others. Unit 1 comes to L and meets; unit 2 has one\n\
             minor defect more; unit 3 as many in three kinds, and meets in each of these classes.",
            plan(),
            &[unit(1, [0, 0, 0, 9]), BREAK, unit(2, [0, 0, 0, 10]), BREAK, unit(3, [0, 2, 3, 5])],
            "AAmA BBfA BBfA",
            &[(2, TOTAL, 10), (3, TOTAL, 10)],
        ),
        accepted(
            "two classes fail in turn",
            "Unit 1 fails in severe alone, unit 2 in major alone: step 3 begins all the same, at the S of B.",
            plan(),
            &[unit(1, [0, 4, 0, 0]), unit(2, [0, 0, 7, 0]), unit(3, [0, 3, 5, 5])],
            "BBfA BBfA BBuB",
            &[(1, SEVERE, 10), (2, MAJOR, 10)],
        ),
        accepted(
            "a unit that meets between failures",
            "Failures with a unit between them are not in a row: unit 4 is under A.",
            plan(),
            &[fails(1), unit(2, [0, 0, 0, 0]), fails(3), unit(4, [0, 0, 3, 3])],
            "BBfA AAmA BBfA AAmA",
            &[(1, TOTAL, 30), (3, TOTAL, 20)],
        ),
        accepted(
            "a code met again",
            "Codes are 01 2C, 00 2C, 01 2D, 01 2C: the first and the last are one code, not adjoining, and\n\
             have the worse portion grade. One byte of a code alone does not tell it.",
            plan(),
            &[
                clean(300),
                unit_as(44, [0, 0, 1, 2], B, true),
                unit_as(301, [0, 0, 1, 2], SUBSTANDARD, true),
                unit_as(300, [0, 0, 1, 2], C, true),
            ],
            "ACmA BBmA SSmA CCmA",
            &[],
        ),
        accepted(
            "start equal to limit",
            "S equal to L is accepted, here in every class of A. Counts at T keep major and total at L and\n\
             meet; one major defect more fails.",
            plan_with(&[
                (A, CRITICAL, [5, 5, 5]),
                (A, SEVERE, [20, 15, 20]),
                (A, MAJOR, [30, 30, 30]),
                (A, TOTAL, [40, 60, 40]),
            ]),
            &[unit(1, [0, 1, 3, 2]), unit(2, [0, 1, 4, 1])],
            "AAmA BBfA",
            &[(2, MAJOR, 10)],
        ),
        accepted(
            "cusums of two bytes",
            "S, CuSums and L above 25.5 have both bytes: 25.6, 59.6, and 60.0 at the failure.",
            plan_with(&[
                (A, TOTAL, [256, 60, 600]),
                (B, TOTAL, [20, 120, 600]),
                (C, TOTAL, [20, 170, 600]),
            ]),
            &[unit(1, [0, 0, 0, 6]), unit(2, [0, 0, 0, 40]), unit(3, [0, 0, 0, 7])],
            "AAmA AAmA BBfA",
            &[(3, TOTAL, 6)],
        ),
        accepted(
            "the largest cusums",
            "999.9/999/999.9 in every class. Unit 1 comes to L in critical and total, 999.9+999-999, and\n\
             meets. Unit 2, with as many defects as there may be, fails in each: the CuSums are L, and no\n\
             larger.",
            largest(),
            &[unit(1, [999, 0, 0, 0]), unit(2, [2_000; 4]), unit(3, [0, 0, 0, 999])],
            "AAmA SSfA AAmA",
            &[(2, CRITICAL, 10_010), (2, SEVERE, 20), (2, MAJOR, 20), (2, TOTAL, 70_010)],
        ),
        accepted(
            "P1 in bytes",
            "P1 and P2 in the class total, with minor defects alone: 1/3/3, counts 8,3,2,1,12: CuSums 3\n\
             (fails),3,2,0,3 (fails). T+L at B 10 and at C 13: the 8 grades B, the 12 C.",
            plan_with(&[
                (A, TOTAL, [10, 30, 30]),
                (B, TOTAL, [20, 60, 40]),
                (C, TOTAL, [20, 70, 60]),
            ]),
            &[minor(1, 8), minor(2, 3), minor(3, 2), minor(4, 1), minor(5, 12)],
            "BBfA AAmA AAmA AAmA CCfA",
            &[(1, TOTAL, 30), (5, TOTAL, 60)],
        ),
    ]
}

fn step_three() -> Vec<Case> {
    vec![
        accepted(
            "a failure in step three",
            "Unit 3 fails B and grades lower, here Substandard; its standing is 2, the plan in force stays B\n\
             and the CuSum is L of B. Unit 4 goes on from there.",
            plan(),
            &[fails(1), fails(2), unit(3, [0, 9, 0, 0]), unit(4, [0, 3, 0, 0])],
            "BBfA BBfA SSuB BBuB",
            &[(1, TOTAL, 30), (2, TOTAL, 60), (3, SEVERE, 40)],
        ),
        accepted(
            "lower than the plan in force",
            "Unit 4 fails B within the T+L of B. It grades lower than the plan in force, C, and not only\n\
             lower than the designated A.",
            plan(),
            &[fails(1), fails(2), unit(3, [0, 5, 0, 0]), unit(4, [0, 5, 0, 0])],
            "BBfA BBfA BBuB CCuB",
            &[(1, TOTAL, 30), (2, TOTAL, 60), (4, SEVERE, 20)],
        ),
        accepted(
            "above the tolerance",
            "Unit 4 has two severe defects, within the T of B and above that of A: it does not qualify, else\n\
             units 3 to 5 would be recovered and unit 6 be under A.",
            plan(),
            &[fails(1), fails(2), clean(3), unit(4, [0, 2, 0, 0]), clean(5), clean(6)],
            "BBfA BBfA BBuB BBuB BBuB BBuB",
            &[(1, TOTAL, 30), (2, TOTAL, 60)],
        ),
        accepted(
            "cusum above zero",
            "Unit 4 is within the T of A, but its CuSum in severe is 1.0: it does not qualify, else units 4\n\
             to 6 would be recovered.",
            plan(),
            &[fails(1), fails(2), unit(3, [0, 7, 0, 0]), unit(4, [0, 1, 0, 0]), clean(5), clean(6)],
            "BBfA BBfA CCuB BBuB BBuB BBuB",
            &[(1, TOTAL, 30), (2, TOTAL, 60), (3, SEVERE, 20)],
        ),
        accepted(
            "recovery",
            "Unit 3 gets its prerequisite B, which is worse than A; unit 4, out of reach, keeps C and\n\
             standing 2; unit 5 gets A. Codes are graded after that: code 3 grades B, code 4 C.",
            plan(),
            &[
                fails(1),
                fails_to_c(2),
                unit_as(3, [0, 0, 1, 2], B, true),
                unit_as(4, [0, 0, 1, 2], A, false),
                clean(4),
                clean(3),
            ],
            "BBfA CCfA BBrC CCuC ACrC ABmA",
            &[(1, TOTAL, 30), (2, TOTAL, 120)],
        ),
        accepted(
            "recovery without a plan",
            "Without a plan CuSums are taken as zero. Unit 3 is above the T of A in severe and does not\n\
             qualify; units 4 and 5 are at it in major and total. Unit 7 starts A at S.",
            plan(),
            &[
                fails_to_s(1),
                fails_to_s(2),
                unit(3, [0, 2, 0, 0]),
                unit(4, [0, 1, 3, 2]),
                unit(5, [0, 1, 3, 2]),
                clean(6),
                unit(7, [0, 1, 3, 3]),
            ],
            "SSfA SSfA SSuS AArS AArS AArS AAmA",
            &[(1, CRITICAL, 40), (2, CRITICAL, 45)],
        ),
        accepted(
            "after step three",
            "The designated plan starts at S, not at the zeros of unit 5, and unit 6 is a first failure:\n\
             unit 7 is under A.",
            plan(),
            &[
                fails(1),
                fails(2),
                clean(3),
                clean(4),
                clean(5),
                unit(6, [0, 1, 3, 9]),
                unit(7, [0, 0, 3, 3]),
            ],
            "BBfA BBfA AArB AArB AArB BBfA AAmA",
            &[(1, TOTAL, 30), (2, TOTAL, 60), (6, TOTAL, 40)],
        ),
        accepted(
            "P7 and P8 in bytes",
            "In the class total, with minor defects alone. P7: 1.5/1.5/3, counts 1,4,3: 1, 3 (fails), 3\n\
             (fails). P8: then 2,2,1,1,1 at lower plan 1/3/3 are all zero; the last three qualify, since 2 is\n\
             above 1.5.",
            plan_with(&[(A, TOTAL, [15, 15, 30]), (B, TOTAL, [10, 30, 30])]),
            &[
                minor(1, 1),
                minor(2, 4),
                minor(3, 3),
                minor(4, 2),
                minor(5, 2),
                minor(6, 1),
                minor(7, 1),
                minor(8, 1),
            ],
            "AAmA BBfA BBfA BBuB BBuB AArB AArB AArB",
            &[(2, TOTAL, 5), (3, TOTAL, 15)],
        ),
    ]
}

/// Step 3 begins with units 1 and 2, mostly at B. The last unit shows which plan is in force, by its
/// CuSums too: at L of a plan that goes on, from S of one that starts.
fn lower_plans() -> Vec<Case> {
    vec![
        accepted(
            "every lower plan",
            "Units 3 and 4 fail B and grade C, the new lower grade. Unit 5 starts from S of C: in total,\n\
             2+25-17-7 = 3.0, it would be over by 6.0 from the L of B, and from that of C by 8.0, as unit 6\n\
             is; in critical, 1+4-2-2 = 1.0, it would meet from the S of B; in major, 1+7-6 = 2.0, it would be\n\
             1.0 from zero. Both fail C: unit 7 has no plan and is not over.",
            plan(),
            &[
                fails(1),
                fails(2),
                fails_to_c(3),
                fails_to_c(4),
                unit(5, [4, 0, 7, 14]),
                minor(6, 25),
                minor(7, 25),
            ],
            "BBfA BBfA CCuB CCuB SSuC SSuC SSuS",
            &[
                (1, TOTAL, 30),
                (2, TOTAL, 60),
                (3, TOTAL, 30),
                (4, TOTAL, 60),
                (5, CRITICAL, 10),
                (5, TOTAL, 30),
                (6, TOTAL, 80),
            ],
        ),
        accepted(
            "one failure behind the start of step three",
            "Unit 2 began step 3 and does not pair with unit 3: unit 4 is under B, at its L.",
            plan(),
            &[fails(1), fails(2), fails_to_c(3), stays_at_b(4)],
            "BBfA BBfA CCuB BBuB",
            &[(1, TOTAL, 30), (2, TOTAL, 60), (3, TOTAL, 30)],
        ),
        accepted(
            "three failures in step three",
            "Behind unit 4 the plan of C starts. Unit 4 brought that about and does not pair with unit 5, which\n\
             fails C: unit 6 is under C, at its L.",
            plan(),
            &[fails(1), fails(2), fails_to_c(3), fails_to_c(4), fails_c(5), stays_at_c(6)],
            "BBfA BBfA CCuB CCuB SSuC CCuC",
            &[(1, TOTAL, 30), (2, TOTAL, 60), (3, TOTAL, 30), (4, TOTAL, 60), (5, TOTAL, 10)],
        ),
        accepted(
            "the worse failure first in step three",
            "Unit 3 is above T+L of C, 24, and grades Substandard, unit 4 grades C: no plan, and not that of C.",
            plan(),
            &[fails(1), fails(2), minor(3, 25), fails_to_c(4), clean(5)],
            "BBfA BBfA SSuB CCuB SSuS",
            &[(1, TOTAL, 30), (2, TOTAL, 60), (3, TOTAL, 100), (4, TOTAL, 60)],
        ),
        accepted(
            "the worse failure second in step three",
            "Unit 3 grades C, unit 4 Substandard: no plan. Unit 3 fails in total alone, unit 4 in severe\n\
             alone, 0+9-3-3 = 3.0.",
            plan(),
            &[fails(1), fails(2), fails_to_c(3), unit(4, [0, 9, 0, 0]), clean(5)],
            "BBfA BBfA CCuB SSuB SSuS",
            &[(1, TOTAL, 30), (2, TOTAL, 60), (3, TOTAL, 30), (4, SEVERE, 30)],
        ),
        accepted(
            "a unit that meets between failures in step three",
            "Units 3 and 5 are not in a row: unit 6 is under B, at its L.",
            plan(),
            &[
                fails(1),
                fails(2),
                fails_to_c(3),
                stays_at_b(4),
                fails_to_c(5),
                stays_at_b(6),
            ],
            "BBfA BBfA CCuB BBuB CCuB BBuB",
            &[(1, TOTAL, 30), (2, TOTAL, 60), (3, TOTAL, 30), (5, TOTAL, 60)],
        ),
        accepted(
            "a break between failures in step three",
            "A break forgets the failure just before, in step 3 too: unit 5 is under B, at its L.",
            plan(),
            &[fails(1), fails(2), fails_to_c(3), BREAK, fails_to_c(4), stays_at_b(5)],
            "BBfA BBfA CCuB CCuB BBuB",
            &[(1, TOTAL, 30), (2, TOTAL, 60), (3, TOTAL, 30), (4, TOTAL, 30)],
        ),
        accepted(
            "a redesignation between failures in step three",
            "B is better than C, so that step 3 goes on at C with its CuSums: unit 4 is over from L. But the\n\
             failure just before is forgotten: unit 5 is under C, at its L, and not without a plan.",
            plan(),
            &[fails_to_c(1), fails(2), fails_c(3), to(B), fails_c(4), stays_at_c(5)],
            "CCfA BBfA SSuC SSuC CCuC",
            &[(1, TOTAL, 90), (2, TOTAL, 60), (3, TOTAL, 10), (4, TOTAL, 60)],
        ),
        accepted(
            "the end of step three between failures",
            "B is not better than B and ends step 3. Unit 3 is forgotten, and unit 4 a first failure of the\n\
             designated plan: unit 5 is under B, at its L, outside step 3.",
            plan(),
            &[fails(1), fails(2), fails_to_c(3), to(B), fails_to_c(4), stays_at_b(5)],
            "BBfA BBfA CCuB CCfB BBmB",
            &[(1, TOTAL, 30), (2, TOTAL, 60), (3, TOTAL, 30), (4, TOTAL, 30)],
        ),
        accepted(
            "run before another lower plan",
            "Units 3 and 4 qualify, the failures set that run to none: units 7 and 8 qualify and do not end\n\
             step 3, else unit 7 or 8 would be recovered.",
            plan(),
            &[
                fails(1),
                fails(2),
                clean(3),
                clean(4),
                fails_to_c(5),
                fails_to_c(6),
                clean(7),
                clean(8),
            ],
            "BBfA BBfA BBuB BBuB CCuB CCuB CCuC CCuC",
            &[(1, TOTAL, 30), (2, TOTAL, 60), (5, TOTAL, 10), (6, TOTAL, 60)],
        ),
        accepted(
            "recovery under another lower plan",
            "The new lower grade is C, the worse of the two defect grades: prerequisites do not count.\n\
             The designated grade stays A: units 5 to 7 recover to it, and unit 8 starts it at S.",
            plan(),
            &[
                fails(1),
                fails(2),
                unit_as(3, [0, 0, 0, 18], SUBSTANDARD, true),
                unit_as(4, [0, 0, 0, 18], SUBSTANDARD, true),
                clean(5),
                clean(6),
                clean(7),
                unit(8, [0, 1, 3, 3]),
            ],
            "BBfA BBfA SSuB SSuB AArC AArC AArC AAmA",
            &[(1, TOTAL, 30), (2, TOTAL, 60), (3, TOTAL, 30), (4, TOTAL, 60)],
        ),
        accepted(
            "redesignation after another lower plan",
            "B is better than C, the new lower grade, and keeps step 3, though not better than the old one:\n\
             unit 5, at the T of C in every class, stays at its S. As a unit of B it would fail.",
            plan(),
            &[
                fails(1),
                fails(2),
                fails_to_c(3),
                fails_to_c(4),
                to(B),
                unit(5, [2, 5, 6, 4]),
            ],
            "BBfA BBfA CCuB CCuB CCuC",
            &[(1, TOTAL, 30), (2, TOTAL, 60), (3, TOTAL, 30), (4, TOTAL, 60)],
        ),
    ]
}

fn overshoots() -> Vec<Case> {
    vec![
        accepted(
            "overshoot above two bytes",
            "As many defects as there may be. Over in total by 1+8,000-6-4 = 7,991.0, which is 01 38 26 in\n\
             tenths; in the others by 1,999.0, 1,997.0 and 1,995.0.",
            plan(),
            &[unit(1, [2_000, 2_000, 2_000, 2_000])],
            "SSfA",
            &[(1, CRITICAL, 19_990), (1, SEVERE, 19_970), (1, MAJOR, 19_950), (1, TOTAL, 79_910)],
        ),
        accepted(
            "overshoots around two bytes",
            "Total of unit 1 is the least overshoot that has three bytes, 1.1+6,563-6.5-4 = 6,553.6. That of\n\
             unit 2, from L, is the largest that has two, 4+6,560-6.5-4 = 6,553.5.",
            plan_with(&[(A, TOTAL, [11, 65, 40])]),
            &[unit(1, [2_000, 2_000, 2_000, 563]), unit(2, [2_000, 2_000, 2_000, 560])],
            "SSfA SSfA",
            &[
                (1, CRITICAL, 19_990),
                (1, SEVERE, 19_970),
                (1, MAJOR, 19_950),
                (1, TOTAL, 65_536),
                (2, CRITICAL, 19_995),
                (2, SEVERE, 19_985),
                (2, MAJOR, 19_970),
                (2, TOTAL, 65_535),
            ],
        ),
        accepted(
            "overshoots in every class",
            "Unit 1 fails in every class from S, unit 2 from L, each by its own T and L. Unit 3 fails B, from\n\
             the S of B: against the L of A it would be over by 1.5, 4.0, 2.0 and 9.0.",
            plan(),
            &[unit(1, [2, 5, 8, 2]), unit(2, [1, 4, 5, 6]), unit(3, [3, 8, 9, 3])],
            "BBfA BBfA CCuB",
            &[
                (1, CRITICAL, 10),
                (1, SEVERE, 20),
                (1, MAJOR, 30),
                (1, TOTAL, 80),
                (2, CRITICAL, 5),
                (2, SEVERE, 25),
                (2, MAJOR, 20),
                (2, TOTAL, 100),
                (3, CRITICAL, 10),
                (3, SEVERE, 30),
                (3, MAJOR, 20),
                (3, TOTAL, 80),
            ],
        ),
        accepted(
            "raw value at the limit",
            "The raw value of unit 1 is 0.9+4-0.9 = 4, which is L and meets; that of unit 2 is 4+1-0.9 = 4.1,\n\
             a tenth above it.",
            plan_with(&[(A, TOTAL, [9, 9, 40])]),
            &[minor(1, 4), minor(2, 1)],
            "AAmA BBfA",
            &[(2, TOTAL, 1)],
        ),
        accepted(
            "no overshoot without a plan",
            "Without a plan nothing is over, however many defects there are.",
            plan(),
            &[fails_to_s(1), fails_to_s(2), unit(3, [2_000, 2_000, 2_000, 2_000])],
            "SSfA SSfA SSuS",
            &[(1, CRITICAL, 40), (2, CRITICAL, 45)],
        ),
    ]
}

/// Each the first of two sheets that are alike but for the count of one unit.
fn fewer() -> Vec<Case> {
    vec![
        accepted(
            "one minor defect fewer",
            "`break_between_failures` with 2 minor defects in its last unit, and not 3.",
            plan(),
            &[fails(1), BREAK, fails(2), unit(3, [0, 0, 3, 2])],
            "BBfA BBfA AAmA",
            &[(1, TOTAL, 30), (2, TOTAL, 30)],
        ),
        accepted(
            "one severe defect fewer",
            "The peach sheet with 1 severe defect in its second unit, and not 2.",
            plan(),
            &[
                unit_as(1, [0, 1, 2, 4], A, false),
                unit_as(2, [0, 1, 4, 6], A, false),
                unit_as(3, [0, 1, 3, 3], A, false),
                unit_as(4, [0, 0, 1, 5], A, true),
                unit_as(5, [0, 1, 2, 2], A, true),
                unit_as(5, [0, 1, 1, 2], A, false),
                unit_as(7, [1, 0, 0, 0], B, false),
            ],
            "AAmA BBfA BBfA AArB ABrB BBuB BBmA",
            &[(2, TOTAL, 30), (3, TOTAL, 10)],
        ),
        accepted(
            "no defect in place of one",
            "`raw_value_at_limit` with no defect in its last unit, and not 1: it meets.",
            plan_with(&[(A, TOTAL, [9, 9, 40])]),
            &[minor(1, 4), minor(2, 0)],
            "AAmA AAmA",
            &[],
        ),
    ]
}

fn refusals() -> Vec<Case> {
    let mut plan_cut = plan();
    plan_cut.pop();
    let mut marked_other = designated(3);
    marked_other[1] = 0x4D;
    let mut designated_and_number = plan_with(&[(A, CRITICAL, [0, 5, 10_000])]);
    designated_and_number[2] = 3;
    let first = || part(&clean(1));
    vec![
        refused(1, "a plan cut short", "1: all bytes of a plan but one.", plan_cut, vec![]),
        refused(
            1,
            "grounds 1 and 2",
            "1 and 2: another first mark, and a designated grade above C.",
            marked_other,
            vec![],
        ),
        refused(
            2,
            "grounds 2 and 3",
            "2 and 3: a designated grade above C, and an L of 10,000.",
            designated_and_number,
            vec![],
        ),
        refused(
            3,
            "grounds 3 and 4",
            "3 and 4: an S above its L in the first class, and an L of 10,000 in the last. Rows go over the\n\
             whole plan, one after the other, and not class by class.",
            plan_with(&[(A, CRITICAL, [6, 5, 5]), (C, TOTAL, [20, 170, 10_000])]),
            vec![],
        ),
        refused(
            4,
            "grounds 4 and 5",
            "4 and 5: T smaller at B than at A in the first class, and an S above its L in the last.",
            plan_with(&[(B, CRITICAL, [0, 4, 16]), (C, TOTAL, [71, 170, 70])]),
            vec![],
        ),
        refused(
            5,
            "ground 5 by sum",
            "5: T+L smaller at B than at A, with T equal.",
            plan_with(&[(B, CRITICAL, [0, 5, 4])]),
            vec![],
        ),
        refused(
            5,
            "ground 5 by tolerance",
            "5: T smaller at C than at B, with T+L larger.",
            plan_with(&[(C, TOTAL, [20, 119, 70])]),
            vec![],
        ),
        refused(
            6,
            "one byte left",
            "6: one byte left, though it is the first of a mark; not 7.",
            plan(),
            vec![first(), raw(&[0x53], "one byte")],
        ),
        refused(
            6,
            "a second plan",
            "6: the plan stands first and only there.",
            plan(),
            vec![first(), raw(&[0x50, 0x4C], "the mark of a plan")],
        ),
        refused(
            7,
            "a mark alone",
            "7: a redesignation cut short behind its mark; not 6.",
            plan(),
            vec![first(), cut(&to(B), 2)],
        ),
        refused(
            7,
            "grounds 7 and 8",
            "7 and 8: a unit cut short by its last byte, with a count of 2,001.",
            plan(),
            vec![first(), cut_by_one(&unit(2, [2_001, 0, 0, 0]))],
        ),
        refused(
            8,
            "grounds 8 and 9",
            "8 and 9: a count of 2,001 and a prerequisite of 4.",
            plan(),
            vec![first(), part(&unit_as(2, [0, 0, 0, 2_001], 4, true))],
        ),
        refused(
            9,
            "ground 9 before 8",
            "9, then 8: each record is checked wholly before the next.",
            plan(),
            vec![part(&unit_as(1, [0, 0, 1, 2], 4, true)), part(&unit(2, [2_001, 0, 0, 0]))],
        ),
        refused(
            9,
            "recoverable above 1",
            "9: recoverable is 0 or 1.",
            plan(),
            vec![first(), recoverable(&clean(2), 2)],
        ),
        refused(
            10,
            "a new grade above C",
            "10: Substandard cannot be designated.",
            plan(),
            vec![first(), part(&to(SUBSTANDARD))],
        ),
        refused(
            11,
            "ground 11 before 10",
            "11, then 10: the first record met is returned.",
            plan(),
            vec![part(&to(A)), part(&to(SUBSTANDARD))],
        ),
        refused(
            11,
            "ground 11 by the last redesignation",
            "11: to B is another grade than A of the plan, back to A another than B, and A again is not.",
            plan(),
            vec![part(&to(B)), first(), part(&to(A)), part(&to(A))],
        ),
        refused(
            11,
            "ground 11 in step three",
            "11: the grade designated is A, though B is in force. And 13 in a buffer without room: a refusal\n\
             of the sheet comes first.",
            plan(),
            vec![part(&fails(1)), part(&fails(2)), part(&to(A))],
        ),
        Case {
            name: "a buffer without room",
            shows: "13: at the sheet's length, by the units and not by the records.",
            opening: plan(),
            parts: vec![first(), part(&BREAK), part(&fails(2))],
            full: false,
            expected: Expected::WithoutRoom(13, None),
        },
    ]
}

fn full() -> Vec<Case> {
    vec![
        refused_full(
            12,
            "ground 12",
            "12: one unit too many. And 13 in a buffer without room.",
            part(&clean(2)),
        ),
        refused_full(
            12,
            "grounds 12 and 8",
            "12 and 8: the unit too many has a count of 2,001. 12 stands before 8.",
            part(&unit(2, [2_001, 0, 0, 0])),
        ),
        refused_full(
            7,
            "grounds 7 and 12",
            "7 and 12: the unit too many is cut short by its last byte.",
            cut_by_one(&clean(2)),
        ),
    ]
}

// ---- what is printed

/// The sheets whose text is held to what the grader prints, by their names.
const PRINTED: [&str; 4] =
    ["recovery without a plan", "cusums of two bytes", "grounds 8 and 9", "ground 12"];

/// A sheet too long to be proved by computing; its result records and their lines are not.
fn twelve_units() -> Case {
    let in_every_grade =
        |class, numbers| [(A, class, numbers), (B, class, numbers), (C, class, numbers)];
    let mut cells = Vec::new();
    cells.extend(in_every_grade(CRITICAL, [0, 0, 9_999]));
    cells.extend(in_every_grade(SEVERE, [0, 5, 9_999]));
    cells.extend([(A, MAJOR, [0, 10, 20]), (B, MAJOR, [0, 50, 50]), (C, MAJOR, [0, 60, 60])]);
    cells.extend(in_every_grade(TOTAL, [0, 9_999, 9_999]));
    accepted(
        "twelve units",
        "The result records of twelve units: unit numbers, codes and CuSums of one digit and of many,\n\
         each grade in each place of a grade, each standing.",
        plan_with(&cells),
        &[
            unit(65_535, [100, 11, 0, 0]),
            unit_as(0, [0, 0, 0, 0], B, true),
            unit_as(9, [0, 90, 0, 0], C, true),
            unit_as(10, [0, 0, 1, 0], SUBSTANDARD, true),
            unit(100, [2_000, 0, 0, 0]),
            unit(256, [0, 2_000, 2, 0]),
            unit(1_000, [1, 0, 0, 0]),
            unit(9_999, [0, 0, 0, 0]),
            unit_as(10_000, [0, 0, 1, 0], A, false),
            unit_as(12_345, [0, 0, 0, 0], C, true),
            to(C),
            unit(40_960, [0, 1, 0, 0]),
            to(B),
            unit(65_535, [0, 0, 10, 0]),
        ],
        "ABmA BBmA CCmA SSmA SSfA SSfA SSuS AArS SSuS CCrS CCmC BBmB",
        &[(5, CRITICAL, 11_001), (5, TOTAL, 2), (6, SEVERE, 10_981), (6, TOTAL, 10_021)],
    )
}

// ---- the file

const HEAD: &str = "\
-- Further sheets in bytes beside the worked cases, as one group: the record at the end. Each is held to the answer and the result bytes
-- that the independent grader gives for it (tests/grader, written from the papers alone), so that a rule which is wrong on one of them
-- alike in a definition and in the code that meets it is refused here. This file is printed by tests/cases/src/bin/computed_sheets.rs.
use Rattle.std.specs.Prelude.{ℕ, zero, suc, ◌≡◌, List, [], ◌∷◌, ◌++◌, take, set}
use Rattle.results.specs.Record.{result_size}
use Rattle.outcome.specs.Held.{GradedBy, RefusedBy, WithoutRoomBy}
use Rattle.tally.specs.Outcome.{outcome}
use Rattle.text.specs.Ascii.{ascii}
use Rattle.lines.specs.Lines.{lines_of, printed}
use Rattle.computed.specs.WorkedCases.{peach_plan}
";

/// Behind the abbreviations.
const LARGEST: &str = "
-- the plan with the largest S and L in every class, designated A: 50 4C, 0; then for A, B, C a line for each class, with its S/T/L
";

/// Behind that plan.
const REPEATED: &str = "
-- a record so many times, and what stands behind them
unfoldable pub repeated : ℕ → List ℕ → List ℕ → List ℕ
repeated zero bytes behind = behind
repeated (suc times) bytes behind = bytes ++ repeated times bytes behind

-- In a sheet behind each record its content: of a unit code, counts of critical, severe, major, minor, prerequisite, recoverable. In
-- results behind each record the line that is printed for it.
";

const FOOT: &str = "
-- all of them; what is printed is part of `PrintedText` in `Printed`
pub record FurtherSheets : Type 0 where
";

/// The overshoots in result bytes that are not zero, by unit and class: "after the CuSums come four
/// overshoots in tenths, four bytes each, high byte first" (paper 02, A.1).
fn overshoots_in(results: &[u8]) -> Vec<Overshoot> {
    let of_record = |(unit, record): (usize, &'_ [u8])| {
        let numbers =
            record[OVERSHOOTS..].chunks(4).map(|four| u32::from_be_bytes(four.try_into().unwrap()));
        numbers.enumerate().map(|(class, tenths)| (unit + 1, class, tenths)).collect::<Vec<_>>()
    };
    let all = results.chunks(RESULT_SIZE).enumerate().flat_map(of_record);
    all.filter(|(_, _, tenths)| *tenths > 0).collect()
}

/// The plan with the largest S and L, or the peach plan with the bytes that differ from it.
fn plan_text(bytes: &[u8]) -> String {
    if bytes == largest() {
        return "largest_plan".to_string();
    }
    let peach = plan();
    let kept = if bytes.len() == peach.len() {
        "peach_plan".to_string()
    } else {
        format!("take {} peach_plan", bytes.len())
    };
    let others = bytes.iter().zip(&peach).enumerate().filter(|(_, (byte, old))| byte != old);
    let set = |text: String, (at, (byte, _)): (usize, (&u8, &u8))| {
        let text = if text.contains(' ') { format!("({text})") } else { text };
        let byte = if at < 2 { format!("0x{byte:02X}") } else { byte.to_string() };
        format!("set {text} {at} {byte}")
    };
    others.fold(kept, set)
}

/// Says what differs in the plan from the peach plan, unless it is written out.
fn plan_comment(bytes: &[u8]) -> String {
    let peach = plan();
    let mut said = Vec::new();
    if bytes.len() == peach.len() && bytes != peach && bytes != largest() {
        if bytes[..2] != peach[..2] {
            said.push(format!("mark {:02X} {:02X}", bytes[0], bytes[1]));
        }
        if bytes[2] != peach[2] {
            let letter = GRADES.get(usize::from(bytes[2])).expect("a grade");
            said.push(format!("designated {letter}"));
        }
        let classes = (peach.len() - 3) / 18;
        for (cell, (new, old)) in bytes[3..].chunks(6).zip(peach[3..].chunks(6)).enumerate() {
            if new != old {
                let number = |at: usize| u16::from_be_bytes([new[at], new[at + 1]]);
                let decimal = |at: usize| match (number(at) / 10, number(at) % 10) {
                    (whole, 0) => whole.to_string(),
                    (whole, tenths) => format!("{whole}.{tenths}"),
                };
                let numbers = [0, 2, 4].map(decimal).join("/");
                let (grade, class) = (GRADES[cell / classes], CLASSES[cell % classes]);
                said.push(format!("{class} at {grade} {numbers}"));
            }
        }
    }
    if said.is_empty() {
        return String::new();
    }
    format!("-- The peach plan, but {}.\n", said.join(", "))
}

/// The lines that are printed for an accepted sheet.
fn printed_lines(case: &Case) -> String {
    let name = case.definition();
    let printed = grader::print(&case.bytes());
    let line = |line: &str| format!("ascii \"{line}\\n\"");
    let texts = printed.lines().map(line).collect::<Vec<_>>().join("\n    ++ ");
    format!("unfoldable pub {name}_lines : List ℕ\n{name}_lines =\n    {texts}\n")
}

/// What is printed for some of the sheets, and for the records of twelve units.
fn printed(groups: &[Group]) -> String {
    let mut text = "\n-- ---- what is printed\n".to_string();
    let mut record = "\npub record PrintedSheets : Type 0 where\n".to_string();
    let cases = || groups.iter().flat_map(|group| &group.cases);
    for sheet in PRINTED {
        let case = cases().find(|case| case.name == sheet).expect("a sheet of that name");
        let (field, name) = (case.field(), case.definition());
        record += &format!("  pub {field} : printed {name} ≡ ");
        record += &match case.expected {
            Expected::Accepted(..) => {
                text += &format!("\n{}", printed_lines(case));
                format!("{name}_lines\n")
            }
            _ => format!("ascii {:?}\n", grader::print(&case.bytes())),
        };
    }
    let case = twelve_units();
    let (field, name, graded) = (field(case.name), case.definition(), graded(&case));
    text += &format!("\n{}{}", shows(case.shows), results(&case, &graded));
    text += &format!("\n{}", printed_lines(&case));
    record += &format!(
        "  pub {field} : lines_of {name}_results {} ≡ {name}_lines\n",
        graded.answer.units
    );
    text + &record
}

fn file(groups: &[Group]) -> String {
    let (text, fields) = antt::sheets(groups);
    let largest = plan_lines("largest_plan", &largest());
    let words = abbreviations("outcome");
    [HEAD, &words, LARGEST, &largest, REPEATED, &text, &printed(groups), FOOT, &fields].concat()
}

fn main() {
    print!("{}", file(&groups()));
}
