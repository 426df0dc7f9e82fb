//! Prints `crates/regrade_demands/specs/RegradeSheets.antt`: recorded sheets and second plans (A.5 of
//! paper 02) in bytes, with the answers and the result bytes that the independent grader gives for the
//! regradings, to be proved of the definitions by computation. What stands with each by hand, from the
//! papers, holds the grader to what the regrading is to show: letters, CuSums and overshoots for an
//! accepted one, else number and offset; and of some sheets the letters of their own grading.

#[path = "../antt.rs"]
mod antt;
#[path = "../plans.rs"]
mod plans;

use antt::{abbreviations, field, graded, part_lines, raw, Expected, Given, Part};
use grader::peach::peach;
use grader::sheet::{Record, Sheet, Unit};
use grader::{regrade, Answer, RESULT_SIZE};
use plans::{plan_bytes, plan_lines, Tenths, GRADES};

/// A sheet that is proved by computing has at most so many records.
const MOST_RECORDS: usize = 9;
const CRITICAL: usize = 0;
const SEVERE: usize = 1;
const MAJOR: usize = 2;
const TOTAL: usize = 3;
/// Where the overshoots begin in a result record: after the CuSums.
const OVERSHOOTS: usize = 16;
const A: u8 = 0;
const B: u8 = 1;
const C: u8 = 2;
const SUBSTANDARD: u8 = 3;

/// A unit, counted from 1, a class, and how far over it is, in tenths.
type Overshoot = (usize, usize, u32);

/// A recorded sheet, which for itself is graded under its own plan.
struct Recorded;
type Case = antt::Case<Recorded>;
type Group = antt::GroupOf<Regrading>;

impl antt::Kind for Recorded {
    /// For each unit of the regrading portion grade, code grade, standing and plan grade, and the four
    /// CuSums, as printed; and the overshoots that are not zero.
    type ByHand = (&'static [&'static str], &'static [Overshoot]);
    const RESULT_SIZE: usize = RESULT_SIZE;

    fn grade(sheet: &[u8], results: &mut [u8]) -> Answer {
        grader::grade_traced(sheet, results, true).0
    }

    fn print(sheet: &[u8]) -> String {
        grader::print(sheet)
    }

    fn hold(name: &str, &(lines, overshoots): &Self::ByHand, results: &[u8], printed: &str) {
        let found = printed.lines().map(|line| [letters(line), cusums(line)].join(" "));
        assert_eq!(found.collect::<Vec<_>>(), lines, "{name}");
        let mut tenths = vec![[0; 4]; lines.len()];
        for &(unit, class, over) in overshoots {
            tenths[unit - 1][class] = over;
        }
        // "after the CuSums come four overshoots in tenths, four bytes each, high byte first" (A.1).
        for (record, tenths) in results.chunks(RESULT_SIZE).zip(tenths) {
            assert_eq!(record[OVERSHOOTS..], tenths.map(u32::to_be_bytes).concat(), "{name}");
        }
    }

    fn list(case: &Case) -> String {
        assert!(case.parts.len() <= MOST_RECORDS, "{}", case.name);
        let plan = Plan::of(&case.opening).text;
        if case.parts.is_empty() {
            return format!(" {plan}");
        }
        format!("\n    {plan}\n    ++ ({})", part_lines(&case.parts))
    }
}

/// Portion grade, code grade, standing and plan grade of a printed line.
fn letters(line: &str) -> String {
    line.split(' ').skip(2).take(4).collect()
}

fn cusums(line: &str) -> String {
    line.split(' ').skip(6).collect::<Vec<_>>().join(" ")
}

/// A recorded sheet with a second plan. What is known of the sheet by hand is known of the regrading.
struct Regrading {
    sheet: Case,
    second: Plan,
}

impl Given for Regrading {
    type Kind = Recorded;

    fn case(&self) -> &Case {
        &self.sheet
    }

    fn grade(&self, results: &mut [u8]) -> Answer {
        regrade::regrade_traced(&self.sheet.bytes(), &self.second.bytes, results, true).0
    }

    fn print(&self) -> String {
        regrade::print_checked(&self.sheet.bytes(), &self.second.bytes, true)
    }

    fn with(&self) -> String {
        format!("{} ", in_brackets(&self.second.text))
    }
}

impl Regrading {
    /// Holds the sheet's own grading to these letters.
    fn own(self, by_hand: &str) -> Regrading {
        let found = self.sheet.print().lines().map(letters).collect::<Vec<_>>().join(" ");
        assert_eq!(found, by_hand, "{}: its own grading", self.sheet.name);
        self
    }
}

// ---- plans

/// Bytes of a plan or of what stands for one, and how they are written.
struct Plan {
    bytes: Vec<u8>,
    text: String,
}

/// The buyer's. Each number is another than the one of the peach plan in its place, and than those of
/// the class at other grades. T+L of total is 9.5, 15.5 and 23.
const BUYER: Tenths = [
    [[2, 4, 7], [6, 12, 22], [5, 20, 25], [15, 50, 45]],
    [[3, 8, 9], [8, 25, 25], [12, 34, 27], [25, 95, 60]],
    [[4, 15, 16], [11, 40, 35], [14, 55, 45], [30, 140, 90]],
];

/// Appendix 7 of the manual, "Example: (Designated grade B showing all classes of defects)".
const MANUAL: Tenths = [
    [[3, 1, 9], [0, 5, 5], [0, 10, 10], [10, 20, 30]],
    [[0, 5, 5], [0, 10, 10], [15, 15, 30], [10, 30, 30]],
    [[0, 10, 10], [5, 15, 20], [0, 30, 30], [10, 50, 30]],
];

/// The plan under which the sheets are recorded: the peach plan, designated A.
fn recorded() -> Vec<u8> {
    peach(Vec::new()).bytes()
}

fn buyer(designated: u8) -> Plan {
    let text = format!("buyer_{}", GRADES[usize::from(designated)].to_ascii_lowercase());
    Plan { bytes: plan_bytes(designated, BUYER), text }
}

fn manual() -> Plan {
    Plan { bytes: plan_bytes(B, MANUAL), text: "manual_plan".to_string() }
}

/// That of the computed sheets.
fn largest() -> Plan {
    Plan { bytes: plans::largest(), text: "largest_plan".to_string() }
}

impl Plan {
    /// The plan of a sheet: that under which sheets are recorded, with the bytes that differ from it.
    fn of(bytes: &[u8]) -> Plan {
        let mut plan = Plan { bytes: recorded(), text: "recorded_plan".to_string() };
        for (at, &byte) in bytes.iter().enumerate() {
            if byte != plan.bytes[at] {
                plan = plan.set(at, byte);
            }
        }
        assert_eq!(plan.bytes, bytes);
        plan
    }

    fn set(mut self, at: usize, byte: u8) -> Plan {
        self.bytes[at] = byte;
        let byte = if at < 2 { format!("0x{byte:02X}") } else { byte.to_string() };
        let text = format!("set {} {at} {byte}", in_brackets(&self.text));
        Plan { bytes: self.bytes, text }
    }

    fn cut(mut self, length: usize) -> Plan {
        self.bytes.truncate(length);
        Plan { bytes: self.bytes, text: format!("take {length} {}", in_brackets(&self.text)) }
    }

    fn followed_by(mut self, more: &[u8]) -> Plan {
        self.bytes.extend(more);
        let text = format!("{} ++ ({} ∷ [])", self.text, antt::elements(more, ""));
        Plan { bytes: self.bytes, text }
    }
}

fn in_brackets(text: &str) -> String {
    if text.contains(' ') {
        format!("({text})")
    } else {
        text.to_string()
    }
}

/// The buyer's plan designated otherwise than A.
fn buyer_lines(designated: u8) -> String {
    let Plan { bytes, text: name } = buyer(designated);
    let Plan { bytes: same, text } = buyer(A).set(2, designated);
    assert_eq!(bytes, same);
    format!("unfoldable pub {name} : List ℕ\n{name} = {text}\n")
}

// ---- records

/// `counts` are critical, severe, major, minor.
fn unit_as(code: u16, counts: [i64; 4], prerequisite: u8, recoverable: bool) -> Record {
    Record::Unit(Unit { code, counts, prerequisite, recoverable })
}

/// A recoverable unit with prerequisite A.
fn unit(code: u16, counts: [i64; 4]) -> Record {
    unit_as(code, counts, A, true)
}

/// With minor defects alone, which count in total alone.
fn minor(code: u16, count: i64) -> Record {
    unit(code, [0, 0, 0, count])
}

/// Fails B of the buyer and grades C, in total alone: by 2.5+14-9.5-6 = 1.0 from S, by 4.5 from L. Under
/// the plan of the sheet it fails A and grades B.
fn fails(code: u16) -> Record {
    minor(code, 14)
}

fn to(grade: u8) -> Record {
    Record::Redesignation(grade)
}

const BREAK: Record = Record::Break;

fn part(record: &Record) -> Part {
    let comment = match *record {
        Record::Unit(Unit { code, counts, prerequisite, recoverable }) => {
            let counts = counts.map(|count| count.to_string()).join(",");
            let prerequisite = GRADES[usize::from(prerequisite)];
            format!("{code}: {counts};{prerequisite};{}", u8::from(recoverable))
        }
        Record::Redesignation(new) => format!("redesignation to {}", GRADES[usize::from(new)]),
        Record::Break => "break".to_string(),
    };
    Part { bytes: record.bytes(), comment }
}

// ---- cases

fn case(
    name: &'static str,
    shows: &'static str,
    opening: Vec<u8>,
    parts: Vec<Part>,
    second: Plan,
    expected: Expected<(&'static [&'static str], &'static [Overshoot])>,
) -> Regrading {
    Regrading { sheet: Case { name, shows, opening, parts, full: false, expected }, second }
}

/// A sheet recorded under the peach plan, designated A.
fn accepted(
    name: &'static str,
    shows: &'static str,
    records: &[Record],
    second: Plan,
    lines: &'static [&'static str],
    overshoots: &'static [Overshoot],
) -> Regrading {
    let parts = records.iter().map(part).collect();
    case(name, shows, recorded(), parts, second, Expected::Accepted((lines, overshoots)))
}

/// A sheet that is refused by itself; the second plan is cut short.
fn refused(
    number: u32,
    offset: usize,
    name: &'static str,
    shows: &'static str,
    plan: Vec<u8>,
    parts: Vec<Part>,
) -> Regrading {
    let second = buyer(B).cut(74);
    case(name, shows, plan, parts, second, Expected::Number(number, Some(offset)))
}

// ---- the regradings

fn groups() -> Vec<Group> {
    vec![
        Group {
            name: "FailureSheets",
            field: "failures",
            title: "failed units stay in their order, and two in a row mean nothing",
            cases: failures(),
        },
        Group {
            name: "RedesignationSheets",
            field: "redesignations",
            title: "redesignations are passed over",
            cases: redesignations(),
        },
        Group { name: "BreakSheets", field: "breaks", title: "breaks restart", cases: breaks() },
        Group {
            name: "SecondPlanSheets",
            field: "second_plans",
            title: "the second plan's grade, numbers and lower grades",
            cases: second_plans(),
        },
        Group {
            name: "UnitSheets",
            field: "units",
            title: "CuSums and overshoots, prerequisites and codes",
            cases: units(),
        },
        Group {
            name: "FewerSheets",
            field: "fewer_defects",
            title: "a pair, alike but for defects, with two failures in a row and a redesignation",
            cases: fewer_defects(),
        },
        Group {
            name: "RefusedSheets",
            field: "refusals",
            title: "sheets that are refused, and a buffer without room",
            cases: refusals(),
        },
    ]
}

/// What a unit comes to whose CuSums are zero in all classes but total.
macro_rules! total {
    ($letters:literal, $cusum:literal) => {
        concat!($letters, " 0.0 0.0 0.0 ", $cusum)
    };
}

fn failures() -> Vec<Regrading> {
    let in_step_three = |recoverable| {
        let unit = |code, count| unit_as(code, [0, 0, 0, count], A, recoverable);
        [14, 14, 6, 6, 6, 6, 10]
            .iter()
            .zip(1..)
            .map(|(&count, code)| unit(code, count))
            .collect::<Vec<_>>()
    };
    const IN_STEP_THREE: &[&str] = &[
        total!("CCfB", "6.0"),
        total!("CCfB", "6.0"),
        total!("BBmB", "2.5"),
        total!("BBmB", "0.0"),
        total!("BBmB", "0.0"),
        total!("BBmB", "0.0"),
        total!("BBmB", "0.5"),
    ];
    vec![
        accepted(
            "the manual example",
            "Appendix 7 of source document 000, units 1 to 7, designated B. The plan of the sheet itself is\n\
             not told. Unit 4 fails in total, 0+7-3 being above 3, and is at L in critical.",
            &[
                unit(1, [0, 1, 1, 1]),
                unit(1, [0, 0, 0, 1]),
                unit(1, [0, 0, 1, 1]),
                unit(2, [1, 1, 1, 4]),
                unit(2, [0, 1, 1, 1]),
                unit(3, [0, 0, 1, 1]),
                unit(3, [0, 0, 1, 1]),
            ],
            manual(),
            &[
                "BBmB 0.0 0.0 1.0 1.0",
                "BBmB 0.0 0.0 0.0 0.0",
                "BBmB 0.0 0.0 0.0 0.0",
                "CCfB 0.5 0.0 0.0 3.0",
                "BCmB 0.0 0.0 0.0 3.0",
                "BBmB 0.0 0.0 0.0 2.0",
                "BBmB 0.0 0.0 0.0 1.0",
            ],
            &[(4, TOTAL, 10)],
        )
        .own("AAmA AAmA AAmA AAmA AAmA AAmA AAmA"),
        accepted(
            "a failure of the recorded plan",
            "Unit 2 failed when it was recorded. It keeps its place and counts: it comes to 0+15-9.5, and\n\
             unit 3 from there to 2; without unit 2 it would come to 0, from the L of the sheet's plan to\n\
             0.5.",
            &[minor(1, 4), minor(2, 15), minor(3, 6)],
            buyer(B),
            &[total!("BBmB", "0.0"), total!("BBmB", "5.5"), total!("BBmB", "2.0")],
            &[],
        )
        .own("AAmA BBfA AAmA"),
        accepted(
            "a failure of the second plan",
            "Unit 2 fails, 3+18-9.5 being above 6. It has its record, and unit 3 goes on from L: without\n\
             unit 2 it would come to 2.5, from the raw value it would fail.",
            &[minor(1, 10), minor(2, 18), minor(3, 9)],
            buyer(B),
            &[total!("BBmB", "3.0"), total!("CCfB", "6.0"), total!("BBmB", "5.5")],
            &[(2, TOTAL, 55)],
        ),
        accepted(
            "two failures",
            "No step 3: unit 3 is under B and not under C, meets and goes on from L. From the S of B it\n\
             would come to 2, from that of C to 0.",
            &[fails(1), fails(2), minor(3, 9)],
            buyer(B),
            &[total!("CCfB", "6.0"), total!("CCfB", "6.0"), total!("BBmB", "5.5")],
            &[(1, TOTAL, 10), (2, TOTAL, 45)],
        ),
        accepted(
            "three failures",
            "The third is Substandard, and the fourth unit is still under B, from L.",
            &[fails(1), minor(2, 18), minor(3, 24), minor(4, 9)],
            buyer(B),
            &[
                total!("CCfB", "6.0"),
                total!("CCfB", "6.0"),
                total!("SSfB", "6.0"),
                total!("BBmB", "5.5"),
            ],
            &[(1, TOTAL, 10), (2, TOTAL, 85), (3, TOTAL, 145)],
        ),
        accepted(
            "a failure behind a worse one",
            "Unit 1 is Substandard, and unit 2 grades C by its own counts.",
            &[minor(1, 24), fails(2), minor(3, 9)],
            buyer(B),
            &[total!("SSfB", "6.0"), total!("CCfB", "6.0"), total!("BBmB", "5.5")],
            &[(1, TOTAL, 110), (2, TOTAL, 45)],
        ),
        accepted(
            "two failures in different classes",
            "Severe, 0.8+5-2.5 being above 2.5, then critical, 0+2-0.8 being above 0.9.",
            &[unit(1, [0, 5, 0, 0]), unit(2, [2, 0, 0, 0]), unit(3, [0, 0, 0, 0])],
            buyer(B),
            &["CCfB 0.0 2.5 0.0 0.0", "CCfB 0.9 0.0 0.0 0.0", "BBmB 0.1 0.0 0.0 0.0"],
            &[(1, SEVERE, 8), (2, CRITICAL, 3)],
        ),
        accepted(
            "step three of the recorded plan",
            "When it was recorded, units 1 and 2 began step 3, units 3 to 5 ended it and were recovered.\n\
             Here all are graded one after the other, and nothing is recovered, though under the second plan\n\
             units 1 and 2 fail as well, units 3 to 6 are within its T, and units 4 to 6 are at 0.",
            &in_step_three(true),
            buyer(B),
            IN_STEP_THREE,
            &[(1, TOTAL, 10), (2, TOTAL, 45)],
        )
        .own("BBfA BBfA AArB AArB AArB AAmA BBfA"),
        accepted(
            "no unit recoverable",
            "The same units, none of them recoverable: the same result records.",
            &in_step_three(false),
            buyer(B),
            IN_STEP_THREE,
            &[(1, TOTAL, 10), (2, TOTAL, 45)],
        )
        .own("BBfA BBfA BBuB BBuB BBuB AAmA BBfA"),
    ]
}

fn redesignations() -> Vec<Regrading> {
    vec![
        accepted(
            "a redesignation between units",
            "Unit 2 goes on from unit 1, 5+10-9.5: from S it would come to 3, and to 0 under C.",
            &[minor(1, 12), to(C), minor(2, 10)],
            buyer(B),
            &[total!("BBmB", "5.0"), total!("BBmB", "5.5")],
            &[],
        )
        .own("BBfA CCmC"),
        accepted(
            "a redesignation before the first unit",
            "The first unit is under B of the second plan, from its S.",
            &[to(C), minor(1, 12), minor(2, 10)],
            buyer(B),
            &[total!("BBmB", "5.0"), total!("BBmB", "5.5")],
            &[],
        )
        .own("CCmC CCmC"),
        accepted(
            "redesignations to every grade",
            "Two side by side, among them one to the second plan's own grade, and a third one; unit 3 comes\n\
             to L.",
            &[minor(1, 12), to(B), to(C), minor(2, 10), to(A), minor(3, 10)],
            buyer(B),
            &[total!("BBmB", "5.0"), total!("BBmB", "5.5"), total!("BBmB", "6.0")],
            &[],
        ),
        accepted(
            "a redesignation between failures",
            "Unit 2 fails from L, by 4.5; from S it would fail by 1. Unit 3 goes on from L.",
            &[fails(1), to(B), fails(2), minor(3, 9)],
            buyer(B),
            &[total!("CCfB", "6.0"), total!("CCfB", "6.0"), total!("BBmB", "5.5")],
            &[(1, TOTAL, 10), (2, TOTAL, 45)],
        ),
        accepted(
            "a redesignation beside a break",
            "The break restarts, before a redesignation and behind one: at 2.5, the S of B, and not at 3,\n\
             that of C.",
            &[minor(1, 12), to(C), BREAK, minor(2, 10), BREAK, to(B), minor(3, 10)],
            buyer(B),
            &[total!("BBmB", "5.0"), total!("BBmB", "3.0"), total!("BBmB", "3.0")],
            &[],
        ),
        accepted(
            "a redesignation to C under A",
            "The second plan designates A: 1.5+7-5, then 3.5+6-5, which is L, and then 1 above it. Under C\n\
             they would come to 0.",
            &[minor(1, 7), to(C), minor(2, 6), minor(3, 6)],
            buyer(A),
            &[total!("AAmA", "3.5"), total!("AAmA", "4.5"), total!("BBfA", "4.5")],
            &[(3, TOTAL, 10)],
        )
        .own("AAmA CCmC CCmC"),
    ]
}

fn breaks() -> Vec<Regrading> {
    vec![
        accepted(
            "a break between units",
            "Unit 2 comes from S to 5: from the CuSum of unit 1 it would fail, from zero come to 2.5. Unit 3\n\
             goes on from unit 2.",
            &[minor(1, 12), BREAK, minor(2, 12), minor(3, 9)],
            buyer(B),
            &[total!("BBmB", "5.0"), total!("BBmB", "5.0"), total!("BBmB", "4.5")],
            &[],
        ),
        accepted(
            "a break between failures",
            "Each fails from S, by 1; from L the second would fail by 4.5. Unit 3 goes on from L.",
            &[fails(1), BREAK, fails(2), minor(3, 9)],
            buyer(B),
            &[total!("CCfB", "6.0"), total!("CCfB", "6.0"), total!("BBmB", "5.5")],
            &[(1, TOTAL, 10), (2, TOTAL, 10)],
        ),
        accepted(
            "a break behind zero",
            "A break first, two side by side and one last. Unit 2 is at 0 and unit 3 comes from S to 3: from\n\
             0 it would come to 0.5.",
            &[BREAK, minor(1, 3), minor(2, 9), BREAK, BREAK, minor(3, 10), BREAK],
            buyer(B),
            &[total!("BBmB", "0.0"), total!("BBmB", "0.0"), total!("BBmB", "3.0")],
            &[],
        ),
        accepted(
            "breaks in every class",
            "Under C, 0.4/1.5/1.6, 1.1/4/3.5, 1.4/5.5/4.5, 3/14/9: the break sets each class to its own S.",
            &[unit(1, [2, 4, 6, 4]), BREAK, unit(2, [2, 4, 6, 4])],
            buyer(C),
            &["CCmC 0.9 1.1 1.9 5.0", "CCmC 0.9 1.1 1.9 5.0"],
            &[],
        ),
    ]
}

fn fewer_defects() -> Vec<Regrading> {
    vec![
        accepted(
            "two failures before a redesignation",
            "Unit 2 fails by 4.5, from L, and unit 3 goes on from L behind the redesignation. Units 2 and 4 have\n\
             one code.",
            &[fails(1), fails(2), to(C), minor(3, 9), BREAK, minor(2, 12)],
            buyer(B),
            &[total!("CCfB", "6.0"), total!("CCfB", "6.0"), total!("BBmB", "5.5"), total!("BCmB", "5.0")],
            &[(1, TOTAL, 10), (2, TOTAL, 45)],
        ),
        accepted(
            "five minor defects fewer",
            "The same but for unit 2, which meets at 5.5; so unit 3 comes to 5. Behind the break the CuSums are\n\
             alike, the code is better.",
            &[fails(1), minor(2, 9), to(C), minor(3, 9), BREAK, minor(2, 12)],
            buyer(B),
            &[total!("CCfB", "6.0"), total!("BBmB", "5.5"), total!("BBmB", "5.0"), total!("BBmB", "5.0")],
            &[(1, TOTAL, 10)],
        ),
    ]
}

fn second_plans() -> Vec<Regrading> {
    let designated_c = Sheet { designated: C, ..peach(Vec::new()) }.bytes();
    vec![
        accepted(
            "second plan of C",
            "The sheet designates A. Unit 2 comes to L, 1+22-14, and unit 3 fails: it is Substandard, though\n\
             C admits 21.",
            &[minor(1, 12), minor(2, 22), minor(3, 21)],
            buyer(C),
            &[total!("CCmC", "1.0"), total!("CCmC", "9.0"), total!("SSfC", "9.0")],
            &[(3, TOTAL, 70)],
        )
        .own("BBfA CCfA CCuC"),
        case(
            "second plan of A",
            "The sheet designates C. Unit 1 comes to L, 1.5+8-5, and unit 2 fails.",
            designated_c,
            vec![part(&minor(1, 8)), part(&minor(2, 6))],
            buyer(A),
            Expected::Accepted((
                &[total!("AAmA", "4.5"), total!("BBfA", "4.5")],
                &[(2, TOTAL, 10)],
            )),
        )
        .own("CCmC CCmC"),
        accepted(
            "every class under A",
            "0.2/0.4/0.7, 0.6/1.2/2.2, 0.5/2/2.5, 1.5/5/4.5. Unit 2 is within L in critical, 0+1-0.4.",
            &[unit(1, [0, 1, 2, 3]), unit(2, [1, 4, 5, 2]), unit(3, [1, 0, 0, 0])],
            buyer(A),
            &["AAmA 0.0 0.4 0.5 2.5", "BBfA 0.6 2.2 2.5 4.5", "BBfA 0.7 1.0 0.5 0.5"],
            &[(2, SEVERE, 10), (2, MAJOR, 10), (2, TOTAL, 50), (3, CRITICAL, 5)],
        ),
        accepted(
            "every class under B",
            "0.3/0.8/0.9, 0.8/2.5/2.5, 1.2/3.4/2.7, 2.5/9.5/6. Unit 2 fails in each.",
            &[unit(1, [1, 2, 3, 4]), unit(2, [2, 5, 6, 4]), unit(3, [0, 0, 0, 0])],
            buyer(B),
            &["BBmB 0.5 0.3 0.8 3.0", "CCfB 0.9 2.5 2.7 6.0", "BBmB 0.1 0.0 0.0 0.0"],
            &[(2, CRITICAL, 8), (2, SEVERE, 3), (2, MAJOR, 7), (2, TOTAL, 45)],
        ),
        accepted(
            "every class under C",
            "0.4/1.5/1.6, 1.1/4/3.5, 1.4/5.5/4.5, 3/14/9. Unit 2 fails in each.",
            &[unit(1, [2, 4, 6, 4]), unit(2, [3, 7, 9, 2]), unit(3, [0, 0, 0, 0])],
            buyer(C),
            &["CCmC 0.9 1.1 1.9 5.0", "SSfC 1.6 3.5 4.5 9.0", "CCmC 0.1 0.0 0.0 0.0"],
            &[(2, CRITICAL, 8), (2, SEVERE, 6), (2, MAJOR, 9), (2, TOTAL, 30)],
        ),
        accepted(
            "lower grades by total",
            "Under A: B admits 9 and 15 of 15.5, C 16 and 23 of 23, and 24 is Substandard. By the sheet's\n\
             own plan 16 would be B and 24 be C.",
            &[minor(1, 9), minor(2, 15), minor(3, 16), minor(4, 23), minor(5, 24)],
            buyer(A),
            &[
                total!("BBfA", "4.5"),
                total!("BBfA", "4.5"),
                total!("CCfA", "4.5"),
                total!("CCfA", "4.5"),
                total!("SSfA", "4.5"),
            ],
            &[(1, TOTAL, 10), (2, TOTAL, 100), (3, TOTAL, 110), (4, TOTAL, 180), (5, TOTAL, 190)],
        ),
        accepted(
            "lower grades by other classes",
            "Under A: 2 critical are above 1.7 of B, 6 severe above 5, 7 major above 6.1; 4, 8 and 11 above\n\
             3.1, 7.5 and 10 of C. By the sheet's own plan the first three would be B, the next two C.",
            &[
                unit(1, [2, 0, 0, 0]),
                unit(2, [0, 6, 0, 0]),
                unit(3, [0, 0, 7, 0]),
                unit(4, [4, 0, 0, 0]),
                unit(5, [0, 8, 0, 0]),
                unit(6, [0, 0, 11, 0]),
            ],
            buyer(A),
            &[
                "CCfA 0.7 0.0 0.0 0.0",
                "CCfA 0.3 2.2 0.0 1.0",
                "CCfA 0.0 1.0 2.5 3.0",
                "SSfA 0.7 0.0 0.5 2.0",
                "SSfA 0.3 2.2 0.0 4.5",
                "SSfA 0.0 1.0 2.5 4.5",
            ],
            &[
                (1, CRITICAL, 11),
                (2, SEVERE, 26),
                (3, MAJOR, 25),
                (4, CRITICAL, 29),
                (5, SEVERE, 46),
                (5, TOTAL, 5),
                (6, MAJOR, 65),
                (6, TOTAL, 60),
            ],
        ),
        accepted(
            "counts that A admits",
            "Under B: 0.3+1-0.8, then 0.7, then L, and then 0.2 above it. The fourth unit is C, though A and\n\
             B admit 1.",
            &[unit(1, [1, 0, 0, 0]), unit(2, [1, 0, 0, 0]), unit(3, [1, 0, 0, 0]), unit(4, [1, 0, 0, 0])],
            buyer(B),
            &[
                "BBmB 0.5 0.0 0.0 0.0",
                "BBmB 0.7 0.0 0.0 0.0",
                "BBmB 0.9 0.0 0.0 0.0",
                "CCfB 0.9 0.0 0.0 0.0",
            ],
            &[(4, CRITICAL, 2)],
        ),
    ]
}

fn units() -> Vec<Regrading> {
    vec![
        accepted(
            "raw value at the limit",
            "2.5+13-9.5 is L and meets, from which unit 2 goes on.",
            &[minor(1, 13), minor(2, 9)],
            buyer(B),
            &[total!("BBmB", "6.0"), total!("BBmB", "5.5")],
            &[],
        ),
        accepted(
            "a tenth above the limit",
            "1.2+5-3.4 is a tenth above the L of major.",
            &[unit(1, [0, 0, 5, 0])],
            buyer(B),
            &["CCfB 0.0 0.0 2.7 0.0"],
            &[(1, MAJOR, 1)],
        ),
        accepted(
            "below zero",
            "Unit 1 comes to 2.5+3-9.5, below zero, and unit 2 starts from 0: with -4 it would stay at 0.",
            &[minor(1, 3), minor(2, 12)],
            buyer(B),
            &[total!("BBmB", "0.0"), total!("BBmB", "2.5")],
            &[],
        ),
        accepted(
            "overshoot above two bytes",
            "As many defects as there may be. Over in total by 2.5+8,000-9.5-6 = 7,987.0, which is 01 37 FE\n\
             in tenths.",
            &[unit(1, [2_000, 2_000, 2_000, 2_000])],
            buyer(B),
            &["SSfB 0.9 2.5 2.7 6.0"],
            &[(1, CRITICAL, 19_986), (1, SEVERE, 19_958), (1, MAJOR, 19_951), (1, TOTAL, 79_870)],
        ),
        accepted(
            "the largest cusums regraded",
            "999.9/999/999.9 in every class. Unit 1 comes to L in critical and total, 999.9+999-999, and\n\
             meets. Unit 2, with as many defects as there may be, fails in each: the CuSums are L, and no\n\
             larger.",
            &[
                unit(1, [999, 0, 0, 0]),
                unit(2, [2_000, 2_000, 2_000, 2_000]),
                unit(3, [0, 0, 0, 999]),
            ],
            largest(),
            &[
                "AAmA 999.9 0.9 0.9 999.9",
                "SSfA 999.9 999.9 999.9 999.9",
                "AAmA 0.9 0.9 0.9 999.9",
            ],
            &[(2, CRITICAL, 10_010), (2, SEVERE, 20), (2, MAJOR, 20), (2, TOTAL, 70_010)],
        ),
        accepted(
            "prerequisites",
            "C is worse than the B of unit 1, A is not; Substandard is worse than the C with which unit 3\n\
             fails, B is not. Standings go by defects alone.",
            &[
                unit_as(1, [0, 0, 0, 10], C, true),
                unit_as(2, [0, 0, 0, 9], A, false),
                unit_as(3, [0, 0, 0, 18], SUBSTANDARD, true),
                unit_as(4, [0, 0, 0, 18], B, false),
            ],
            buyer(B),
            &[
                total!("CCmB", "3.0"),
                total!("BBmB", "2.5"),
                total!("SSfB", "6.0"),
                total!("CCfB", "6.0"),
            ],
            &[(3, TOTAL, 50), (4, TOTAL, 85)],
        ),
        accepted(
            "prerequisite Substandard",
            "Units that meet, with standing 0: they restart nothing.",
            &[unit_as(1, [0, 0, 0, 12], SUBSTANDARD, true), unit_as(2, [0, 0, 0, 10], SUBSTANDARD, true), minor(3, 9)],
            buyer(B),
            &[total!("SSmB", "5.0"), total!("SSmB", "5.5"), total!("BBmB", "5.0")],
            &[],
        ),
        accepted(
            "a code met again",
            "Unit 2 fails, and so the code of unit 1 is C, too; unit 3 has another code.",
            &[minor(1, 12), minor(1, 12), minor(2, 9)],
            buyer(B),
            &[total!("BCmB", "5.0"), total!("CCfB", "6.0"), total!("BBmB", "5.5")],
            &[(2, TOTAL, 15)],
        ),
        accepted(
            "a code met again later",
            "Unit 3 is worse than unit 1 of its code, and unit 4 is better than unit 2 of its.",
            &[
                minor(7, 9),
                unit_as(8, [0, 0, 0, 9], C, true),
                unit_as(7, [0, 0, 0, 9], SUBSTANDARD, true),
                minor(8, 9),
            ],
            buyer(B),
            &[
                total!("BSmB", "2.0"),
                total!("CCmB", "1.5"),
                total!("SSmB", "1.0"),
                total!("BCmB", "0.5"),
            ],
            &[],
        ),
        accepted(
            "codes across a break and a redesignation",
            "Code 1 is worse behind the break, code 2 behind the break and a redesignation; another\n\
             redesignation is the last record.",
            &[minor(1, 9), minor(2, 9), BREAK, fails(1), to(C), fails(2), to(A)],
            buyer(B),
            &[total!("BCmB", "2.0"), total!("BCmB", "1.5"), total!("CCfB", "6.0"), total!("CCfB", "6.0")],
            &[(3, TOTAL, 10), (4, TOTAL, 45)],
        ),
        accepted(
            "codes alike in one byte",
            "01 07, 00 07 and 01 00 are three codes.",
            &[minor(0x0107, 9), fails(7), minor(0x0100, 9)],
            buyer(B),
            &[total!("BBmB", "2.0"), total!("CCfB", "6.0"), total!("BBmB", "5.5")],
            &[(2, TOTAL, 5)],
        ),
        accepted("no unit", "A plan alone: every buffer is kept as it is.", &[], buyer(B), &[], &[]),
        accepted(
            "no unit but records",
            "Breaks and redesignations have no result record.",
            &[BREAK, to(B), to(C), BREAK],
            buyer(B),
            &[],
            &[],
        ),
    ]
}

/// Each beside 18, which comes behind all checks of the sheet.
fn refusals() -> Vec<Regrading> {
    let changed = |bytes: &[(usize, u8)]| {
        let mut plan = recorded();
        bytes.iter().for_each(|&(at, byte)| plan[at] = byte);
        plan
    };
    let marked_other = changed(&[(1, 0x4D)]);
    let smaller_at_b = changed(&[(3 + 24 + 3, 4)]);
    let first = || part(&minor(1, 9));
    vec![
        refused(1, 0, "ground 1", "1 and 18: another first mark.", marked_other, vec![first()]),
        refused(2, 0, "ground 2", "2 and 18: designated Substandard.", changed(&[(2, 3)]), vec![first()]),
        refused(
            3,
            0,
            "ground 3",
            "3 and 18: the L of total at C of the sheet's own plan is 1,000.0.",
            changed(&[(73, 39), (74, 16)]),
            vec![first()],
        ),
        refused(
            4,
            0,
            "ground 4",
            "4 and 18: the S of critical at A of the sheet's own plan is 0.6, and L 0.5.",
            changed(&[(4, 6)]),
            vec![first()],
        ),
        refused(
            5,
            0,
            "ground 5",
            "5 and 18: in critical T of the sheet's own plan is smaller at B than at A.",
            smaller_at_b,
            vec![first()],
        ),
        refused(
            6,
            89,
            "ground 6",
            "6 and 18: one byte left.",
            recorded(),
            vec![first(), raw(&[0x53], "one byte")],
        ),
        refused(
            7,
            89,
            "ground 7",
            "7 and 18: a unit cut short by its last byte.",
            recorded(),
            vec![first(), part(&minor(2, 9)).cut(13)],
        ),
        refused(
            8,
            91,
            "ground 8",
            "8 and 18: a count of 2,001.",
            recorded(),
            vec![first(), part(&BREAK), part(&unit(2, [0, 2_001, 0, 0]))],
        ),
        refused(
            9,
            89,
            "ground 9",
            "9 and 18: a prerequisite grade of 4.",
            recorded(),
            vec![
                first(),
                raw(&unit_as(2, [0, 0, 0, 9], 4, true).bytes(), "2: 0,0,0,9, prerequisite grade 4"),
            ],
        ),
        refused(
            10,
            89,
            "ground 10",
            "10 and 18: a redesignation to Substandard.",
            recorded(),
            vec![first(), part(&to(SUBSTANDARD))],
        ),
        refused(
            11,
            92,
            "ground 11",
            "11 and 18: by the sheet's own designations, A of its plan and then B.",
            recorded(),
            vec![first(), part(&to(B)), part(&to(B))],
        ),
        case(
            "ground 11 by the recorded plan",
            "11: the sheet designates A and the second plan, which is right, B.",
            recorded(),
            vec![part(&to(A)), first()],
            buyer(B),
            Expected::Number(11, Some(75)),
        ),
        case(
            "a buffer without room",
            "13: at the sheet's length, by the units and not by the records, also with room for one of them.",
            recorded(),
            vec![first(), part(&to(C)), part(&BREAK), part(&fails(2))],
            buyer(B),
            Expected::WithoutRoom(13, Some(75 + 14 + 3 + 2 + 14)),
        ),
    ]
}

// ---- second plans that are refused

/// A second plan that is refused.
struct WrongPlan {
    name: &'static str,
    shows: &'static str,
    plan: Plan,
    /// What it gets as a sheet, for which its length is no matter.
    number: u32,
    /// A sheet that is graded under a right one, by its name.
    sheet: &'static str,
}

fn wrong_plans() -> Vec<WrongPlan> {
    let wrong = |number, name, shows, plan| {
        let sheet = "a failure of the second plan";
        WrongPlan { name, shows, plan, number, sheet }
    };
    // Where the low bytes of S, T and L stand.
    let [s, t, l] =
        [4, 6, 8].map(|at| move |grade: u8, class: usize| at + 24 * usize::from(grade) + 6 * class);
    let none = Plan { bytes: Vec::new(), text: "[]".to_string() };
    let unit = minor(1, 9).bytes();
    vec![
        wrong(1, "no byte", "no byte", none),
        wrong(1, "a byte less", "all bytes of a plan but one", buyer(B).cut(74)),
        wrong(6, "a byte more", "a plan and one byte", buyer(B).followed_by(&[0x50])),
        wrong(0, "a plan and a unit", "a sheet, too", buyer(B).followed_by(&unit)),
        wrong(1, "another first byte", "the mark 51 4C", buyer(B).set(0, 0x51)),
        wrong(1, "another second byte", "the mark 50 4D", buyer(B).set(1, 0x4D)),
        wrong(2, "no designated plan", "2: designated Substandard", buyer(B).set(2, SUBSTANDARD)),
        wrong(
            3,
            "limit too large",
            "3: the L of total at C is 1,000.0",
            buyer(B).set(l(C, TOTAL) - 1, 39).set(l(C, TOTAL), 16),
        ),
        wrong(
            3,
            "start too large",
            "3: the S of major at B is 1,000.0",
            buyer(B).set(s(B, MAJOR) - 1, 39).set(s(B, MAJOR), 16),
        ),
        wrong(
            3,
            "tolerance too large",
            "3: the T of critical at A is 1,000.0",
            buyer(B).set(t(A, CRITICAL) - 1, 39).set(t(A, CRITICAL), 16),
        ),
        wrong(
            4,
            "start above the limit",
            "4: the S of critical at A is 0.8, and L 0.7",
            buyer(B).set(s(A, CRITICAL), 8),
        ),
        wrong(
            4,
            "start above the limit at C",
            "4: the S of total at C is 9.1, and L 9",
            buyer(B).set(s(C, TOTAL), 91),
        ),
        wrong(
            5,
            "smaller tolerance",
            "5: the T of critical is 0.4 at A and 0.3 at B",
            buyer(B).set(t(B, CRITICAL), 3),
        ),
        wrong(
            5,
            "smaller sum",
            "5: the T+L of severe is 3.4 at A and 3.3 at B",
            buyer(B).set(l(B, SEVERE), 8),
        ),
        wrong(
            5,
            "smaller tolerance at C",
            "5: the T of total is 9.5 at B and 9.4 at C",
            buyer(B).set(t(C, TOTAL), 94),
        ),
        wrong(
            5,
            "smaller sum at C",
            "5: the T+L of severe is 5 at B and 4.9 at C",
            buyer(B).set(s(C, SEVERE), 5).set(l(C, SEVERE), 9),
        ),
        WrongPlan {
            sheet: "no unit",
            ..wrong(1, "no unit to grade", "also for a sheet without a unit", buyer(B).cut(74))
        },
    ]
}

/// Names of second plans that are definitions of other sheets: the field's name has their ending.
const NAMED_ELSEWHERE: [&str; 2] = ["no byte", "start above the limit"];

/// The record of the second plans that are refused, with 18 at offset 0.
fn wrong_plan_sheets(groups: &[Group]) -> String {
    let mut text = "\n-- ---- second plans that are refused: 18, also in a buffer without room\n\n\
        pub record WrongPlanSheets : Type 0 where\n"
        .to_string();
    for WrongPlan { name, shows, plan, number, sheet } in wrong_plans() {
        assert_eq!(grader::grade(&plan.bytes, &mut [0; RESULT_SIZE]).number, number, "{name}");
        let mut cases = groups.iter().flat_map(|group| &group.cases).map(|case| &case.sheet);
        let sheet = cases.find(|case| case.name == sheet).expect("a sheet of that name");
        assert!(matches!(sheet.expected, Expected::Accepted(_)), "{name}");
        let expected = Expected::Number(18, Some(0));
        let regrading = case(name, shows, sheet.bytes(), Vec::new(), plan, expected);
        let Answer { number, offset, .. } = graded(&regrading).answer;
        let field =
            if NAMED_ELSEWHERE.contains(&name) { regrading.sheet.field() } else { field(name) };
        let (with, sheet) = (regrading.with(), sheet.definition());
        text += &format!("  -- {shows}\n");
        text += &format!("  pub {field} : RefusedWith {with}{number} {sheet} {offset}\n");
    }
    text
}

// ---- the file

const HEAD: &str = "\
-- Recorded sheets and second plans in bytes, as one group: the record at the end. Each regrading is held to the answer and the result
-- bytes that the independent grader gives for it (tests/grader, written from the papers alone), so that a rule which is wrong on one of
-- them alike in a definition and in the code that meets it is refused here. This file is printed by
-- tests/cases/src/bin/computed_regradings.rs.
use Rattle.std.specs.Prelude.{ℕ, List, [], ◌∷◌, ◌++◌, take, set}
use Rattle.results.specs.Record.{result_size}
use Rattle.outcome.specs.Outcome.{Outcome}
use Rattle.outcome.specs.Held.{GradedBy, RefusedBy, WithoutRoomBy}
use Rattle.regrade.specs.Outcome.{regrade_outcome}
use Rattle.computed.specs.FurtherSheets.{largest_plan}

module _ (plan : List ℕ) where
  -- what a sheet comes to under this second plan
  abbrev pub under : List ℕ → List ℕ → Outcome
  under bytes buffer = regrade_outcome bytes plan buffer
";

/// Behind the abbreviations.
const PLANS: &str = "
-- ---- plans: 50 4C, the designated grade; then for A, B, C a line for each class, with its S/T/L
";

/// Behind the plans.
const RECORDS: &str = "
-- In a sheet behind each record its content: of a unit code, counts of critical, severe, major, minor, prerequisite, recoverable. In
-- results behind each record the line that is printed for it.
";

const FOOT: &str = "
-- all of them
pub record RegradeSheets : Type 0 where
";

/// Behind the fields of the groups.
const WRONG_PLANS: &str = "  pub wrong_plans : WrongPlanSheets\n";

fn plans() -> String {
    let numbers = recorded().into_iter().zip(buyer(A).bytes).skip(3).collect::<Vec<_>>();
    let differ = |two: &[(u8, u8)]| two.iter().any(|(one, other)| one != other);
    assert!(numbers.chunks(2).all(differ), "another number in every place");
    [
        "\n-- the one under which the sheets are recorded: the peach plan of paper 01, designated A\n",
        &plan_lines("recorded_plan", &recorded()),
        "\n-- a buyer's, designated A: another number in every place\n",
        &plan_lines("buyer_a", &buyer(A).bytes),
        "\n-- designated B\n",
        &buyer_lines(B),
        "\n-- designated C\n",
        &buyer_lines(C),
        "\n-- the buyer's in appendix 7 of source document 000, designated B\n",
        &plan_lines("manual_plan", &manual().bytes),
    ]
    .concat()
}

fn main() {
    let groups = groups();
    let (text, fields) = antt::sheets(&groups);
    let wrong_plans = wrong_plan_sheets(&groups);
    // In the module of the second plan.
    let indented = |line: &str| if line.is_empty() { "\n".into() } else { format!("  {line}\n") };
    let words: String = abbreviations("under").lines().map(indented).collect();
    print!(
        "{}",
        [HEAD, &words, PLANS, &plans(), RECORDS, &text, &wrong_plans, FOOT, &fields, WRONG_PLANS]
            .concat()
    );
}
