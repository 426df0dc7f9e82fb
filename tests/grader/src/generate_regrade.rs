//! Seeded random regradings (A.5 of paper 02): valid sheets that go in and out of step 3 under their
//! own plan and fail a second one, once and in a row; sheets damaged for every refusal number, with a
//! right second plan and with a wrong one; wrong second plans of every kind; messy ones; monotone
//! pairs; and counts of what happened in them.

use crate::check::stretches_of_failures;
use crate::generate::{self, Case, Counts, Dice, Mood, Over};
use crate::regrade::{read_second_plan, regrade_portions};
use crate::rules::{self, Event, Graded, Row, What, FAILED, IN_STEP_3, MET, RESULT_SIZE};
use crate::sheet::{self, Sheet, MOST_UNITS};
use crate::Answer;
use std::ops::Range;

/// Bytes of a sheet and of a second plan, the length of the result buffer, and the expected number and
/// offset if they are known from the making (0 and the sheet's length if valid).
#[derive(Clone, Debug)]
pub struct RegradeCase {
    pub sheet: Vec<u8>,
    pub plan: Vec<u8>,
    pub room: usize,
    pub expected: Option<(u32, usize)>,
}

/// A second plan for this sheet, as a sheet without records: of the same table or another, designated
/// A, B or C.
fn second_plan(dice: &mut Dice, sheet: &Sheet) -> Sheet {
    let table = match dice.below(8) {
        0 | 1 => sheet.table,
        2 | 3 => generate::plan(dice),
        4 | 5 => generate::plan_to_the_tenth(dice),
        _ => generate::plan_in_steps(dice),
    };
    Sheet { designated: dice.below(3) as u8, table, records: Vec::new() }
}

/// A valid sheet and a second plan. Half of the sheets are made for both plans, the others for their
/// own.
fn draft(dice: &mut Dice) -> (Sheet, Sheet) {
    let sheet = match dice.below(10) {
        0..=4 => return draft_for_two_plans(dice),
        5 | 6 => generate::draft(dice, true, false),
        7 | 8 => generate::draft_over(dice, true, false),
        _ => generate::draft_lower_plans(dice),
    };
    let plan = second_plan(dice, &sheet);
    (sheet, plan)
}

/// A valid sheet, with ways into step 3 and out of it under its own plan, and with failures in a row,
/// units around L, far over it and within T under the second plan; breaks and redesignations
/// anywhere.
fn draft_for_two_plans(dice: &mut Dice) -> (Sheet, Sheet) {
    let table = if dice.chance(50) { generate::plan(dice) } else { generate::plan_in_steps(dice) };
    let mut sheet = Sheet { designated: dice.pick(&[0, 0, 1, 2]), table, records: Vec::new() };
    let plan = second_plan(dice, &sheet);
    let regraded = |sheet: &Sheet| regrade_portions(sheet, plan.designated, &plan.table);
    for _ in 0..dice.pick(&[0, 1, 2, 3, 5, 8]) {
        match dice.below(6) {
            0 | 1 => {
                generate::failure_in_force(dice, &mut sheet);
                generate::failure_in_force(dice, &mut sheet);
                for _ in 0..dice.between(3, 6) {
                    generate::perhaps_parted(dice, &mut sheet, 6, true);
                    generate::unit(dice, &mut sheet, Mood::Clean);
                }
            }
            2 | 3 => {
                for _ in 0..dice.pick(&[1, 1, 2, 2, 3, 5, 6]) {
                    let counts = generate::counts_failing(dice, &regraded(&sheet));
                    generate::push_unit(dice, &mut sheet, counts);
                    generate::perhaps_parted(dice, &mut sheet, 8, true);
                }
            }
            _ => {
                for _ in 0..dice.between(1, 3) {
                    let hows = [Over::OneClass, Over::OneClass, Over::EveryClass, Over::Far];
                    let how = dice.pick(&hows);
                    let counts = generate::counts_over(dice, &regraded(&sheet), how);
                    generate::push_unit(dice, &mut sheet, counts);
                    generate::perhaps_parted(dice, &mut sheet, 15, true);
                }
            }
        }
        for _ in 0..dice.pick(&[0, 0, 1, 2]) {
            let counts = generate::counts_within(dice, plan.table[usize::from(plan.designated)]);
            generate::push_unit(dice, &mut sheet, counts);
        }
        generate::perhaps_parted(dice, &mut sheet, 15, true);
    }
    (sheet, plan)
}

/// The bytes of a second plan in which one thing is wrong.
fn wrong_plan(dice: &mut Dice, plan: &Sheet) -> Vec<u8> {
    let mut bytes = plan.bytes();
    match dice.below(11) {
        0 => bytes.clear(),
        1 => bytes.truncate(1),
        2 => bytes.truncate(74),
        3 => bytes.push(dice.pick(&[0, 0x42, 0x50, 0x53, 255])),
        4 => bytes.extend(plan.bytes()),
        5 => bytes.extend(generate::counted(1, [0, 0, 1, 2]).bytes()),
        6 if dice.chance(50) => bytes[dice.below(2)] ^= dice.pick(&[1, 2, 0x1C, 255]),
        6 => {
            let mark = dice.pick(&[[0x53, 0x55], [0x52, 0x44], [0x4C, 0x50], [0x4D, 0x44]]);
            bytes[..2].copy_from_slice(&mark);
        }
        kind => {
            generate::damage(dice, plan, &mut bytes, kind as u32 - 5);
        }
    }
    bytes
}

/// What is wrong with a second plan.
fn what_is_wrong(plan: &[u8]) -> String {
    let behind = plan.get(75..).filter(|_| read_second_plan(&plan[..75]).is_some());
    match (plan.len(), behind, sheet::read_plan(plan)) {
        (75, _, Err(1)) => "for a wrong mark".to_string(),
        (75, _, Err(number)) => format!("for number {number:02}"),
        (length @ (0 | 1 | 74), ..) => format!("for length {length}"),
        (76, Some(_), _) => "for one byte behind a plan record".to_string(),
        (150, Some(_), _) => "for two plan records".to_string(),
        (89, Some([0x53, 0x55, ..]), _) => "for a unit behind a plan record".to_string(),
        _ => "for something else".to_string(),
    }
}

/// All that [`what_is_wrong`] can say.
const WRONG: [&str; 12] = [
    "for length 0",
    "for length 1",
    "for length 74",
    "for one byte behind a plan record",
    "for two plan records",
    "for a unit behind a plan record",
    "for a wrong mark",
    "for number 02",
    "for number 03",
    "for number 04",
    "for number 05",
    "for something else",
];

/// A valid case for number 0 (a few with exactly 1,000 units), else one that is refused with this
/// number, 1 to 13 or 18. With 1 to 12 the second plan may be wrong as well, and the buffer short;
/// with 18 the buffer may be short.
fn expecting(dice: &mut Dice, number: u32) -> RegradeCase {
    let (mut sheet, plan) = draft(dice);
    let full = number == 12 || dice.chance(1);
    let empty = number == 0 || (number == 18 && dice.chance(15));
    sheet.fill(if full { MOST_UNITS } else { usize::from(!empty) });
    let wrong = number == 18 || ((1..=12).contains(&number) && dice.chance(50));
    let plan = if wrong { wrong_plan(dice, &plan) } else { plan.bytes() };
    if number == 18 {
        let Case { sheet, mut room, .. } = generate::expecting_of(dice, &sheet, 0);
        if dice.chance(50) {
            room = dice.pick(&[0, RESULT_SIZE - 1]);
        }
        return RegradeCase { sheet, plan, room, expected: Some((18, 0)) };
    }
    let Case { sheet, room, expected } = generate::expecting_of(dice, &sheet, number);
    RegradeCase { sheet, plan, room, expected }
}

/// Bytes changed anywhere in the sheet, in the second plan or in both; what comes of it is not known
/// beforehand.
fn messy(dice: &mut Dice) -> RegradeCase {
    let (sheet, plan) = draft(dice);
    let (mut sheet, mut plan, mut room) = (sheet.bytes(), plan.bytes(), generate::MOST_ROOM);
    if dice.chance(50) {
        Case { sheet, room, .. } = generate::messy(dice);
    }
    match dice.below(8) {
        0 => plan.clone_from(&sheet),
        1 => plan = (0..dice.pick(&[2, 75, 75, 75, 80])).map(|_| dice.below(256) as u8).collect(),
        2 | 3 => {}
        _ => generate::change_bytes(dice, &mut plan),
    }
    RegradeCase { sheet, plan, room, expected: None }
}

/// The regrading of this seed: six in ten valid, else damaged or messy.
pub fn regrade_case(seed: u64) -> RegradeCase {
    let dice = &mut Dice(seed);
    match dice.below(100) {
        0..=59 => expecting(dice, 0),
        60..=77 => {
            let number = dice.between(1, 12) as u32;
            expecting(dice, number)
        }
        78..=88 => expecting(dice, 18),
        89..=92 => expecting(dice, 13),
        _ => messy(dice),
    }
}

/// A first sheet, a second sheet and the second plan of both: the sheets are valid and alike except
/// that no count in the first exceeds its fellow in the second.
pub fn regrade_pair(seed: u64) -> (Vec<u8>, Vec<u8>, Vec<u8>) {
    let dice = &mut Dice(seed);
    let (second, plan) = draft(dice);
    let percent = dice.pick(&[10, 30, 80]);
    let first = generate::fewer(dice, &second, percent);
    (first.bytes(), second.bytes(), plan.bytes())
}

/// What is counted of regradings.
impl Counts {
    /// Takes in a case, its answer and its trace, as [`crate::regrade::regrade_traced`] hands them out.
    pub fn note_regrade(&mut self, case: &RegradeCase, answer: Answer, graded: Option<&Graded>) {
        let mut add = |name: &str, is: bool| self.add(&format!("regrading: {name}"), is.into());
        let RegradeCase { sheet, plan, room, .. } = case;
        let number = answer.number;
        let right = read_second_plan(plan).is_some();
        let tally = sheet::read(sheet);
        let needed = RESULT_SIZE * tally.as_ref().map_or(0, Sheet::units);
        for known in (0..=13).chain([18]) {
            add(&format!("number {known:02}"), number == known);
        }
        for known in 1..=12 {
            let wrong_too = number == known && !right;
            add(&format!("number {known:02} and a wrong second plan"), wrong_too);
        }
        for wrong in WRONG {
            add(&format!("number 18 {wrong}"), number == 18 && what_is_wrong(plan) == wrong);
        }
        add("number 18 and a short buffer", number == 18 && *room < needed);
        add("number 18 and no unit", number == 18 && needed == 0);
        add("buffer one byte too short", number == 13 && room + 1 == needed);
        add("buffer shorter by more", number == 13 && room + 1 < needed);
        let accepted = number == 0;
        add("buffer exactly long enough", accepted && needed > 0 && *room == needed);
        add("buffer longer than needed", accepted && *room > needed);
        add("no unit", accepted && needed == 0);
        add("1,000 units", accepted && needed == RESULT_SIZE * MOST_UNITS);
        for (code, letter) in [(0, 'A'), (1, 'B'), (2, 'C')] {
            add(
                &format!("second plan designated {letter}"),
                accepted && plan.get(2) == Some(&code),
            );
        }
        let (own, own_table) = (sheet.get(2), sheet.get(3..75));
        add("designated grade of the sheet", accepted && own == plan.get(2));
        add("another designated grade", accepted && own != plan.get(2));
        add("another table", accepted && own_table != plan.get(3..75));
        let own = tally.ok().filter(|_| accepted).map(|tally| rules::grade_portions(&tally));
        let in_step_3 = |row: &Row| row.standing >= IN_STEP_3;
        let ends = |event: &Event| event.what == What::StepThreeEnds;
        let (own_rows, own_events) =
            own.map_or_else(Default::default, |own| (own.rows, own.events));
        add("in step 3 under its own plan", own_rows.iter().any(in_step_3));
        add("out of step 3 under its own plan", own_events.iter().any(ends));
        self.note_regraded_units(graded);
        self.note_regraded_places(graded);
    }

    /// Units, each by itself.
    fn note_regraded_units(&mut self, graded: Option<&Graded>) {
        let rows: &[Row] = graded.map_or(&[], |graded| &graded.rows);
        let mut count = |name: &str, test: &dyn Fn(&Row) -> bool| {
            self.add(&format!("regrading: {name}"), rows.iter().filter(|row| test(row)).count());
        };
        for standing in [MET, FAILED] {
            count(&format!("standing {standing}"), &|row| row.standing == standing);
        }
        for (code, letter) in [(0, 'A'), (1, 'B'), (2, 'C'), (3, 'S')] {
            count(&format!("portion grade {letter}"), &|row| row.portion_grade == code);
            count(&format!("prerequisite {letter}"), &|row| row.unit.prerequisite == code);
        }
        for (code, letter) in [(1, 'B'), (2, 'C'), (3, 'S')] {
            count(&format!("failure to {letter}"), &|row| row.fails() && row.defect_grade == code);
        }
        count("prerequisite worse than defect grade", &|row| row.portion_grade > row.defect_grade);
        count("code grade worse than portion grade", &|row| row.code_grade > row.portion_grade);
        count("unit marked recoverable", &|row| row.unit.recoverable);
        count("failed unit marked recoverable", &|row| row.unit.recoverable && row.fails());
        count("failures in several classes", &|row| {
            row.class_fails.iter().filter(|&&fails| fails).count() > 1
        });
        count("raw value of L and a tenth", &|row| row.overshoots.contains(&1));
        count("overshoot above 65,535 tenths", &|row| row.overshoots.iter().any(|&x| x > 65_535));
        let table = graded.map(|graded| graded.table);
        count("raw value of exactly L", &|row| {
            // A CuSum of zero does not tell the raw value.
            let plan = table.expect("a row has a table")[usize::from(row.plan)];
            let at_limit = |class: usize| plan[class].l > 0 && row.cusums[class] == plan[class].l;
            (0..4).any(|class| at_limit(class) && !row.class_fails[class])
        });
    }

    /// What lies between units, and units in a row.
    fn note_regraded_places(&mut self, graded: Option<&Graded>) {
        let rows: &[Row] = graded.map_or(&[], |graded| &graded.rows);
        let events: &[Event] = graded.map_or(&[], |graded| &graded.events);
        let passed_over: &[usize] = graded.map_or(&[], |graded| &graded.passed_over);
        let stretches = graded.map_or(Vec::new(), stretches_of_failures);
        let mut add = |name: &str, times: usize| self.add(&format!("regrading: {name}"), times);
        // With a unit before it whose CuSums are not those of a start, and a unit behind it.
        let telling = |place: &usize| {
            let start = graded.map(|graded| rules::starts(&graded.table, graded.next_plan));
            (1..rows.len()).contains(place) && Some(rows[place - 1].cusums) != start
        };
        let breaks: Vec<usize> = events.iter().map(|event| event.units_before).collect();
        let alone = |place: &usize| telling(place) && !breaks.contains(place);
        add("break restarts", breaks.len());
        add("break restarts, CuSums not at S", breaks.iter().filter(|at| telling(at)).count());
        add("redesignation passed over", passed_over.len());
        let passed_by = passed_over.iter().filter(|at| alone(at)).count();
        add("redesignation passed over, CuSums not at S", passed_by);
        let mut count = |name: &str, test: &dyn Fn(&Range<usize>) -> bool| {
            add(name, stretches.iter().filter(|stretch| test(stretch)).count());
        };
        // With a unit behind it, that shows what is in force.
        let shown = |stretch: &Range<usize>| stretch.end < rows.len();
        let again = |stretch: &Range<usize>| {
            let [first, second] = [0, 1].map(|unit| rows[stretch.start + unit].class_fails);
            (0..4).any(|class| first[class] && second[class])
        };
        count("one failure alone", &|stretch| stretch.len() == 1);
        count("two failures in a row", &|stretch| stretch.len() >= 2);
        count("two failures in a row and no more", &|stretch| stretch.len() == 2 && shown(stretch));
        count("two failures in a row in a class", &|stretch| stretch.len() >= 2 && again(stretch));
        count("two failures in a row, no class fails twice", &|stretch| {
            stretch.len() >= 2 && !again(stretch)
        });
        count("five failures in a row", &|stretch| stretch.len() >= 5);
        let parted = |stretch: &Range<usize>| {
            passed_over.iter().any(|at| stretch.contains(at) && stretch.start < *at)
        };
        count("redesignation passed over between two failures", &parted);
    }

    /// Takes in a monotone pair, regraded under the same second plan.
    pub fn note_regrade_pair(&mut self, first: &Graded, second: &Graded) {
        let fellows = || first.rows.iter().zip(&second.rows);
        let mut add = |name: &str, times: usize| self.add(&format!("regrading: pair{name}"), times);
        let two_in_a_row = stretches_of_failures(second).iter().any(|stretch| stretch.len() >= 2);
        add(" with redesignations", usize::from(!second.passed_over.is_empty()));
        add(" with breaks", usize::from(!second.events.is_empty()));
        add(" whose second sheet fails two in a row", usize::from(two_in_a_row));
        let mut count = |name: &str, test: &dyn Fn(&Row, &Row) -> bool| {
            add(name, fellows().filter(|(x, y)| test(x, y)).count());
        };
        let any = |test: &dyn Fn(usize) -> bool| (0..4).any(test);
        count(": smaller CuSum in the first", &|x, y| {
            any(&|class| x.cusums[class] < y.cusums[class])
        });
        count(": smaller overshoot in the first", &|x, y| {
            any(&|class| 0 < x.overshoots[class] && x.overshoots[class] < y.overshoots[class])
        });
        count(": class fails only in the second", &|x, y| {
            any(&|class| !x.class_fails[class] && y.class_fails[class])
        });
        count(": better portion in the first", &|x, y| x.portion_grade < y.portion_grade);
        count(": better code in the first", &|x, y| x.code_grade < y.code_grade);
    }
}
