//! "Grading a unit", step 3 with its falls, recovery, redesignation, break and code grades.

use crate::sheet::{Grade, Numbers, Record, Sheet, Table, Unit, SUBSTANDARD};

/// "Standing: 0 met the designated plan, 1 failed it, 2 in step 3 and not recovered, 3 recovered."
pub const MET: u8 = 0;
pub const FAILED: u8 = 1;
pub const IN_STEP_3: u8 = 2;
pub const RECOVERED: u8 = 3;

/// "The result record grows from 16 to 32 bytes" (paper 02, A.1).
pub const RESULT_SIZE: usize = 32;

/// One unit as graded: its result record and the trace behind it.
#[derive(Clone, Copy, Debug)]
pub struct Row {
    pub unit: Unit,
    /// "grade of the plan in force for this unit (1, or 3 if none)"
    pub plan: Grade,
    pub class_fails: [bool; 4],
    pub cusums: [i64; 4],
    pub overshoots: [i64; 4],
    pub defect_grade: Grade,
    pub qualifies: bool,
    pub standing: u8,
    pub portion_grade: Grade,
    pub code_grade: Grade,
}

impl Row {
    /// "The unit fails if a class fails."
    pub fn fails(&self) -> bool {
        self.class_fails.contains(&true)
    }

    /// "Result, 47 52, [...]: code (2), portion grade (1), code grade (1), grade of the plan in force
    /// [...] (1 [...]), standing (1), four CuSums (2 each, tenths; zero if no plan)." "after the
    /// CuSums come four overshoots in tenths, four bytes each, high byte first, zero where no plan is
    /// in force" (paper 02, A.1).
    pub fn result(&self) -> [u8; RESULT_SIZE] {
        let mut record = [0; RESULT_SIZE];
        record[..2].copy_from_slice(&[0x47, 0x52]);
        record[2..4].copy_from_slice(&self.unit.code.to_be_bytes());
        (record[4], record[5]) = (self.portion_grade, self.code_grade);
        (record[6], record[7]) = (self.plan, self.standing);
        // No CuSum is above its L, and so none is too large for two bytes: "no accepted plan and no
        // counts lead to it" (paper 02, A.7).
        for (place, cusum) in record[8..16].chunks_exact_mut(2).zip(self.cusums) {
            let cusum = u16::try_from(cusum).expect("a CuSum is at most L");
            place.copy_from_slice(&cusum.to_be_bytes());
        }
        for (place, overshoot) in record[16..].chunks_exact_mut(4).zip(self.overshoots) {
            place.copy_from_slice(&(overshoot as u32).to_be_bytes());
        }
        record
    }
}

/// Where the line stands between two records. `failure` is the defect grade of the unit just before,
/// if that failed the plan in force and did not start a lower plan.
#[derive(Clone, Copy, Debug, PartialEq, Eq)]
pub enum Stage {
    /// At the designated plan.
    Designated { failure: Option<Grade> },
    /// In step 3 at the plan of `lower` (none if Substandard), after `run` qualifying units.
    StepThree { lower: Grade, run: usize, failure: Option<Grade> },
}

/// What happens between two units. Step 3 ends as such at its third qualifying unit; a fall is the
/// start of a further lower plan in step 3.
#[derive(Clone, Copy, Debug, PartialEq, Eq)]
pub enum What {
    Break,
    Redesignation { keeps: bool },
    StepThreeBegins { lower: Grade },
    LowerPlanStarts { lower: Grade },
    StepThreeEnds,
}

#[derive(Clone, Copy, Debug)]
pub struct Event {
    /// The number of units before it.
    pub units_before: usize,
    pub what: What,
    /// The stage just before it (before the unit that brings it about, if one does).
    pub stage: Stage,
    /// The grade designated behind it.
    pub designated: Grade,
}

impl Event {
    /// "The restarts are a break, the start of step 3, its end, and every redesignation but one that
    /// keeps the CuSums." Of a fall: "this start counts as a restart for the anchor" (paper 02, A.4).
    pub fn is_restart(&self) -> bool {
        self.what != What::Redesignation { keeps: true }
    }
}

/// The whole sheet as graded.
#[derive(Clone, Debug)]
pub struct Graded {
    pub table: Table,
    pub rows: Vec<Row>,
    pub events: Vec<Event>,
    /// The grade of the plan in force behind the last record, and its CuSums.
    pub next_plan: Grade,
    pub next_cusums: [i64; 4],
    /// The number of units before each redesignation that a regrading passes over; none in a grading.
    pub passed_over: Vec<usize>,
}

pub(crate) const FRESH: Stage = Stage::Designated { failure: None };

pub fn grade_sheet(sheet: &Sheet) -> Graded {
    let mut graded = grade_portions(sheet);
    grade_codes(&mut graded.rows);
    graded
}

/// All but the code grades.
pub fn grade_portions(sheet: &Sheet) -> Graded {
    let table = &sheet.table;
    let mut designated = sheet.designated;
    let mut stage = FRESH;
    let mut cusums = starts(table, designated);
    let mut rows: Vec<Row> = Vec::new();
    let mut events = Vec::new();
    for record in &sheet.records {
        let before = stage;
        let what = match *record {
            Record::Unit(unit) => {
                let row = grade_unit(table, unit, designated, stage, cusums);
                rows.push(row);
                cusums = row.cusums;
                let what;
                (stage, what) = after_unit(stage, &row);
                // "Each of those three portions marked recoverable then gets the worse of designated
                // grade and prerequisite grade, and standing 3; the others keep theirs."
                if what == Some(What::StepThreeEnds) {
                    for row in rows.iter_mut().rev().take(3).filter(|row| row.unit.recoverable) {
                        row.portion_grade = designated.max(row.unit.prerequisite);
                        row.standing = RECOVERED;
                    }
                }
                what
            }
            // "A redesignation outside step 3 starts the new plan at S and forgets a failure just
            // before. In step 3, a new grade better than the lower one keeps step 3 and its CuSums
            // and sets the run of qualifying units to none; any other new grade ends step 3 and
            // starts at S." "A break or a redesignation forgets a failure just before, here too"
            // (paper 02, A.4): also one that keeps step 3. The lower grade is the latest one.
            Record::Redesignation(new) => {
                designated = new;
                let keeps = matches!(stage, Stage::StepThree { lower, .. } if new < lower);
                stage = if keeps { forget(stage) } else { FRESH };
                Some(What::Redesignation { keeps })
            }
            // "A break sets the CuSums of the plan in force to S, forgets a failure just before and
            // sets that run to none; it does not end step 3."
            Record::Break => {
                stage = forget(stage);
                Some(What::Break)
            }
        };
        // "A restart that a unit brings about comes after that unit's record."
        if let Some(what) = what {
            let event = Event { units_before: rows.len(), what, stage: before, designated };
            if event.is_restart() {
                cusums = starts(table, plan_in_force(stage, designated));
            }
            events.push(event);
        }
    }
    let next_plan = plan_in_force(stage, designated);
    let passed_over = Vec::new();
    Graded { table: sheet.table, rows, events, next_plan, next_cusums: cusums, passed_over }
}

/// "Last, the code grade: the worst portion grade among all units of the sheet with that code,
/// adjoining or not."
pub(crate) fn grade_codes(rows: &mut [Row]) {
    let mut worst = std::collections::HashMap::new();
    for row in &*rows {
        let grade = worst.entry(row.unit.code).or_insert(row.portion_grade);
        *grade = row.portion_grade.max(*grade);
    }
    for row in rows {
        row.code_grade = worst[&row.unit.code];
    }
}

fn plan_in_force(stage: Stage, designated: Grade) -> Grade {
    match stage {
        Stage::Designated { .. } => designated,
        Stage::StepThree { lower, .. } => lower,
    }
}

/// "Every CuSum begins at the S of its own class and plan"; zeros where there is no plan.
pub(crate) fn starts(table: &Table, plan: Grade) -> [i64; 4] {
    table.get(usize::from(plan)).map_or([0; 4], |classes| classes.map(|class| class.s))
}

/// The same stage without a failure just before and without a run of qualifying units.
fn forget(stage: Stage) -> Stage {
    match stage {
        Stage::Designated { .. } => FRESH,
        Stage::StepThree { lower, .. } => Stage::StepThree { lower, run: 0, failure: None },
    }
}

/// The stage after a unit, and the restart that the unit brings about, if any.
fn after_unit(stage: Stage, row: &Row) -> (Stage, Option<What>) {
    // "At the third qualifying unit in a row step 3 ends. [...] The next unit starts the designated
    // plan at S." It cannot fail as well: a class that fails exceeds the T of the plan in force, which
    // is no smaller than the designated T.
    if matches!(stage, Stage::StepThree { run: 2, .. }) && row.qualifies {
        return (FRESH, Some(What::StepThreeEnds));
    }
    let (Stage::Designated { failure } | Stage::StepThree { failure, .. }) = stage;
    if let (Some(first), true) = (failure, row.fails()) {
        // "Step 3 begins when two units in a row fail the designated plan, in the same class or not.
        // From the next unit on, the plan in force is that of the worse of the two defect grades,
        // every class at its S." "Two units in a row that fail the lower plan in step 3 now make the
        // worse of their two defect grades the new lower grade, each class at its S and the
        // qualifying run none. Both failures must come after the latest start of a lower plan"
        // (paper 02, A.4): this one, which brings about the start, does not.
        let lower = first.max(row.defect_grade);
        let what = match stage {
            Stage::Designated { .. } => What::StepThreeBegins { lower },
            Stage::StepThree { .. } => What::LowerPlanStarts { lower },
        };
        return (Stage::StepThree { lower, run: 0, failure: None }, Some(what));
    }
    // A unit that meets forgets a failure, one that does not qualify the run. Without a plan no unit
    // fails, so that nothing lower can start.
    let failure = row.fails().then_some(row.defect_grade);
    let stage = match stage {
        Stage::Designated { .. } => Stage::Designated { failure },
        Stage::StepThree { lower, run, .. } => {
            Stage::StepThree { lower, run: if row.qualifies { run + 1 } else { 0 }, failure }
        }
    };
    (stage, None)
}

/// Rules 1 to 4 of "Grading a unit". `old` holds the CuSums before this unit; the code grade is set
/// last, over the whole sheet.
pub(crate) fn grade_unit(
    table: &Table,
    unit: Unit,
    designated: Grade,
    stage: Stage,
    old: [i64; 4],
) -> Row {
    let plan = plan_in_force(stage, designated);
    let defects = unit.defects();
    // "If that is Substandard there is no plan: each unit has defect grade Substandard."
    let steps = match table.get(usize::from(plan)) {
        Some(numbers) => [0, 1, 2, 3].map(|class| step(old[class], defects[class], numbers[class])),
        None => [Step { cusum: 0, fails: false, overshoot: 0 }; 4],
    };
    let class_fails = steps.map(|step| step.fails);
    let cusums = steps.map(|step| step.cusum);
    // "Its defect grade is the grade of the plan in force if it meets."
    let fails = class_fails.contains(&true);
    let defect_grade = if fails { lower_grade(table, plan, defects) } else { plan };
    // "A unit in step 3 qualifies if all its CuSums are zero (taken as so where there is no plan) and
    // no count exceeds the designated T of its class."
    let in_step_3 = matches!(stage, Stage::StepThree { .. });
    let tolerances = table[usize::from(designated)].map(|class| class.t);
    let within = (0..4).all(|class| defects[class] <= tolerances[class]);
    Row {
        unit,
        plan,
        class_fails,
        cusums,
        overshoots: steps.map(|step| step.overshoot),
        defect_grade,
        qualifies: in_step_3 && cusums == [0; 4] && within,
        standing: match (in_step_3, fails) {
            (true, _) => IN_STEP_3,
            (false, true) => FAILED,
            (false, false) => MET,
        },
        // "The portion grade is the worse of defect grade and prerequisite grade."
        portion_grade: defect_grade.max(unit.prerequisite),
        code_grade: SUBSTANDARD,
    }
}

/// What a class comes to at a unit.
#[derive(Clone, Copy)]
pub struct Step {
    pub cusum: i64,
    pub fails: bool,
    pub overshoot: i64,
}

/// "Raw value = old CuSum + ten times the count - T. If it is above L, the class fails and the CuSum
/// becomes L. If it is below zero, the CuSum becomes 0. Otherwise it is the CuSum." "The step that
/// gives a new CuSum shall also give the overshoot, raw value less L, or zero where the class met"
/// (paper 02, A.1).
pub fn step(old: i64, tenths: i64, numbers: Numbers) -> Step {
    let raw = old + tenths - numbers.t;
    if raw > numbers.l {
        Step { cusum: numbers.l, fails: true, overshoot: raw - numbers.l }
    } else if raw < 0 {
        Step { cusum: 0, fails: false, overshoot: 0 }
    } else {
        Step { cusum: raw, fails: false, overshoot: 0 }
    }
}

/// "the best lower grade whose T+L is not exceeded by ten times the count in any class; it is
/// Substandard exactly if no lower grade admits the counts": lower than the plan in force.
fn lower_grade(table: &Table, plan: Grade, defects: [i64; 4]) -> Grade {
    let admits = |grade: &Grade| {
        let row = table[usize::from(*grade)];
        (0..4).all(|class| defects[class] <= row[class].t + row[class].l)
    };
    (plan + 1..SUBSTANDARD).find(admits).unwrap_or(SUBSTANDARD)
}
