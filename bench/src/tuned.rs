//! A tuned streaming grader, the second peer of the library: written for speed, in Rust without
//! `unsafe`. It reads the records twice, once to check and once to grade them, writes each result
//! record as its unit is read, and keeps no list of records. Nothing is allocated but the table by
//! code of [`Tuned`], which is made once and left cleared after each sheet.
//!
//! What made it faster: a path of its own for a unit of each phase, the table apart from the state,
//! no `map` of an array in the paths, which is not inlined, CuSums and overshoots written eight bytes
//! at a time, and a table that has every code by its type, so that none is looked for behind its end.
//!
//! A regrading, by [`Tuned::regrade`], is checked in the same way; its one path takes in the worst
//! grade by code as it writes. A mold sheet is read twice, too, by [`grade_mold`]. Of one code the
//! results are read once, by [`find`], up to its first Substandard portion. Of a lot each AQL is read
//! once, by [`grade_lot`], for its check and its acceptance number.

use crate::Answer;
use hatmuyon::ffi::{
    RESULT_CODE, RESULT_CODE_GRADE, RESULT_CRITICAL, RESULT_CRITICAL_OVERSHOOT,
    RESULT_MAJOR_OVERSHOOT, RESULT_PLAN_GRADE, RESULT_PORTION_GRADE, RESULT_STANDING,
};
use hatmuyon::LOT_SIZE;
use hatmuyon::{BREAK_SIZE, MOST_UNITS, PLAN_SIZE, REDESIGNATION_SIZE, RESULT_SIZE, UNIT_SIZE};
use hatmuyon::{MOLD_OPENING_SIZE, MOLD_RESULT_SIZE, MOLD_UNIT_SIZE, MOST_POSITIVE_FIELDS};

const CLASSES: usize = 4;
/// Grades A, B and C have a plan.
const PLANS: usize = 3;
/// The grade below them, which has none.
const SUBSTANDARD: u8 = 3;

const PLAN_MARK: [u8; 2] = [0x50, 0x4C];
const UNIT_MARK: [u8; 2] = [0x53, 0x55];
const REDESIGNATION_MARK: [u8; 2] = [0x52, 0x44];
const BREAK_MARK: [u8; 2] = [0x42, 0x4B];
const RESULT_MARK: [u8; 2] = [0x47, 0x52];

/// Offsets in a plan, a redesignation and a unit.
const GRADE: usize = 2;
const TABLE: usize = 3;
const CODE: usize = 2;
const COUNTS: usize = 4;
const PREREQUISITE: usize = 12;
const RECOVERABLE: usize = 13;

/// Standings.
const MET: u8 = 0;
const FAILED: u8 = 1;
const IN_STEP_THREE: u8 = 2;
const RECOVERED: u8 = 3;

/// So many qualifying units in a row end step 3, and are recovered.
const QUALIFYING: usize = 3;

/// S, T and L of a class in a plan, in tenths.
#[derive(Clone, Copy)]
struct Numbers {
    start: i32,
    tolerance: i32,
    limit: i32,
}

/// The plan of a grade, by class, and the plans by grade.
type Row = [Numbers; CLASSES];
type Table = [Row; PLANS];

/// Tenths of each class: counts, CuSums, or overshoots.
type Tenths = [i32; CLASSES];

fn number(bytes: &[u8], at: usize) -> i32 {
    i32::from(u16::from_be_bytes([bytes[at], bytes[at + 1]]))
}

/// The plans of grades A, B and C of a sheet that is long enough for them.
fn table(sheet: &[u8]) -> Table {
    let mut table = [[Numbers { start: 0, tolerance: 0, limit: 0 }; CLASSES]; PLANS];
    for (cell, numbers) in table.iter_mut().flatten().enumerate() {
        let at = TABLE + 6 * cell;
        *numbers = Numbers {
            start: number(sheet, at),
            tolerance: number(sheet, at + 2),
            limit: number(sheet, at + 4),
        };
    }
    table
}

/// Whether T or T+L of a class is smaller at the lower grade than at the better one.
fn is_smaller(better: Numbers, lower: Numbers) -> bool {
    lower.tolerance < better.tolerance
        || lower.tolerance + lower.limit < better.tolerance + better.limit
}

/// Refusals 1 to 5; else the plans.
fn check_plan(sheet: &[u8]) -> Result<Table, u32> {
    if sheet.len() < PLAN_SIZE || sheet[..2] != PLAN_MARK {
        return Err(1);
    }
    if usize::from(sheet[GRADE]) >= PLANS {
        return Err(2);
    }
    let table = table(sheet);
    let mut cells = table.iter().flatten();
    if cells.clone().any(|cell| cell.start.max(cell.tolerance).max(cell.limit) > 9_999) {
        return Err(3);
    }
    if cells.any(|cell| cell.start > cell.limit) {
        return Err(4);
    }
    let [a, b, c] = table;
    if (0..CLASSES).any(|class| is_smaller(a[class], b[class]) || is_smaller(b[class], c[class])) {
        return Err(5);
    }
    Ok(table)
}

/// Refusals 7, 12, 8 and 9 of the unit at the start of the rest.
fn check_unit(rest: &[u8], units: usize) -> Result<(), u32> {
    let Some(unit) = rest.get(..UNIT_SIZE) else { return Err(7) };
    if units == MOST_UNITS {
        return Err(12);
    }
    if (0..CLASSES).any(|count| number(unit, COUNTS + 2 * count) > 2_000) {
        return Err(8);
    }
    if unit[PREREQUISITE] > SUBSTANDARD || unit[RECOVERABLE] > 1 {
        return Err(9);
    }
    Ok(())
}

/// Refusals 7, 10 and 11 of the redesignation at the start of the rest; else the new grade.
fn check_redesignation(rest: &[u8], designated: u8) -> Result<u8, u32> {
    let Some(&[.., new]) = rest.get(..REDESIGNATION_SIZE) else { return Err(7) };
    if usize::from(new) >= PLANS {
        return Err(10);
    }
    if new == designated {
        return Err(11);
    }
    Ok(new)
}

/// Refusals 6 to 12, each with its offset; else the number of units.
fn check_records(sheet: &[u8]) -> Result<usize, (u32, usize)> {
    let (mut at, mut units, mut designated) = (PLAN_SIZE, 0, sheet[GRADE]);
    while at < sheet.len() {
        let rest = &sheet[at..];
        let refused = |number| (number, at);
        if rest.len() < 2 {
            return Err(refused(6));
        }
        match [rest[0], rest[1]] {
            UNIT_MARK => {
                check_unit(rest, units).map_err(refused)?;
                units += 1;
                at += UNIT_SIZE;
            }
            REDESIGNATION_MARK => {
                designated = check_redesignation(rest, designated).map_err(refused)?;
                at += REDESIGNATION_SIZE;
            }
            BREAK_MARK => at += BREAK_SIZE,
            _ => return Err(refused(6)),
        }
    }
    Ok(units)
}

/// Ten times the count of each class of a unit; the last is the total.
fn tenths(unit: &[u8]) -> Tenths {
    let count = |place: usize| 10 * number(unit, COUNTS + 2 * place);
    let (critical, severe, major, minor) = (count(0), count(1), count(2), count(3));
    [critical, severe, major, critical + severe + major + minor]
}

/// Every CuSum of a grade's plan at its S, or at zero where the grade has none.
fn starts(table: &Table, grade: u8) -> Tenths {
    match table.get(usize::from(grade)) {
        Some([critical, severe, major, total]) => {
            [critical.start, severe.start, major.start, total.start]
        }
        None => [0; CLASSES],
    }
}

/// The best grade below this one whose T+L no count exceeds.
fn best_lower(table: &Table, grade: u8, tenths: Tenths) -> u8 {
    let admits = |row: &Row| {
        (0..CLASSES).all(|class| tenths[class] <= row[class].tolerance + row[class].limit)
    };
    (grade + 1..SUBSTANDARD)
        .find(|&lower| admits(&table[usize::from(lower)]))
        .unwrap_or(SUBSTANDARD)
}

/// Takes the CuSums past a unit under a plan: whether it fails, and its overshoots.
fn step(cusums: &mut Tenths, row: &Row, tenths: Tenths) -> (bool, Tenths) {
    let (mut any, mut overshoots) = (0, [0; CLASSES]);
    for class in 0..CLASSES {
        let Numbers { tolerance, limit, .. } = row[class];
        // Zero in place of a raw value below it, which is not above L either.
        let raw = (cusums[class] + tenths[class] - tolerance).max(0);
        cusums[class] = raw.min(limit);
        overshoots[class] = raw - cusums[class];
        any |= overshoots[class];
    }
    (any != 0, overshoots)
}

/// Where the grading stands before a record. The table, which is indexed, is not a part of it, so
/// that all of it can be kept in registers.
struct State {
    designated: u8,
    /// The grade whose plan is in force in step 3; none outside it.
    lower: Option<u8>,
    /// In step 3: qualifying units in a row.
    run: usize,
    /// The defect grade of the unit just before, if it failed the plan in force and none started
    /// behind it.
    previous: Option<u8>,
    cusums: Tenths,
}

impl State {
    fn in_force(&self) -> u8 {
        self.lower.unwrap_or(self.designated)
    }

    /// The CuSums begin anew under the plan in force.
    fn restart(&mut self, table: &Table) {
        self.cusums = starts(table, self.in_force());
        (self.previous, self.run) = (None, 0);
    }

    fn redesignate(&mut self, table: &Table, new: u8) {
        self.designated = new;
        if self.lower.is_some_and(|lower| new < lower) {
            (self.previous, self.run) = (None, 0);
        } else {
            self.lower = None;
            self.restart(table);
        }
    }

    /// Behind a unit that failed with this defect grade: the second of two in a row starts a lower plan.
    fn failed(&mut self, table: &Table, grade: u8) {
        match self.previous {
            Some(earlier) => {
                self.lower = Some(earlier.max(grade));
                self.restart(table);
            }
            None => self.previous = Some(grade),
        }
    }

    /// Whether a unit of step 3 qualifies, the CuSums being those after it.
    fn qualifies(&self, table: &Table, tenths: Tenths) -> bool {
        let designated = &table[usize::from(self.designated)];
        self.cusums == [0; CLASSES]
            && (0..CLASSES).all(|class| tenths[class] <= designated[class].tolerance)
    }

    /// Grades a unit under the designated plan into its result record.
    fn grade_designated(&mut self, table: &Table, unit: &[u8], record: &mut [u8]) {
        let (plan, tenths) = (self.designated, tenths(unit));
        let (fails, overshoots) = step(&mut self.cusums, &table[usize::from(plan)], tenths);
        if !fails {
            write(record, unit, plan, plan, MET, self.cusums, [0; CLASSES]);
            self.previous = None;
            return;
        }
        let grade = best_lower(table, plan, tenths);
        write(record, unit, grade, plan, FAILED, self.cusums, overshoots);
        self.failed(table, grade);
    }

    /// Grades a unit in step 3, under the plan of a lower grade, into its result record, not
    /// recovered: whether step 3 ends at it.
    fn grade_step_three(
        &mut self,
        table: &Table,
        lower: u8,
        unit: &[u8],
        record: &mut [u8],
    ) -> bool {
        let tenths = tenths(unit);
        let (fails, overshoots) = match table.get(usize::from(lower)) {
            Some(row) => step(&mut self.cusums, row, tenths),
            None => (false, [0; CLASSES]),
        };
        let grade = if fails { best_lower(table, lower, tenths) } else { lower };
        write(record, unit, grade, lower, IN_STEP_THREE, self.cusums, overshoots);
        if fails {
            // Such a unit does not qualify.
            self.run = 0;
            self.failed(table, grade);
            return false;
        }
        self.previous = None;
        self.run = if self.qualifies(table, tenths) { self.run + 1 } else { 0 };
        let ends = self.run == QUALIFYING;
        if ends {
            self.lower = None;
            self.restart(table);
        }
        ends
    }
}

/// Writes the result record of a unit that is not recovered, all but the code grade.
fn write(
    record: &mut [u8],
    unit: &[u8],
    grade: u8,
    plan: u8,
    standing: u8,
    cusums: Tenths,
    overshoots: Tenths,
) {
    record[..2].copy_from_slice(&RESULT_MARK);
    record[RESULT_CODE..RESULT_CODE + 2].copy_from_slice(&unit[CODE..CODE + 2]);
    record[RESULT_PORTION_GRADE] = grade.max(unit[PREREQUISITE]);
    record[RESULT_PLAN_GRADE] = plan;
    record[RESULT_STANDING] = standing;
    let mut put = |at: usize, word: u64| record[at..at + 8].copy_from_slice(&word.to_be_bytes());
    let [critical, severe, major, total] = cusums;
    put(
        RESULT_CRITICAL,
        (critical as u64) << 48 | (severe as u64) << 32 | (major as u64) << 16 | total as u64,
    );
    let [critical, severe, major, total] = overshoots;
    put(RESULT_CRITICAL_OVERSHOOT, (critical as u64) << 32 | severe as u64);
    put(RESULT_MAJOR_OVERSHOOT, (major as u64) << 32 | total as u64);
}

/// Recovers the last of these units, as many as end step 3, in the last of these records.
fn recover(units: &[u8], designated: u8, records: &mut [u8]) {
    let units = units.rchunks_exact(UNIT_SIZE);
    for (unit, record) in units.zip(records.rchunks_exact_mut(RESULT_SIZE)).take(QUALIFYING) {
        if unit[RECOVERABLE] == 1 {
            record[RESULT_PORTION_GRADE] = designated.max(unit[PREREQUISITE]);
            record[RESULT_STANDING] = RECOVERED;
        }
    }
}

/// Grades a sheet that was not refused into its result records, all but the code grades.
fn write_records(sheet: &[u8], table: &Table, results: &mut [u8]) {
    let mut state = State {
        designated: sheet[GRADE],
        lower: None,
        run: 0,
        previous: None,
        cusums: [0; CLASSES],
    };
    state.restart(table);
    let (mut at, mut written) = (PLAN_SIZE, 0);
    while at < sheet.len() {
        if sheet[at] == UNIT_MARK[0] {
            let unit = &sheet[at..at + UNIT_SIZE];
            let record = &mut results[written..written + RESULT_SIZE];
            at += UNIT_SIZE;
            written += RESULT_SIZE;
            match state.lower {
                None => state.grade_designated(table, unit, record),
                Some(lower) => {
                    if state.grade_step_three(table, lower, unit, record) {
                        recover(&sheet[..at], state.designated, &mut results[..written]);
                    }
                }
            }
        } else if sheet[at] == REDESIGNATION_MARK[0] {
            state.redesignate(table, sheet[at + GRADE]);
            at += REDESIGNATION_SIZE;
        } else {
            state.restart(table);
            at += BREAK_SIZE;
        }
    }
}

/// Grades a sheet into a result buffer, all but the code grades: the number of units, or the number
/// and the offset of a refusal.
fn grade_units(sheet: &[u8], results: &mut [u8]) -> Result<usize, (u32, usize)> {
    let table = check_plan(sheet).map_err(|number| (number, 0))?;
    let units = check_records(sheet)?;
    let records = results.get_mut(..RESULT_SIZE * units).ok_or((13, sheet.len()))?;
    write_records(sheet, &table, records);
    Ok(units)
}

/// What is answered of a sheet with so many units, or refused by a number at an offset.
fn answer(sheet: &[u8], graded: Result<usize, (u32, usize)>) -> Answer {
    match graded {
        Ok(units) => (0, units, sheet.len()),
        Err((number, offset)) => (number, 0, offset),
    }
}

/// Grades a sheet into a result buffer, all but the code grades, which stay as they were.
pub fn grade_but_codes(sheet: &[u8], results: &mut [u8]) -> Answer {
    answer(sheet, grade_units(sheet, results))
}

/// The grader with its table: the worst portion grade by code, zero between sheets.
pub struct Tuned {
    worst: Box<[u8; 1 << u16::BITS]>,
}

impl Tuned {
    pub fn new() -> Tuned {
        Tuned { worst: Box::new([0; 1 << u16::BITS]) }
    }

    /// Grades a sheet into a result buffer.
    pub fn grade(&mut self, sheet: &[u8], results: &mut [u8]) -> Answer {
        let answer = grade_but_codes(sheet, results);
        self.grade_codes(&mut results[..RESULT_SIZE * answer.1]);
        answer
    }

    fn grade_codes(&mut self, records: &mut [u8]) {
        for record in records.chunks_exact(RESULT_SIZE) {
            self.take_in(record);
        }
        self.write_code_grades(records);
    }

    /// Takes the portion grade of a record into the table.
    fn take_in(&mut self, record: &[u8]) {
        let worst = &mut self.worst[number(record, RESULT_CODE) as usize];
        *worst = record[RESULT_PORTION_GRADE].max(*worst);
    }

    /// Writes the worst grade of each code, and clears the table.
    fn write_code_grades(&mut self, records: &mut [u8]) {
        fn code(record: &[u8]) -> usize {
            number(record, RESULT_CODE) as usize
        }
        for record in records.chunks_exact_mut(RESULT_SIZE) {
            record[RESULT_CODE_GRADE] = self.worst[code(record)];
        }
        for record in records.chunks_exact(RESULT_SIZE) {
            self.worst[code(record)] = 0;
        }
    }

    /// Regrades a sheet under a second plan into a result buffer.
    pub fn regrade(&mut self, sheet: &[u8], plan: &[u8], results: &mut [u8]) -> Answer {
        answer(sheet, self.regrade_units(sheet, plan, results))
    }

    /// The number of units, or the number and the offset of a refusal.
    fn regrade_units(
        &mut self,
        sheet: &[u8],
        plan: &[u8],
        results: &mut [u8],
    ) -> Result<usize, (u32, usize)> {
        check_plan(sheet).map_err(|number| (number, 0))?;
        let units = check_records(sheet)?;
        let second = if plan.len() == PLAN_SIZE { check_plan(plan) } else { Err(1) };
        let table = second.map_err(|_| (18, 0))?;
        let records = results.get_mut(..RESULT_SIZE * units).ok_or((13, sheet.len()))?;
        self.write_regraded(sheet, &table, plan[GRADE], records);
        self.write_code_grades(records);
        Ok(units)
    }

    /// Regrades a sheet that was not refused into its result records, all but the code grades, and
    /// takes the portion grades into the table.
    fn write_regraded(&mut self, sheet: &[u8], table: &Table, plan: u8, results: &mut [u8]) {
        let (row, start) = (table[usize::from(plan)], starts(table, plan));
        let mut cusums = start;
        let mut records = results.chunks_exact_mut(RESULT_SIZE);
        let mut rest = &sheet[PLAN_SIZE..];
        while let Some(&mark) = rest.first() {
            if mark == UNIT_MARK[0] {
                let (unit, behind) = rest.split_at(UNIT_SIZE);
                let record = records.next().expect("a record for each unit");
                rest = behind;
                let tenths = tenths(unit);
                let (fails, overshoots) = step(&mut cusums, &row, tenths);
                // Each writes for itself, as the overshoots of a unit that meets are known.
                if fails {
                    let grade = best_lower(table, plan, tenths);
                    write(record, unit, grade, plan, FAILED, cusums, overshoots);
                } else {
                    write(record, unit, plan, plan, MET, cusums, [0; CLASSES]);
                }
                self.take_in(record);
            } else if mark == REDESIGNATION_MARK[0] {
                rest = &rest[REDESIGNATION_SIZE..];
            } else {
                cusums = start;
                rest = &rest[BREAK_SIZE..];
            }
        }
    }
}

/// Offset of the positive fields in a unit of a mold sheet.
const POSITIVE_FIELDS: usize = 4;

/// S, T and L of each level row of mold sheets, in whole fields.
const LEVELS: [[i32; 3]; 6] = [[0, 1, 1], [1, 2, 3], [0, 3, 2], [1, 3, 3], [0, 5, 2], [1, 6, 3]];

/// Refusals 1 and 16 of a mold sheet; else S, T and L of its level row.
fn check_opening(sheet: &[u8]) -> Result<Numbers, u32> {
    let &[0x4D, 0x44, row, ..] = sheet else { return Err(1) };
    let &[start, tolerance, limit] = LEVELS.get(usize::from(row)).ok_or(16u32)?;
    Ok(Numbers { start: 10 * start, tolerance: 10 * tolerance, limit: 10 * limit })
}

/// Refusals 6, 7, 12 and 17 of the records of a mold sheet, each with its offset; else the number of
/// units.
fn check_mold_units(sheet: &[u8]) -> Result<usize, (u32, usize)> {
    let records = &sheet[MOLD_OPENING_SIZE..];
    for (unit, record) in records.chunks(MOLD_UNIT_SIZE).enumerate() {
        let number = match record {
            [0x4D, 0x55, _, _, _] if unit == MOST_UNITS => 12,
            [0x4D, 0x55, _, _, fields] if *fields > MOST_POSITIVE_FIELDS => 17,
            [0x4D, 0x55, _, _, _] => continue,
            [0x4D, 0x55, ..] => 7,
            _ => 6,
        };
        return Err((number, MOLD_OPENING_SIZE + MOLD_UNIT_SIZE * unit));
    }
    Ok(records.len() / MOLD_UNIT_SIZE)
}

/// Grades a mold sheet into a result buffer: the number of units, or the number and the offset of a
/// refusal.
fn grade_mold_units(sheet: &[u8], results: &mut [u8]) -> Result<usize, (u32, usize)> {
    let level = check_opening(sheet).map_err(|number| (number, 0))?;
    let units = check_mold_units(sheet)?;
    let results = results.get_mut(..MOLD_RESULT_SIZE * units).ok_or((13, sheet.len()))?;
    let records = sheet[MOLD_OPENING_SIZE..].chunks_exact(MOLD_UNIT_SIZE);
    let mut cusum = level.start;
    for (record, result) in records.zip(results.chunks_exact_mut(MOLD_RESULT_SIZE)) {
        let raw = (cusum + 10 * i32::from(record[POSITIVE_FIELDS]) - level.tolerance).max(0);
        cusum = raw.min(level.limit);
        let [high, low] = (cusum as u16).to_be_bytes();
        result.copy_from_slice(&[0x4D, 0x52, u8::from(raw == cusum), high, low]);
    }
    Ok(units)
}

/// Grades a mold sheet into a result buffer.
pub fn grade_mold(sheet: &[u8], results: &mut [u8]) -> Answer {
    answer(sheet, grade_mold_units(sheet, results))
}

/// So many records are looked at in a loop of fixed length, which made a look-up faster.
const BLOCK: usize = 8;

/// What a look-up has found so far.
struct Found {
    code: [u8; 2],
    /// The best grade that is worse than all those of the code so far.
    worse: u8,
    answer: Answer,
}

impl Found {
    /// Whether a record is of the code, and worse than all before it.
    fn is_worse(&self, record: &[u8]) -> bool {
        [record[RESULT_CODE], record[RESULT_CODE + 1]] == self.code
            && record[RESULT_PORTION_GRADE] >= self.worse
    }

    /// Takes in such a record, at this offset: whether it ends the reading.
    fn take_in(&mut self, record: &[u8], offset: usize) -> bool {
        self.answer = (0, offset, RESULT_SIZE);
        self.worse = record[RESULT_PORTION_GRADE].saturating_add(1);
        self.worse > SUBSTANDARD
    }
}

/// Finds the first record of the worst portion grade of a code in results: number, offset and length.
pub fn find(results: &[u8], code: u16) -> Answer {
    if !results.len().is_multiple_of(RESULT_SIZE) {
        return (19, 0, 0);
    }
    let mut found = Found { code: code.to_be_bytes(), worse: 0, answer: (1, 0, 0) };
    let (blocks, rest) = results.as_chunks::<{ BLOCK * RESULT_SIZE }>();
    let mut offset = 0;
    for block in blocks {
        for place in 0..BLOCK {
            let at = RESULT_SIZE * place;
            let record = &block[at..at + RESULT_SIZE];
            if found.is_worse(record) && found.take_in(record, offset + at) {
                return found.answer;
            }
        }
        offset += block.len();
    }
    for record in rest.chunks_exact(RESULT_SIZE) {
        if found.is_worse(record) && found.take_in(record, offset) {
            break;
        }
        offset += RESULT_SIZE;
    }
    found.answer
}

/// The AQLs that are listed, in tenths, each with its acceptance numbers at 6, 13, 21 and 29 sample units.
const ACCEPTANCE_NUMBERS: [(usize, [u8; 4]); 6] = [
    (10, [1, 2, 3, 4]),
    (15, [1, 3, 4, 5]),
    (25, [3, 4, 6, 8]),
    (40, [4, 6, 9, 11]),
    (50, [4, 7, 11, 14]),
    (125, [8, 15, 22, 29]),
];

/// A power of two above all AQLs that are listed.
const AQLS: usize = 128;

/// The acceptance number by sample units and AQL; 0, which none is, where the AQL is not listed.
const NUMBERS: [[u8; AQLS]; 4] = {
    let mut numbers = [[0; AQLS]; 4];
    let mut place = 0;
    while place < 4 * ACCEPTANCE_NUMBERS.len() {
        let (aql, row) = ACCEPTANCE_NUMBERS[place / 4];
        numbers[place % 4][aql] = row[place % 4];
        place += 1;
    }
    numbers
};

/// Offsets in a lot.
const LOT_SAMPLE_UNITS: usize = 2;
const LOT_AQLS: usize = 3;
const LOT_COUNTS: usize = 27;
const LOT_PREREQUISITE: usize = 35;

/// Refusals of a lot; else its grade.
fn lot_grade(lot: &[u8]) -> Result<u8, u32> {
    let [0x4C, 0x54, ..] = lot else { return Err(6) };
    let lot: &[u8; LOT_SIZE] = lot.try_into().map_err(|_| 7u32)?;
    let two = |at: usize| u16::from_be_bytes([lot[at], lot[at + 1]]);
    let numbers = &NUMBERS[match lot[LOT_SAMPLE_UNITS] {
        6 => 0,
        13 => 1,
        21 => 2,
        29 => 3,
        _ => return Err(20),
    }];

    let mut aqls = [0; PLANS * CLASSES];
    let mut accepted = [0; PLANS * CLASSES];
    let (mut any, mut unlisted) = (0, false);
    for cell in 0..PLANS * CLASSES {
        aqls[cell] = two(LOT_AQLS + 2 * cell);
        any |= aqls[cell];
        accepted[cell] = numbers[usize::from(aqls[cell]) % AQLS];
        unlisted |= accepted[cell] == 0;
    }
    if unlisted || usize::from(any) >= AQLS {
        return Err(21);
    }
    let mut falls = false;
    for cell in CLASSES..PLANS * CLASSES {
        falls |= aqls[cell] < aqls[cell - CLASSES];
    }
    if falls {
        return Err(22);
    }

    let count = |kind: usize| two(LOT_COUNTS + 2 * kind);
    let (critical, severe, major, minor) = (count(0), count(1), count(2), count(3));
    if critical.max(severe).max(major).max(minor) > 2_000 {
        return Err(8);
    }
    let prerequisite = lot[LOT_PREREQUISITE];
    if prerequisite > SUBSTANDARD {
        return Err(9);
    }
    let counts = [critical, severe, major, critical + severe + major + minor];
    // As no AQL falls, those that do not admit are the first ones.
    let mut grade = 0;
    for row in accepted.chunks_exact(CLASSES) {
        let mut above = false;
        for class in 0..CLASSES {
            above |= counts[class] > u16::from(row[class]);
        }
        grade += u8::from(above);
    }
    Ok(prerequisite.max(grade))
}

/// Grades a lot, into no buffer: number, grade and offset.
pub fn grade_lot(lot: &[u8], _: &mut [u8]) -> Answer {
    match lot_grade(lot) {
        Ok(grade) => (0, grade.into(), 0),
        Err(number) => (number, SUBSTANDARD.into(), 0),
    }
}
