//! Seeded random sheets: valid ones that go in and out of step 3, damaged ones for every refusal
//! number from 1 to 13, messy ones, ones for overshoots, ones for falls, and monotone pairs; and
//! counts of what happened in them.

use crate::check::{first_two_in_a_row, stretches_of_failures};
use crate::rules::{self, Event, Graded, Row, Stage, What};
use crate::rules::{FAILED, IN_STEP_3, RECOVERED, RESULT_SIZE};
use crate::sheet::{Numbers, Record, Sheet, Table, Unit, MOST_UNITS, SUBSTANDARD};
use std::ops::Range;

/// Room for the result records of any sheet.
pub const MOST_ROOM: usize = RESULT_SIZE * MOST_UNITS;

/// A small generator of random numbers (splitmix64), with its seed.
pub struct Dice(pub u64);

impl Dice {
    pub fn below(&mut self, end: usize) -> usize {
        self.0 = self.0.wrapping_add(0x9E37_79B9_7F4A_7C15);
        let z = (self.0 ^ (self.0 >> 30)).wrapping_mul(0xBF58_476D_1CE4_E5B9);
        let z = (z ^ (z >> 27)).wrapping_mul(0x94D0_49BB_1331_11EB);
        ((z ^ (z >> 31)) % end as u64) as usize
    }

    /// From `low` to `high`, both included.
    pub fn between(&mut self, low: i64, high: i64) -> i64 {
        low + self.below((high - low) as usize + 1) as i64
    }

    pub fn chance(&mut self, percent: usize) -> bool {
        self.below(100) < percent
    }

    pub fn pick<T: Copy>(&mut self, from: &[T]) -> T {
        from[self.below(from.len())]
    }
}

/// A table of S, T, L from plain tenths.
pub fn table(tenths: [[[i64; 3]; 4]; 3]) -> Table {
    tenths.map(|grade| grade.map(|[s, t, l]| Numbers { s, t, l }))
}

/// The peach plan of paper 01.
pub const PEACH: [[[i64; 3]; 4]; 3] = [
    [[0, 5, 5], [5, 15, 20], [10, 30, 30], [10, 60, 40]],
    [[0, 10, 10], [10, 30, 30], [10, 50, 30], [20, 120, 50]],
    [[10, 20, 20], [10, 50, 30], [10, 60, 40], [20, 170, 70]],
];

/// A recoverable unit with prerequisite A.
pub fn counted(code: u16, counts: [i64; 4]) -> Record {
    Record::Unit(Unit { code, counts, prerequisite: 0, recoverable: true })
}

impl Record {
    pub fn bytes(&self) -> Vec<u8> {
        match *self {
            Record::Unit(Unit { code, counts, prerequisite, recoverable }) => {
                let [a, b, c, d] = counts.map(|count| count as u16);
                let numbers = [0x5355, code, a, b, c, d].map(u16::to_be_bytes);
                [&numbers.concat()[..], &[prerequisite, u8::from(recoverable)]].concat()
            }
            Record::Redesignation(new) => vec![0x52, 0x44, new],
            Record::Break => vec![0x42, 0x4B],
        }
    }
}

impl Sheet {
    pub fn bytes(&self) -> Vec<u8> {
        let numbers = self.table.iter().flatten().flat_map(|n| [n.s, n.t, n.l]);
        let mut bytes = vec![0x50, 0x4C, self.designated];
        bytes.extend(numbers.flat_map(|number| (number as u16).to_be_bytes()));
        bytes.extend(self.records.iter().flat_map(Record::bytes));
        bytes
    }

    /// The offset of the mark of a record, or the sheet's length.
    pub fn offset(&self, record: usize) -> usize {
        75 + self.records[..record].iter().map(|record| record.bytes().len()).sum::<usize>()
    }

    pub fn units(&self) -> usize {
        self.records.iter().filter(|record| matches!(record, Record::Unit(_))).count()
    }

    /// The grade designated just before a record.
    pub fn designated_before(&self, record: usize) -> u8 {
        self.records[..record].iter().fold(self.designated, |now, record| match record {
            Record::Redesignation(new) => *new,
            _ => now,
        })
    }

    /// Gives the sheet at least so many units.
    pub fn fill(&mut self, units: usize) {
        for code in self.units() as u16..units as u16 {
            self.records.push(counted(code, [0, 0, 1, 2]));
        }
    }
}

/// A plan that breaks none of the rules; mostly in the range of the manual's plans.
pub(crate) fn plan(dice: &mut Dice) -> Table {
    let mut tenths = PEACH;
    if dice.chance(10) {
        return table(tenths);
    }
    let steps = if dice.chance(8) { [3_333; 4] } else { [15, 20, 25, 60] };
    for (class, step) in steps.into_iter().enumerate() {
        let (mut t, mut limit) = (0, 0);
        for grade in &mut tenths {
            t += if dice.chance(5) { step } else { dice.between(0, step) };
            limit = (limit + dice.between(step / 4, 2 * step)).clamp(t, t + 9_999);
            let l = limit - t;
            grade[class] = [if dice.chance(10) { l } else { dice.between(0, l) }, t, l];
        }
    }
    table(tenths)
}

/// What a unit is to be like: within the designated T of every class; near T or T+L in one class;
/// failing the designated plan to this defect grade, if there is such a count; or anything.
#[derive(Clone, Copy)]
pub(crate) enum Mood {
    Clean,
    Edge,
    FailsTo(u8),
    Anything,
}

pub(crate) fn unit(dice: &mut Dice, draft: &mut Sheet, mood: Mood) {
    let designated = draft.table[usize::from(draft.designated_before(draft.records.len()))];
    let mut counts = counts_within(dice, designated);
    // The fourth place is total as a class and minor as a count.
    let class = dice.below(4);
    let Numbers { t, l, .. } = designated[class];
    let limit = draft.table.map(|grade| (grade[class].t + grade[class].l) / 10);
    match mood {
        Mood::Clean => {}
        Mood::Edge => counts[class] = dice.pick(&[t, t + l, l]) / 10 + dice.between(0, 2),
        Mood::FailsTo(grade) => {
            let least = if grade < 3 { (t + l) / 10 } else { limit[2] } + 1;
            let most = limit.get(usize::from(grade)).map_or(least + 2, |&limit| limit.max(least));
            counts = [0; 4];
            counts[class] = dice.between(least, most);
        }
        Mood::Anything => {
            let most = dice.pick(&[1, 3, 8, 20, 2_000]);
            counts = counts.map(|_| dice.between(0, most));
        }
    }
    push_unit(dice, draft, counts);
}

/// Counts within T of every class, half of them none.
pub(crate) fn counts_within(dice: &mut Dice, plan: [Numbers; 4]) -> [i64; 4] {
    let mut counts = [0; 4];
    let mut left = if dice.chance(50) { plan[3].t / 10 } else { 0 };
    for class in 0..4 {
        counts[class] = dice.between(0, left.min(plan[class].t / 10));
        left -= counts[class];
    }
    counts
}

/// A unit with these counts, or 2,000 where they are above it.
pub(crate) fn push_unit(dice: &mut Dice, draft: &mut Sheet, counts: [i64; 4]) {
    let next = draft.units() as u16;
    draft.records.push(Record::Unit(Unit {
        code: dice.pick(&[next, next, next / 2, next / 4, 1, 2, 3, 0, 256, u16::MAX]),
        counts: counts.map(|count| count.min(2_000)),
        prerequisite: dice.pick(&[0, 0, 0, 0, 0, 0, 0, 1, 2, 3]),
        recoverable: dice.chance(60),
    }));
}

fn failure(dice: &mut Dice, draft: &mut Sheet) {
    // Better grades come more often, as the worse of two decides.
    let designated = draft.designated_before(draft.records.len());
    let grade = dice.pick(&[1, 1, 1, 2, 2, 3]).max(designated + 1);
    unit(dice, draft, Mood::FailsTo(grade));
}

/// A break or a redesignation now and then.
pub(crate) fn perhaps_parted(
    dice: &mut Dice,
    draft: &mut Sheet,
    percent: usize,
    redesignations: bool,
) {
    if dice.chance(percent) {
        draft.records.push(Record::Break);
    }
    if redesignations && dice.chance(percent) {
        let new = (draft.designated_before(draft.records.len()) + dice.pick(&[1, 2])) % 3;
        draft.records.push(Record::Redesignation(new));
    }
}

/// A valid sheet of at most 1,000 units, sometimes none. A calm one never fails two in a row, as
/// every unit that may fail is followed by a clean one.
pub fn draft(dice: &mut Dice, redesignations: bool, calm: bool) -> Sheet {
    let (table, designated) = (plan(dice), dice.pick(&[0, 0, 0, 1, 1, 2]));
    let mut draft = Sheet { designated, table, records: Vec::new() };
    let passages = if dice.chance(1) { 300 } else { dice.pick(&[0, 1, 2, 3, 5, 8, 12]) };
    for _ in 0..passages {
        let kind = dice.below(10);
        if kind < 5 && !calm {
            // Two failures, and a way out of step 3.
            failure(dice, &mut draft);
            perhaps_parted(dice, &mut draft, 4, redesignations);
            failure(dice, &mut draft);
            perhaps_parted(dice, &mut draft, 5, redesignations);
            for _ in 0..dice.between(2, 9) {
                let edgy = dice.chance(8);
                unit(dice, &mut draft, if edgy { Mood::Edge } else { Mood::Clean });
                perhaps_parted(dice, &mut draft, 6, redesignations);
            }
        } else if kind < 7 {
            failure(dice, &mut draft);
            perhaps_parted(dice, &mut draft, 50, redesignations);
        } else {
            let mood = dice.pick(&[Mood::Clean, Mood::Edge, Mood::Anything]);
            unit(dice, &mut draft, mood);
        }
        if calm {
            unit(dice, &mut draft, Mood::Clean);
        }
    }
    while draft.units() > 1_000 {
        draft.records.pop();
    }
    draft
}

/// Where the raw value of a class is to lie above L: at it, a tenth over, and over by the largest and
/// the next number of one byte and of two.
const ABOVE: [i64; 6] = [0, 1, 255, 256, 65_535, 65_536];

/// A plan as [`plan`] makes it, but with each S, if its L allows, such that some count takes the raw
/// value from there to one of [`ABOVE`].
pub(crate) fn plan_to_the_tenth(dice: &mut Dice) -> Table {
    let mut table = plan(dice);
    for Numbers { s, t, l } in table.iter_mut().flatten() {
        let least = (*t + *l + dice.pick(&ABOVE)) % 10;
        if least <= *l {
            *s = least + 10 * dice.between(0, (*l - least) / 10);
        }
    }
    table
}

/// How far over a unit is to be under the plan in force: around L in one class, or in every class; or
/// so far that the overshoot in total is around the largest number of two bytes, or above it.
#[derive(Clone, Copy)]
pub(crate) enum Over {
    OneClass,
    EveryClass,
    Far,
}

fn over(dice: &mut Dice, draft: &mut Sheet, how: Over) {
    let graded = rules::grade_portions(draft);
    let counts = counts_over(dice, &graded, how);
    push_unit(dice, draft, counts);
}

/// The counts of such a unit behind a sheet, as graded or regraded.
pub(crate) fn counts_over(dice: &mut Dice, graded: &Graded, how: Over) -> [i64; 4] {
    let mut counts = [0; 4];
    if let Over::Far = how {
        let least = dice.pick(&[1_500, 1_900, 2_000]);
        counts = counts.map(|_| dice.between(least, 2_000));
    }
    // Without a plan there is no L: counts go by C.
    let plan = graded.table[usize::from(graded.next_plan.min(2))];
    let class_alone = dice.below(4);
    for (class, Numbers { t, l, .. }) in plan.into_iter().enumerate() {
        let above = match how {
            Over::OneClass if class == class_alone => dice.pick(&ABOVE[..4]),
            Over::EveryClass => dice.pick(&[0, 1, 10, 255, 256, 300]),
            Over::Far if class == 3 && dice.chance(60) => dice.pick(&ABOVE[4..]),
            _ => continue,
        };
        // The fourth place is total as a class and minor as a count.
        let others: i64 = if class == 3 { counts[..3].iter().sum() } else { 0 };
        let defects = (t + l + above - graded.next_cusums[class]).max(0);
        counts[class] = ((defects + 9) / 10 - others).max(0);
    }
    counts
}

/// A valid sheet of few units, around L and far over it, under the designated plan, a lower one and
/// none. A calm one never fails two in a row, as in [`draft`].
pub(crate) fn draft_over(dice: &mut Dice, redesignations: bool, calm: bool) -> Sheet {
    let (table, designated) = (plan_to_the_tenth(dice), dice.pick(&[0, 0, 0, 1, 1, 2]));
    let mut draft = Sheet { designated, table, records: Vec::new() };
    for _ in 0..dice.between(1, 5) {
        if dice.chance(40) && !calm {
            failure(dice, &mut draft);
            failure(dice, &mut draft);
        }
        for _ in 0..dice.between(1, 3) {
            let how = dice.pick(&[Over::OneClass, Over::OneClass, Over::EveryClass, Over::Far]);
            over(dice, &mut draft, how);
            perhaps_parted(dice, &mut draft, 15, redesignations);
            if calm || dice.chance(20) {
                unit(dice, &mut draft, Mood::Clean);
            }
        }
        for _ in 0..dice.pick(&[0, 0, 1, 3]) {
            unit(dice, &mut draft, Mood::Clean);
        }
    }
    draft
}

/// A plan whose grades lie apart in every class: some count fails a grade and is admitted by the next
/// lower one, and some is not. S is mostly within T, so that a unit without defects qualifies right
/// after a start.
pub(crate) fn plan_in_steps(dice: &mut Dice) -> Table {
    let mut tenths = PEACH;
    // A grade that admits a count in its own class admits it in total.
    let steps = [(15, 20, 30), (20, 20, 40), (25, 20, 50), (60, 60, 120)];
    for (class, (most_t, least_gap, most_gap)) in steps.into_iter().enumerate() {
        let (mut t, mut limit) = (0, 0);
        for grade in &mut tenths {
            t += dice.between(5, most_t);
            limit = (limit + dice.between(least_gap, most_gap)).max(t);
            let l = limit - t;
            let most_s = if dice.chance(85) { l.min(t) } else { l };
            grade[class] = [dice.between(0, most_s), t, l];
        }
    }
    table(tenths)
}

/// A unit that fails the plan in force in one class (without a plan it goes by C): from any CuSums and
/// to some lower grade, or by as little as it can from the CuSums that there are.
pub(crate) fn failure_in_force(dice: &mut Dice, draft: &mut Sheet) {
    let graded = rules::grade_portions(draft);
    let counts = counts_failing(dice, &graded);
    push_unit(dice, draft, counts);
}

/// The counts of such a unit behind a sheet, as graded or regraded.
pub(crate) fn counts_failing(dice: &mut Dice, graded: &Graded) -> [i64; 4] {
    let (plan, class) = (graded.next_plan.min(2), dice.below(4));
    let numbers = graded.table.map(|grade| grade[class]);
    let limit = numbers.map(|Numbers { t, l, .. }| (t + l) / 10);
    let mut counts = [0; 4];
    counts[class] = if dice.chance(25) {
        let Numbers { t, l, .. } = numbers[usize::from(plan)];
        (t + l - graded.next_cusums[class]) / 10 + 1
    } else {
        // The next lower grade comes more often, as the worse of two decides.
        let grade = (plan + dice.pick(&[1, 1, 1, 1, 1, 1, 2, 3])).min(SUBSTANDARD);
        let least = limit[usize::from(grade) - 1] + 1;
        let most = limit.get(usize::from(grade)).map_or(least + 2, |&limit| limit.max(least));
        dice.between(least, most)
    };
    counts
}

/// A unit without defects: in step 3 it qualifies if it takes the CuSums to zero.
fn spotless(dice: &mut Dice, draft: &mut Sheet) {
    push_unit(dice, draft, [0; 4]);
}

/// A valid sheet on which step 3 begins, and then one to four units in a row fail the plan in force,
/// time and again, behind runs of none to two qualifying units, with breaks, redesignations and units
/// that meet between them and right behind them, until there is no plan; and ways out of step 3.
pub(crate) fn draft_lower_plans(dice: &mut Dice) -> Sheet {
    let (table, designated) = (plan_in_steps(dice), dice.pick(&[0, 0, 0, 0, 1, 1, 2]));
    let mut draft = Sheet { designated, table, records: Vec::new() };
    for _ in 0..dice.between(1, 3) {
        failure_in_force(dice, &mut draft);
        failure_in_force(dice, &mut draft);
        perhaps_parted(dice, &mut draft, 6, true);
        for _ in 0..dice.between(1, 4) {
            for _ in 0..dice.pick(&[0, 0, 0, 1, 2]) {
                spotless(dice, &mut draft);
            }
            for _ in 0..dice.pick(&[1, 2, 2, 2, 3, 4]) {
                failure_in_force(dice, &mut draft);
                match dice.below(14) {
                    0 => draft.records.push(Record::Break),
                    1 | 2 => {
                        let designated = draft.designated_before(draft.records.len());
                        let new = (designated + dice.pick(&[1, 2])) % 3;
                        draft.records.push(Record::Redesignation(new));
                    }
                    3 => spotless(dice, &mut draft),
                    _ => {}
                }
            }
            if rules::grade_portions(&draft).next_plan == SUBSTANDARD {
                break;
            }
        }
        for _ in 0..dice.pick(&[0, 1, 3, 4, 6]) {
            unit(dice, &mut draft, Mood::Clean);
        }
    }
    draft
}

/// Damages the bytes of a draft (with a unit; with 1,000 for number 12), so that they are refused
/// with this number, 1 to 12, if nothing else is wrong; returns the offset.
pub(crate) fn damage(dice: &mut Dice, draft: &Sheet, sheet: &mut Vec<u8>, number: u32) -> usize {
    fn put(sheet: &mut [u8], at: usize, value: u16) {
        sheet[at..at + 2].copy_from_slice(&value.to_be_bytes());
    }
    let two = |sheet: &[u8], at: usize| u16::from_be_bytes([sheet[at], sheet[at + 1]]);
    // Numbers 7, 8 and 9 need a record of some length, 6, 10 and 11 a place between records.
    let fit = |record: Option<&Record>| match number {
        7 => matches!(record, Some(Record::Unit(_) | Record::Redesignation(_))),
        8 | 9 => matches!(record, Some(Record::Unit(_))),
        _ => true,
    };
    let mut at = dice.below(draft.records.len() + 1);
    while !fit(draft.records.get(at)) {
        at = dice.below(draft.records.len());
    }
    let offset = if number < 6 { 0 } else { draft.offset(at) };
    match number {
        1 if dice.chance(50) => sheet.truncate(dice.pick(&[0, 1, 2, 3, 40, 73, 74])),
        1 => sheet[dice.below(2)] ^= dice.pick(&[1, 2, 0x1C, 255]),
        2 => sheet[2] = dice.pick(&[3, 4, 128, 255]),
        3 => put(sheet, 3 + 2 * dice.below(36), dice.pick(&[10_000, 32_768, 65_535])),
        4 => {
            let place = 3 + 6 * dice.below(12);
            let l = two(sheet, place + 4).min(9_998);
            put(sheet, place, dice.pick(&[l + 1, 9_999]));
            put(sheet, place + 4, l);
        }
        5 => {
            // At a lower grade, T smaller with T+L not, or T+L smaller with T not.
            let place = 3 + 6 * dice.below(8);
            let [t, l] = [2, 4].map(|at| two(sheet, place + at).clamp(1, 9_998));
            let [lower_t, lower_l] = dice.pick(&[[t - 1, l + 1], [t, l - 1]]);
            for (at, value) in [(0, 0), (2, t), (4, l), (24, 0), (26, lower_t), (28, lower_l)] {
                put(sheet, place + at, value);
            }
        }
        6 if dice.chance(50) => {
            sheet.truncate(offset);
            sheet.push(dice.pick(&[0x53, 0x52, 0x42, 0x50, 0]));
        }
        6 => {
            let mark = dice.pick(&[[0x50, 0x4C], [0x53, 0x44], [0x42, 0x55], [0x47, 0x52]]);
            sheet.splice(offset..offset, mark);
        }
        7 => sheet.truncate(offset + 2 + dice.below(draft.records[at].bytes().len() - 2)),
        8 => put(sheet, offset + 4 + 2 * dice.below(4), dice.pick(&[2_001, 32_768, 65_535])),
        9 => sheet[offset + dice.pick(&[12, 13])] = dice.pick(&[4, 128, 255]),
        10 => drop(sheet.splice(offset..offset, [0x52, 0x44, dice.pick(&[3, 4, 128, 255])])),
        11 => drop(sheet.splice(offset..offset, [0x52, 0x44, draft.designated_before(at)])),
        _ => {
            // 12 goes before 8 and 9.
            let (critical, prerequisite) = dice.pick(&[(0, 0), (2_001, 0), (0, 9)]);
            let counts = [critical, 0, 0, 0];
            let unit = Unit { code: 9, counts, prerequisite, recoverable: false };
            sheet.extend(Record::Unit(unit).bytes());
            return sheet.len() - 14;
        }
    }
    offset
}

/// Bytes of a sheet, the length of its result buffer, and the expected number and offset if they are
/// known from the making (0 and the sheet's length if valid).
#[derive(Clone, Debug)]
pub struct Case {
    pub sheet: Vec<u8>,
    pub room: usize,
    pub expected: Option<(u32, usize)>,
}

/// A valid sheet for number 0 (a few with exactly 1,000 units), else one that is refused with this
/// number, 1 to 13, and no other.
pub fn expecting(dice: &mut Dice, number: u32) -> Case {
    let mut draft = draft(dice, true, false);
    let full = number == 12 || dice.chance(1);
    draft.fill(if full { 1_000 } else { number.min(1) as usize });
    expecting_of(dice, &draft, number)
}

/// As [`expecting`], of this draft (with a unit if the number is not 0; with 1,000 for number 12).
pub(crate) fn expecting_of(dice: &mut Dice, draft: &Sheet, number: u32) -> Case {
    let (mut sheet, needed) = (draft.bytes(), RESULT_SIZE * draft.units());
    let (room, offset) = match number {
        0 => (needed + dice.pick(&[0, 0, 1, RESULT_SIZE - 1, RESULT_SIZE, 100]), sheet.len()),
        13 => (dice.pick(&[0, needed / 2, needed - RESULT_SIZE, needed - 1]), sheet.len()),
        // 13 is checked last, so that the buffer may be short for the others.
        _ => (dice.pick(&[0, RESULT_SIZE, MOST_ROOM]), damage(dice, draft, &mut sheet, number)),
    };
    Case { sheet, room, expected: Some((number, offset)) }
}

/// Several damages at once, or bytes changed anywhere; what comes of it is not known beforehand.
pub fn messy(dice: &mut Dice) -> Case {
    let mut draft = draft(dice, true, false);
    draft.fill(1);
    let mut sheet = draft.bytes();
    for _ in 0..dice.below(3) {
        let number = dice.pick(&[2, 3, 4, 5, 8, 8, 9, 9, 10, 10, 11, 11, 12]);
        damage(dice, &draft, &mut sheet, number);
    }
    change_bytes(dice, &mut sheet);
    let room = dice.pick(&[0, RESULT_SIZE - 1, 10 * RESULT_SIZE, MOST_ROOM]);
    Case { sheet, room, expected: None }
}

/// Up to three changes anywhere.
pub(crate) fn change_bytes(dice: &mut Dice, bytes: &mut Vec<u8>) {
    for _ in 0..dice.below(4) {
        let at = dice.below(bytes.len());
        match dice.below(4) {
            0 => bytes[at] ^= 1 << dice.below(8),
            1 => bytes.insert(at, dice.below(256) as u8),
            2 => bytes.truncate(at + 1),
            _ => bytes[at] = dice.below(256) as u8,
        }
    }
}

/// The seed of one case of a run.
pub fn seed_of(run: u64, case: u64) -> u64 {
    run.wrapping_mul(1_000_003).wrapping_add(case)
}

/// The case of this seed: two in three valid, else damaged or messy.
pub fn case(seed: u64) -> Case {
    let dice = &mut Dice(seed);
    match dice.below(100) {
        0..=64 => expecting(dice, 0),
        percent @ 65..=90 => expecting(dice, 1 + (percent as u32 - 65) / 2),
        _ => messy(dice),
    }
}

/// The case of this seed with one in six made for overshoots, by dice of their own; the others are as
/// in [`case`]. The stored cases are of [`case`] and [`case_with_lower_plans`], which must not change.
pub fn case_with_overshoots(seed: u64) -> Case {
    let dice = &mut Dice(!seed);
    if dice.below(6) > 0 {
        return case(seed);
    }
    let draft = draft_over(dice, true, false);
    expecting_of(dice, &draft, 0)
}

/// A sheet made for falls, by dice of its own: nine in ten valid, else damaged.
pub fn case_with_lower_plans(seed: u64) -> Case {
    // Any constant would do that makes them other dice than those of `case`.
    let dice = &mut Dice(seed ^ 0x4641_4C4C);
    let draft = draft_lower_plans(dice);
    let number = if dice.chance(90) { 0 } else { dice.pick(&[1, 3, 5, 6, 7, 8, 9, 10, 11, 13]) };
    expecting_of(dice, &draft, number)
}

/// The case of this seed, of every kind: one in six made for falls, the others as in
/// [`case_with_overshoots`], so that one in six is made for overshoots.
pub fn any_case(seed: u64) -> Case {
    // The number by which that one goes: at 0 the sheet is made for overshoots.
    match Dice(!seed).below(6) {
        1 => case_with_lower_plans(seed),
        _ => case_with_overshoots(seed),
    }
}

/// A monotone pair: two valid sheets "alike except that no count in the first exceeds its fellow in
/// the second, without redesignation". In half of them the second never fails two in a row; a third
/// are made for overshoots.
pub fn pair(seed: u64) -> (Vec<u8>, Vec<u8>) {
    let dice = &mut Dice(seed);
    let (calm, percent) = (dice.chance(50), dice.pick(&[10, 30, 80]));
    let second =
        if dice.below(3) > 0 { draft(dice, false, calm) } else { draft_over(dice, false, calm) };
    (fewer(dice, &second, percent).bytes(), second.bytes())
}

/// The same sheet with so many percent of its counts made smaller, where they can be.
pub(crate) fn fewer(dice: &mut Dice, second: &Sheet, percent: usize) -> Sheet {
    let mut first = second.clone();
    for record in &mut first.records {
        if let Record::Unit(unit) = record {
            unit.counts = unit.counts.map(|count| {
                let less = dice.pick(&[0, (count - 1).max(0), count / 2]);
                if dice.chance(percent) {
                    less
                } else {
                    count
                }
            });
        }
    }
    first
}

/// How often each thing happened; every name is there from the first note on, also with zero.
#[derive(Default)]
pub struct Counts(pub std::collections::BTreeMap<String, usize>);

impl Counts {
    pub fn add(&mut self, name: &str, times: usize) {
        *self.0.entry(name.into()).or_default() += times;
    }

    /// The names of what never happened.
    pub fn missing(&self) -> impl Iterator<Item = &str> {
        self.0.iter().filter(|(_, &times)| times == 0).map(|(name, _)| &name[..])
    }

    /// Takes in one answer and its trace, as [`crate::grade_traced`] hands them out.
    pub fn note(&mut self, number: u32, graded: Option<&Graded>) {
        let rows: &[Row] = graded.map_or(&[], |graded| &graded.rows);
        let events: &[Event] = graded.map_or(&[], |graded| &graded.events);
        let mut add = |name: &str, times: usize| self.add(name, times);
        for known in 0..=13 {
            add(&format!("number {known:02}"), usize::from(number == known));
        }
        add("accepted without a unit", usize::from(graded.is_some() && rows.is_empty()));
        add("accepted with 1,000 units", usize::from(rows.len() == 1_000));
        let mut count_rows = |name: &str, test: &dyn Fn(&Row) -> bool| {
            add(name, rows.iter().filter(|row| test(row)).count());
        };
        for (code, letter) in [(0, 'A'), (1, 'B'), (2, 'C'), (3, 'S')] {
            count_rows(&format!("plan grade {letter}"), &|row| row.plan == code);
            count_rows(&format!("standing {code}"), &|row| row.standing == code);
        }
        count_rows("failure in step 3", &|row| row.standing == IN_STEP_3 && row.fails());
        count_rows("recovered, worse code", &|row| {
            row.standing == RECOVERED && row.code_grade > row.portion_grade
        });
        let mut count_events = |name: &str, test: &dyn Fn(&Event) -> bool| {
            add(name, events.iter().filter(|event| test(event)).count());
        };
        for (lower, letter) in [(1, 'B'), (2, 'C'), (3, 'S')] {
            let begins = What::StepThreeBegins { lower };
            count_events(&format!("step 3 begun at {letter}"), &|event| event.what == begins);
        }
        for wanted in 0..=3 {
            count_events(&format!("step 3 ended, {wanted} recovered"), &|event| {
                let last = rows[..event.units_before].iter().rev().take(3);
                let recovered = last.filter(|row| row.standing == RECOVERED).count();
                event.what == What::StepThreeEnds && recovered == wanted
            });
        }
        let [kept, other] = [true, false].map(|keeps| What::Redesignation { keeps });
        let in_step_3 = |stage| matches!(stage, Stage::StepThree { .. });
        let in_run = |stage| matches!(stage, Stage::StepThree { run: 1.., .. });
        let no_plan = |stage| matches!(stage, Stage::StepThree { lower: 3, .. });
        let failed = |stage| matches!(stage, Stage::Designated { failure: Some(_) });
        type Test = fn(Stage) -> bool;
        let kinds: [(&str, What, Test); 9] = [
            ("break in step 3", What::Break, in_step_3),
            ("break in a run", What::Break, in_run),
            ("break without a plan", What::Break, no_plan),
            ("break forgets a failure", What::Break, failed),
            ("redesignation keeps step 3", kept, in_step_3),
            ("redesignation keeps step 3 in a run", kept, in_run),
            ("redesignation keeps step 3 without a plan", kept, no_plan),
            ("redesignation ends step 3", other, in_step_3),
            ("redesignation forgets a failure", other, failed),
        ];
        for (name, what, test) in kinds {
            count_events(name, &|event| event.what == what && test(event.stage));
        }
        self.note_lower_plans(graded);
        self.note_failures_in_a_row(graded);
    }

    /// Falls (paper 02, A.4): from which plan to which, and what lies around them.
    fn note_lower_plans(&mut self, graded: Option<&Graded>) {
        let rows: &[Row] = graded.map_or(&[], |graded| &graded.rows);
        let events: &[Event] = graded.map_or(&[], |graded| &graded.events);
        let (starts, recoveries) = lower_plan_starts(rows, events);
        let mut count = |name: &str, test: &dyn Fn(&LowerPlanStart) -> bool| {
            self.add(&format!("fall{name}"), starts.iter().filter(|start| test(start)).count());
        };
        count(" from B to C", &|start| (start.from, start.to) == (1, 2));
        count(" from B to S", &|start| (start.from, start.to) == (1, 3));
        count(" from C to S", &|start| (start.from, start.to) == (2, 3));
        count(", the second in one step 3", &|start| start.again);
        count(" behind a run of 1", &|start| start.run == 1);
        count(" behind a run of 2", &|start| start.run == 2);
        count(
            ", the first failure graded lower",
            &|LowerPlanStart { failures: [first, second], .. }| {
                first.defect_grade > second.defect_grade
            },
        );
        count(
            ", the second failure graded lower",
            &|LowerPlanStart { failures: [first, second], .. }| {
                first.defect_grade < second.defect_grade
            },
        );
        count(", no class fails twice", &|LowerPlanStart { failures: [first, second], .. }| {
            (0..4).all(|class| !first.class_fails[class] || !second.class_fails[class])
        });
        let [kept, ended] = [true, false].map(|keeps| Some(What::Redesignation { keeps }));
        let what = |next: Option<Event>| next.map(|event| event.what);
        count(", then a break", &|start| what(start.next) == Some(What::Break));
        count(", then a redesignation ends step 3", &|start| what(start.next) == ended);
        count(", then a redesignation keeps step 3", &|start| what(start.next) == kept);
        count(", then one keeps step 3 by the new lower grade alone", &|start| {
            let not_better = start.next.is_some_and(|next| next.designated >= start.from);
            what(start.next) == kept && not_better
        });
        self.add("fall, then a unit recovered", recoveries);
    }

    /// Failures in a row in step 3: how many, and what parts two that would be a fall but for it.
    fn note_failures_in_a_row(&mut self, graded: Option<&Graded>) {
        let rows: &[Row] = graded.map_or(&[], |graded| &graded.rows);
        let events: &[Event] = graded.map_or(&[], |graded| &graded.events);
        let stretches = graded.map_or(Vec::new(), stretches_of_failures);
        let mut count = |name: &str, test: &dyn Fn(&Range<usize>) -> bool| {
            self.add(name, stretches.iter().filter(|stretch| test(stretch)).count());
        };
        let begins = |stretch: &Range<usize>| rows[stretch.start].standing == FAILED;
        // So many fail a lower plan; the last of an odd number is of no pair.
        let lower = |stretch: &Range<usize>| {
            stretch.len().saturating_sub(if begins(stretch) { 2 } else { 0 })
        };
        // With a unit behind it, that shows what is in force.
        let shown = |stretch: &Range<usize>| stretch.end < rows.len();
        count("no fall: one failure behind the two that begin step 3", &|stretch| {
            begins(stretch) && lower(stretch) == 1 && shown(stretch)
        });
        count("one fall: three failures in a row in step 3", &|stretch| {
            lower(stretch) == 3 && shown(stretch)
        });
        count("two falls: four failures in a row in step 3", &|stretch| {
            lower(stretch) == 4 && shown(stretch)
        });
        // What lies before a unit.
        let before = |unit: usize| {
            let from = events.partition_point(|event| event.units_before < unit);
            let to = events.partition_point(|event| event.units_before <= unit);
            &events[from..to]
        };
        let parted_by = |stretch: &Range<usize>, what: What| {
            let parting = before(stretch.end);
            let only = !parting.is_empty() && parting.iter().all(|event| event.what == what);
            lower(stretch) % 2 == 1 && only && rows.get(stretch.end).is_some_and(Row::fails)
        };
        for (name, what) in [
            ("a break", What::Break),
            ("a redesignation that keeps step 3", What::Redesignation { keeps: true }),
            ("a redesignation that ends step 3", What::Redesignation { keeps: false }),
        ] {
            let name = format!("no fall: {name} between two failures");
            count(&name, &|stretch| parted_by(stretch, what));
        }
        count("no fall: a unit that meets between two failures", &|stretch| {
            let (meets, next) = (stretch.end, stretch.end + 1);
            let fails = |unit: usize| rows.get(unit).is_some_and(Row::fails);
            let quiet = before(meets).is_empty() && before(next).is_empty();
            lower(stretch) % 2 == 1 && !fails(meets) && fails(next) && quiet
        });
    }
}

/// A fall, with what lies before it and right behind it.
struct LowerPlanStart {
    from: u8,
    to: u8,
    failures: [Row; 2],
    /// There was one before in the same step 3.
    again: bool,
    /// The qualifying units in a row before the two failures.
    run: usize,
    /// What comes before the next unit.
    next: Option<Event>,
}

/// The falls of a sheet, and the number of units recovered after one in the same step 3.
fn lower_plan_starts(rows: &[Row], events: &[Event]) -> (Vec<LowerPlanStart>, usize) {
    let (mut starts, mut recoveries) = (Vec::new(), 0);
    let mut again = false;
    for (place, event) in events.iter().enumerate() {
        let units = event.units_before;
        match (event.what, event.stage) {
            (What::LowerPlanStarts { lower: to }, Stage::StepThree { lower: from, .. }) => {
                let since = place.checked_sub(1).map_or(0, |last| events[last].units_before);
                let quiet = rows[since.min(units - 2)..units - 2].iter().rev();
                starts.push(LowerPlanStart {
                    from,
                    to,
                    failures: [rows[units - 2], rows[units - 1]],
                    again,
                    run: quiet.take_while(|row| row.qualifies).count(),
                    next: events.get(place + 1).filter(|next| next.units_before == units).copied(),
                });
                again = true;
            }
            (What::StepThreeEnds, _) if again => {
                let last = rows[units - 3..units].iter();
                recoveries += last.filter(|row| row.standing == RECOVERED).count();
            }
            (What::StepThreeBegins { .. }, _) => again = false,
            _ => {}
        }
    }
    (starts, recoveries)
}

/// What is counted of overshoots, apart from the rest: the stored cases are of what is printed, and
/// need not have it.
impl Counts {
    /// As [`Counts::note`]; each by units.
    pub fn note_overshoots(&mut self, graded: Option<&Graded>) {
        let rows: &[Row] = graded.map_or(&[], |graded| &graded.rows);
        let mut count = |name: &str, test: &dyn Fn(&Row) -> bool| {
            self.add(name, rows.iter().filter(|row| test(row)).count());
        };
        let over = |row: &Row| row.overshoots.iter().filter(|&&overshoot| overshoot > 0).count();
        count("overshoot of a tenth", &|row| row.overshoots.contains(&1));
        count("overshoot of 255 tenths", &|row| row.overshoots.contains(&255));
        count("overshoot of 256 tenths", &|row| row.overshoots.contains(&256));
        count("overshoot of 65,535 tenths", &|row| row.overshoots.contains(&65_535));
        count("overshoot of 65,536 tenths", &|row| row.overshoots.contains(&65_536));
        count("overshoot above 65,535 tenths", &|row| row.overshoots.iter().any(|&x| x > 65_535));
        count("overshoots in several classes", &|row| over(row) > 1);
        count("overshoots in every class", &|row| over(row) == 4);
        count("overshoot under a lower plan", &|row| row.standing == IN_STEP_3 && over(row) > 0);
        let table = graded.map(|graded| graded.table);
        let numbers = |grade: u8| table.expect("a row has a table")[usize::from(grade)];
        count("raw value of exactly L", &|row| {
            // A CuSum of zero does not tell the raw value.
            let exactly = |class: usize| {
                let l = numbers(row.plan)[class].l;
                l > 0 && row.cusums[class] == l && !row.class_fails[class]
            };
            row.plan < SUBSTANDARD && (0..4).any(exactly)
        });
        count("no overshoot without a plan, with counts above T+L of C", &|row| {
            let defects = row.unit.defects().into_iter().zip(numbers(2));
            let above = defects.filter(|(defects, c)| *defects > c.t + c.l).count();
            row.plan == SUBSTANDARD && over(row) == 0 && above > 0
        });
        // In the same class at two units, one after the other with no restart between them.
        let events: &[Event] = graded.map_or(&[], |graded| &graded.events);
        let restarts = events.iter().filter(|event| event.is_restart());
        let restarts: std::collections::BTreeSet<usize> =
            restarts.map(|event| event.units_before).collect();
        let (mut over_again, mut over_no_more) = (0, 0);
        for unit in (1..rows.len()).filter(|unit| !restarts.contains(unit)) {
            let both = || rows[unit - 1].overshoots.into_iter().zip(rows[unit].overshoots);
            over_again += usize::from(both().any(|(before, now)| before > 0 && now > 0));
            over_no_more += usize::from(both().any(|(before, now)| before > 0 && now == 0));
        }
        self.add("overshoot after an overshoot", over_again);
        self.add("no overshoot after an overshoot", over_no_more);
    }

    /// Takes in a monotone pair: the overshoots of fellow classes.
    pub fn note_pair(&mut self, first: &Graded, second: &Graded) {
        let fellows =
            |unit: usize| first.rows[unit].overshoots.into_iter().zip(second.rows[unit].overshoots);
        let two_in_a_row = first_two_in_a_row(second);
        let reach = two_in_a_row.map_or(second.rows.len(), |unit| unit + 1);
        let compared = || (0..reach).flat_map(fellows);
        let last_compared = two_in_a_row.into_iter().flat_map(fellows);
        let behind = (reach..second.rows.len()).flat_map(fellows);
        let smaller = |&(x, y): &(i64, i64)| 0 < x && x < y;
        let large = |&(x, y): &(i64, i64)| smaller(&(x, y)) && x <= 65_535 && y > 65_535;
        let mut add = |name: &str, times: usize| self.add(&format!("pair: {name}"), times);
        add("smaller overshoot in the first", compared().filter(smaller).count());
        add("overshoots up to 65,535 tenths and above", compared().filter(large).count());
        add("equal overshoots", compared().filter(|&(x, y)| x > 0 && x == y).count());
        add("overshoot in the second only", compared().filter(|&(x, y)| x == 0 && y > 0).count());
        add("smaller at the second of two failures", last_compared.filter(smaller).count());
        // Why the claim ends there: behind it the sheets may be under different plans.
        add("larger in the first, not compared", behind.filter(|(x, y)| x > y).count());
    }
}

/// A line for each.
impl std::fmt::Display for Counts {
    fn fmt(&self, f: &mut std::fmt::Formatter<'_>) -> std::fmt::Result {
        self.0.iter().try_for_each(|(name, times)| writeln!(f, "{times:>9}  {name}"))
    }
}
