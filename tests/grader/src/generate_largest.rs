//! Seeded random sheets and regradings with the largest CuSums (A.7 of paper 02): plans whose L is
//! 9,999 or a little below, with units around it, at it and far over it, in and out of step 3; damaged
//! ones; and counts of what happened in them.

use crate::generate::{self, Case, Counts, Dice};
use crate::generate_regrade::RegradeCase;
use crate::regrade::{read_second_plan, regrade_portions};
use crate::rules::{self, Event, Graded, Row, What, IN_STEP_3, RESULT_SIZE};
use crate::sheet::{self, Numbers, Record, Sheet, Table, MOST_UNITS, SUBSTANDARD};

/// "S, T and L from 0 to 9,999" (paper 01): no CuSum is larger, as none is above its L.
pub const LARGEST: i64 = 9_999;

/// A plan that breaks none of the rules, with an L of 9,999 or a little below in all classes and
/// grades, in several or in one. S is often L.
pub(crate) fn largest_plan(dice: &mut Dice) -> Table {
    let mut table = match dice.below(3) {
        0 => generate::plan(dice),
        1 => generate::plan_to_the_tenth(dice),
        _ => generate::plan_in_steps(dice),
    };
    let class_alone = if dice.chance(15) { Some(dice.below(4)) } else { None };
    let percent = dice.pick(&[100, 100, 60, 30]);
    let (all_at_largest, all_at_limit, whole_defects) =
        (dice.chance(40), dice.chance(40), dice.chance(60));
    // How much larger T may be than it must, by classes.
    let widths = [[0; 4], [10, 10, 10, 40], [30, 40, 50, 200], [0, 0, 0, LARGEST], [LARGEST; 4]];
    let widths = dice.pick(&widths);
    for class in (0..4).filter(|&class| class_alone.is_none_or(|alone| class == alone)) {
        // Number 5: neither T nor T+L may be smaller than at the better grade.
        let (mut least_t, mut least_limit) = (0, 0);
        for grade in &mut table {
            let Numbers { s, t, l } = &mut grade[class];
            if dice.chance(percent) {
                let below = dice.pick(&[0, 0, 0, 1, 1, 2, 9, 100]);
                *l = LARGEST - if all_at_largest { 0 } else { below };
            }
            *l = (*l).max(least_limit - LARGEST);
            let least = least_t.max(least_limit - *l);
            *t = (least + dice.between(0, widths[class])).min(LARGEST);
            // By the last digit of T some count leaves a CuSum as it is, or takes it a tenth down or
            // up; or takes it from 9,999 to a raw value of 65,535 or 65,536.
            let digit = if whole_defects { 0 } else { dice.pick(&[0, 0, 1, 1, 3, 4, 9, 9]) };
            let rounded_up = *t + (digit - *t).rem_euclid(10);
            if rounded_up <= LARGEST {
                *t = rounded_up;
            }
            let [any, near] = [0, *l - 20].map(|least| dice.between(least.max(0), *l));
            let other = dice.pick(&[0, any, near, (*t).min(*l)]);
            *s = if all_at_limit || dice.chance(30) { *l } else { other };
            (least_t, least_limit) = (*t, *t + *l);
        }
    }
    table
}

/// The numbers of the plan in force behind a sheet; without a plan, those of C.
fn next_numbers(graded: &Graded) -> [Numbers; 4] {
    graded.table[usize::from(graded.next_plan.min(2))]
}

/// From the counts of the four classes to those of a unit, of which the fourth is not total but minor.
fn recorded(mut counts: [i64; 4]) -> [i64; 4] {
    counts[3] = (counts[3] - counts[..3].iter().sum::<i64>()).max(0);
    counts
}

/// Counts that take the raw value to L, to a tenth below it or to a tenth above it, where some count
/// does, else near it; in one class, in several or in all.
fn counts_near(dice: &mut Dice, graded: &Graded) -> [i64; 4] {
    let (percent, class_alone) = (dice.pick(&[0, 0, 50, 100]), dice.below(4));
    let mut counts = [0; 4];
    for (class, Numbers { t, l, .. }) in next_numbers(graded).into_iter().enumerate() {
        if class == class_alone || dice.chance(percent) {
            // From 8 tenths below L to one above it, or from one below it to 8 above.
            let rounded = l + t - graded.next_cusums[class] + dice.pick(&[1, 8]);
            counts[class] = rounded.max(0) / 10;
        }
    }
    recorded(counts)
}

/// Counts that leave the CuSums as they are, where T is of whole defects: in all classes if the T of
/// total is large enough for that, else in total; or in any one class.
fn counts_staying(dice: &mut Dice, graded: &Graded) -> [i64; 4] {
    let counts = next_numbers(graded).map(|numbers| numbers.t / 10);
    let fits = counts[..3].iter().sum::<i64>() <= counts[3];
    let (any, one) = (dice.below(4), dice.chance(30));
    let stays = |class: usize| if one { class == any } else { fits || class == 3 };
    recorded([0, 1, 2, 3].map(|class| if stays(class) { counts[class] } else { 0 }))
}

/// Counts that fail in one class by as little as they can, so that a lower grade admits them.
fn counts_just_failing(dice: &mut Dice, graded: &Graded) -> [i64; 4] {
    let class = dice.below(4);
    let Numbers { t, l, .. } = next_numbers(graded)[class];
    let mut counts = [0; 4];
    counts[class] = (l + t - graded.next_cusums[class]) / 10 + 1;
    counts
}

/// Counts far over L: as many as there may be, or so many that the raw value of total is 65,535 or
/// 65,536, where some count does that, else near it.
fn counts_far(dice: &mut Dice, graded: &Graded) -> [i64; 4] {
    if dice.chance(50) {
        let least = dice.pick(&[1_500, 2_000, 2_000]);
        return [0; 4].map(|_| dice.between(least, 2_000));
    }
    let tenths = 65_536 + next_numbers(graded)[3].t - graded.next_cusums[3];
    let total = (tenths + dice.pick(&[0, 8])) / 10;
    let each = (total + 3) / 4;
    recorded([each, each, each, total])
}

/// Adds units to a sheet, for the plan in force as it is graded or regraded; breaks and redesignations
/// now and then.
fn add_units(dice: &mut Dice, sheet: &mut Sheet, grade: &dyn Fn(&Sheet) -> Graded) {
    match dice.below(13) {
        // Two failures in a row, as a way into step 3 and further down, and units that stay there.
        0..=3 => {
            let failing =
                if dice.chance(50) { counts_just_failing } else { generate::counts_failing };
            for _ in 0..2 {
                let counts = failing(dice, &grade(sheet));
                generate::push_unit(dice, sheet, counts);
                generate::perhaps_parted(dice, sheet, 4, true);
            }
            let counts = counts_staying(dice, &grade(sheet));
            for _ in 0..dice.pick(&[0, 0, 1, 3]) {
                generate::push_unit(dice, sheet, counts);
            }
        }
        // Units without defects, as a way out of step 3.
        4 => {
            for _ in 0..dice.between(1, 5) {
                generate::push_unit(dice, sheet, [0; 4]);
            }
        }
        5 | 6 => {
            let counts = counts_staying(dice, &grade(sheet));
            for _ in 0..dice.between(1, 5) {
                generate::push_unit(dice, sheet, counts);
            }
        }
        7 | 8 => {
            let counts = counts_far(dice, &grade(sheet));
            generate::push_unit(dice, sheet, counts);
        }
        _ => {
            for _ in 0..dice.between(1, 2) {
                let counts = counts_near(dice, &grade(sheet));
                generate::push_unit(dice, sheet, counts);
            }
        }
    }
    generate::perhaps_parted(dice, sheet, 12, true);
}

/// Gives a sheet units and what lies between them, as [`add_units`] does; now and then 1,000 units, the
/// last of which is far over L, and always so many for number 12.
fn fill(dice: &mut Dice, sheet: &mut Sheet, number: u32, grade: &dyn Fn(&Sheet) -> Graded) {
    for _ in 0..dice.pick(&[1, 2, 3, 4, 6, 8]) {
        add_units(dice, sheet, grade);
    }
    if number == 12 || dice.below(150) == 0 {
        sheet.records.push(Record::Break);
        let counts = counts_staying(dice, &grade(sheet));
        while sheet.units() < MOST_UNITS - 1 {
            generate::push_unit(dice, sheet, counts);
        }
        let counts = counts_far(dice, &grade(sheet));
        generate::push_unit(dice, sheet, counts);
    }
}

/// A number with which a damaged sheet is refused, 1 to 13.
fn damaged(dice: &mut Dice) -> u32 {
    let other = dice.pick(&[1, 2, 6, 9, 10, 11, 12]);
    dice.pick(&[3, 3, 3, 3, 4, 4, 5, 7, 8, 8, 13, 13, other, other, other])
}

/// A sheet with the largest CuSums, by dice of its own: nine in ten valid, else damaged.
pub fn largest_case(seed: u64) -> Case {
    // Any constant would do that makes them other dice than those of the other generators.
    let dice = &mut Dice(seed ^ 0x4C41_5247);
    let number = if dice.chance(90) { 0 } else { damaged(dice) };
    let (designated, table) = (dice.pick(&[0, 0, 0, 1, 1, 2]), largest_plan(dice));
    let mut sheet = Sheet { designated, table, records: Vec::new() };
    fill(dice, &mut sheet, number, &rules::grade_portions);
    generate::expecting_of(dice, &sheet, number)
}

/// A regrading with the largest CuSums, of a sheet of any plan, by dice of its own: eight in ten valid,
/// else with a wrong second plan (mostly by an S, T or L above 9,999), a damaged sheet or both.
pub fn largest_regrade_case(seed: u64) -> RegradeCase {
    // As above.
    let dice = &mut Dice(seed ^ 0x4D4F_5354);
    let number = match dice.below(10) {
        0..=7 => 0,
        8 => 18,
        _ => damaged(dice),
    };
    let (designated, table) = (dice.below(3) as u8, largest_plan(dice));
    let second = Sheet { designated, table, records: Vec::new() };
    let own = match dice.below(4) {
        0 => second.table,
        1 => largest_plan(dice),
        2 => generate::plan(dice),
        _ => generate::plan_in_steps(dice),
    };
    let mut tally = Sheet { designated: dice.below(3) as u8, table: own, records: Vec::new() };
    fill(dice, &mut tally, number, &|tally| {
        regrade_portions(tally, second.designated, &second.table)
    });
    let mut plan = second.bytes();
    // Numbers 1 to 12 are before 18, and 18 is before 13.
    if number == 18 || ((1..=12).contains(&number) && dice.chance(50)) {
        let wrong = dice.pick(&[2, 3, 3, 3, 3, 3, 4, 4, 5]);
        generate::damage(dice, &second, &mut plan, wrong);
    }
    let of_sheet = if number == 18 { dice.pick(&[0, 0, 13]) } else { number };
    let Case { sheet, room, expected } = generate::expecting_of(dice, &tally, of_sheet);
    let expected = if number == 18 { Some((18, 0)) } else { expected };
    RegradeCase { sheet, plan, room, expected }
}

/// A plan that may be in force, in words, and whether it is for a unit.
type InForce = (&'static str, fn(&Row) -> bool);

/// Takes in the answer to a sheet and its trace, as [`crate::grade_traced`] hands them out.
pub fn note_largest(counts: &mut Counts, number: u32, graded: Option<&Graded>) {
    let mut add = |name: &str, times: usize| counts.add(&format!("largest: {name}"), times);
    for known in 0..=13 {
        add(&format!("number {known:02}"), usize::from(number == known));
    }
    let plans: [InForce; 2] = [
        ("the designated plan", |row| row.standing < IN_STEP_3),
        ("a lower plan", |row| row.standing >= IN_STEP_3 && row.plan < SUBSTANDARD),
    ];
    note_cusums(&mut add, &plans, graded);
    // What lies right behind a unit with a CuSum of 9,999, and before a unit.
    let rows: &[Row] = graded.map_or(&[], |graded| &graded.rows);
    let events: &[Event] = graded.map_or(&[], |graded| &graded.events);
    let mut count = |name: &str, test: fn(What) -> bool| {
        let of_kind = events.iter().filter(|event| test(event.what));
        let behind = of_kind.filter(|event| is_behind_largest(rows, event.units_before));
        add(&format!("{name} behind 9,999"), behind.count());
    };
    count("break", |what| what == What::Break);
    count("redesignation that keeps step 3", |what| what == What::Redesignation { keeps: true });
    count("redesignation that restarts", |what| what == What::Redesignation { keeps: false });
    count("start of step 3", |what| matches!(what, What::StepThreeBegins { .. }));
    count("fall", |what| matches!(what, What::LowerPlanStarts { .. }));
    // Step 3 ends at CuSums of zero.
    let ends = events.iter().filter(|event| event.what == What::StepThreeEnds);
    let ends = ends.filter(|event| has_largest(&rows[..event.units_before]));
    add("end of step 3, 9,999 some way before it", ends.count());
}

/// Takes in the answer to a regrading and its trace, as [`crate::regrade::regrade_traced`] hands them
/// out.
pub fn note_largest_regrading(counts: &mut Counts, number: u32, graded: Option<&Graded>) {
    let mut add =
        |name: &str, times: usize| counts.add(&format!("largest: regrading: {name}"), times);
    for known in (0..=13).chain([18]) {
        add(&format!("number {known:02}"), usize::from(number == known));
    }
    note_cusums(&mut add, &[("the second plan", |_| true)], graded);
    // All events of a regrading are breaks.
    let rows: &[Row] = graded.map_or(&[], |graded| &graded.rows);
    let events: &[Event] = graded.map_or(&[], |graded| &graded.events);
    let breaks = events.iter().filter(|event| is_behind_largest(rows, event.units_before));
    add("break behind 9,999", breaks.count());
    let passed_over: &[usize] = graded.map_or(&[], |graded| &graded.passed_over);
    let passed_over = passed_over.iter().filter(|&&place| is_behind_largest(rows, place));
    add("redesignation passed over behind 9,999", passed_over.count());
}

fn has_largest(rows: &[Row]) -> bool {
    rows.iter().any(|row| row.cusums.contains(&LARGEST))
}

/// Whether a place, given by the number of units before it, is right behind a unit with a CuSum of
/// 9,999 and before another unit.
fn is_behind_largest(rows: &[Row], place: usize) -> bool {
    (1..rows.len()).contains(&place) && has_largest(&rows[place - 1..place])
}

/// What is counted of gradings and regradings alike, each by units.
fn note_cusums(add: &mut dyn FnMut(&str, usize), plans: &[InForce], graded: Option<&Graded>) {
    let rows: &[Row] = graded.map_or(&[], |graded| &graded.rows);
    // Of a unit with a plan, as it has if a CuSum is above zero.
    let numbers = |row: &Row, class: usize| {
        graded.expect("a row has a table").table[usize::from(row.plan)][class]
    };
    let some = |test: &dyn Fn(usize) -> bool| (0..4).any(test);
    let every = |test: &dyn Fn(usize) -> bool| (0..4).all(test);
    let met =
        |row: &Row, class: usize, cusum: i64| row.cusums[class] == cusum && !row.class_fails[class];
    let failed =
        |row: &Row, class: usize, cusum: i64| row.cusums[class] == cusum && row.class_fails[class];
    // A CuSum that is its raw value is the one before it if ten times the count is T.
    let stays = |row: &Row, class: usize| {
        met(row, class, LARGEST) && row.unit.defects()[class] == numbers(row, class).t
    };
    // The raw value of a class that failed, whose CuSum is L.
    let raw = |row: &Row, class: usize| row.cusums[class] + row.overshoots[class];
    for (plan, in_force) in plans {
        let mut count = |name: &str, test: &dyn Fn(&Row) -> bool| {
            let times = rows.iter().filter(|row| in_force(row) && test(row)).count();
            add(&format!("{name}, under {plan}"), times);
        };
        for (class, letters) in ["critical", "severe", "major", "total"].into_iter().enumerate() {
            count(&format!("{letters} 9,999 and met"), &|row| met(row, class, LARGEST));
            count(&format!("{letters} 9,999 and failed"), &|row| failed(row, class, LARGEST));
            count(&format!("{letters} stays at 9,999 and meets"), &|row| stays(row, class));
            count(&format!("{letters} 9,998, a tenth below L"), &|row| {
                met(row, class, 9_998) && numbers(row, class).l == LARGEST
            });
            count(&format!("{letters} 9,999, raw value a tenth above it"), &|row| {
                failed(row, class, LARGEST) && row.overshoots[class] == 1
            });
        }
        count("9,998 as L and met", &|row| {
            some(&|class| met(row, class, 9_998) && numbers(row, class).l == 9_998)
        });
        count("9,998 as L and failed", &|row| some(&|class| failed(row, class, 9_998)));
        count("CuSum above 255", &|row| some(&|class| row.cusums[class] > 255));
        let all = |row: &Row| row.cusums == [LARGEST; 4];
        let all_fail = |row: &Row| every(&|class| row.class_fails[class]);
        count("all classes 9,999 and met", &|row| all(row) && !row.fails());
        count("all classes 9,999 and failed", &|row| all(row) && all_fail(row));
        count("all classes 9,999, some failed", &|row| all(row) && row.fails() && !all_fail(row));
        count("9,999, raw value from 32,768 to 65,535", &|row| {
            some(&|class| {
                failed(row, class, LARGEST) && (32_768..=65_535).contains(&raw(row, class))
            })
        });
        count("9,999, raw value above 65,535", &|row| {
            some(&|class| failed(row, class, LARGEST) && raw(row, class) > 65_535)
        });
    }
    let mut count = |name: &str, test: &dyn Fn(&Row) -> bool| {
        add(name, rows.iter().filter(|row| test(row)).count());
    };
    count("raw value of 65,535", &|row| some(&|class| raw(row, class) == 65_535));
    count("raw value of 65,536", &|row| some(&|class| raw(row, class) == 65_536));
    // From 9,999, and without a T.
    count("raw value of 89,999, the largest there is", &|row| raw(row, 3) == LARGEST + 80_000);
    count("2,000 of every count", &|row| row.unit.counts == [2_000; 4]);
    let three_stay = |three: &&[Row]| some(&|class| three.iter().all(|row| stays(row, class)));
    let times = rows.windows(3).filter(three_stay).count();
    add("three units in a row stay at 9,999 and meet", times);
    let full = rows.len() == MOST_UNITS && has_largest(&rows[MOST_UNITS - 1..]);
    add("9,999 at the 1,000th unit", usize::from(full));
}

/// Takes in a sheet and the number of its answer, for what the trace does not show: its result buffer,
/// and what it is refused for.
pub fn note_largest_case(counts: &mut Counts, case: &Case, number: u32) {
    let mut add = |name: &str, is: bool| counts.add(&format!("largest: {name}"), is.into());
    note_room_and_counts(&mut add, case, number);
    note_plan(&mut add, &case.sheet, number, [3, 4]);
}

/// As [`note_largest_case`], of a regrading.
pub fn note_largest_regrade_case(counts: &mut Counts, case: &RegradeCase, number: u32) {
    let mut add =
        |name: &str, is: bool| counts.add(&format!("largest: regrading: {name}"), is.into());
    let RegradeCase { sheet, plan, room, expected } = case.clone();
    let is_large = |own: Sheet| own.table.iter().flatten().any(|numbers| numbers.l >= 9_000);
    let ordinary = sheet::read(&sheet).is_ok_and(|own| !is_large(own));
    add("sheet of an ordinary plan", number == 0 && ordinary);
    let wrong_too = (1..=12).contains(&number) && read_second_plan(&plan).is_none();
    add("refused sheet and a wrong second plan", wrong_too);
    note_room_and_counts(&mut add, &Case { sheet, room, expected }, number);
    note_plan(&mut add, &plan, number, [18, 18]);
}

fn note_room_and_counts(add: &mut dyn FnMut(&str, bool), case: &Case, number: u32) {
    let Case { sheet, room, expected } = case;
    let needed = RESULT_SIZE * sheet::read(sheet).map_or(0, |sheet| sheet.units());
    add("buffer exactly long enough", number == 0 && *room == needed);
    add("buffer longer than needed", number == 0 && *room > needed);
    add("buffer one byte too short", number == 13 && room + 1 == needed);
    // The counts of the unit at which it is refused.
    let offset = expected.filter(|_| number == 8).map(|(_, offset)| offset);
    let counts = offset.map_or(&[][..], |offset| &sheet[offset + 4..offset + 12]);
    let one_more = counts.chunks_exact(2).any(|count| count == 2_001_u16.to_be_bytes());
    add("number 08 for a count of 2,001", one_more);
}

/// What a plan is refused for: an S, T or L above 9,999, and an S above its L, each with its number.
fn note_plan(
    add: &mut dyn FnMut(&str, bool),
    plan: &[u8],
    number: u32,
    [above_largest, above_limit]: [u32; 2],
) {
    let numbers = plan.get(3..75).unwrap_or(&[]).chunks_exact(2);
    let numbers: Vec<u16> = numbers.map(|two| u16::from_be_bytes([two[0], two[1]])).collect();
    for (place, letter) in ['S', 'T', 'L'].into_iter().enumerate() {
        for (words, tenths) in [("10,000", 10_000), ("32,768", 32_768), ("65,535", 65_535)] {
            let there = numbers.iter().skip(place).step_by(3).any(|&number| number == tenths);
            let name = format!("number {above_largest:02} for {letter} of {words}");
            add(&name, number == above_largest && there);
        }
    }
    let none_above = numbers.iter().all(|&number| i64::from(number) <= LARGEST);
    let there = none_above && numbers.chunks_exact(3).any(|class| class[0] == class[2] + 1);
    let name = format!("number {above_limit:02} for an S a tenth above its L");
    add(&name, number == above_limit && there);
}
