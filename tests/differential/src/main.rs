//! The proved library, called over its boundary, against the independent grader: number, units,
//! offset and every byte of the buffer with guard bytes before and behind it, on seeded random
//! sheets, which must be kept; and both halves of demand 3, with what A.1 of paper 02 adds of
//! overshoots, on the bytes that the library left. For every fourth case also a mold sheet (A.2 of
//! paper 02), with the first half of demand 3, a regrading and a pair of them (A.5), with both halves,
//! a look-up of one code (A.6), which is also made in the results that gradings and regradings left,
//! a sheet and a regrading with the largest CuSums (A.7), and a warehouse lot and a pair of them (A.8).
//! At the end every count there is (A.3), and every acceptance number of a lot.
//!
//! `differential [CASES [SEED]]`. A sheet on which the two differ is written to a file and named, of a
//! look-up the results, and of a lot the lot. A run of 10,000 cases or more also fails if one of the
//! things that it counts never came up, those of lots from 10,000 lots on.

mod counts;
mod largest;
mod lookup;
mod lot;
mod mold;
mod regrade;

use grader::generate::{self, seed_of, Counts, Dice};
use grader::generate_lot::LotCounts;
use grader::rules::{Graded, Row, What, RECOVERED};
use grader::{check, failure, sheet, Answer};
use hatmuyon::{ffi, PLAN_SIZE, RESULT_SIZE, UNIT_SIZE};
use std::fmt::Debug;
use std::time::Instant;

const GUARD: usize = 32;
/// Offset of the overshoot of critical defects in a result record, four bytes with the high byte
/// first; the other three follow.
const OVERSHOOTS: usize = 16;
/// From so many cases on, everything that is counted must come up; from so many lots on, what is
/// counted of lots.
const WHOLE: u64 = 10_000;
/// Up to so many units of a tally sheet the first half of demand 3, quadratic in them, is computed.
const MOST_COMPUTED: usize = 60;

/// Kinds of gradings, each by a function of its own.
#[derive(Clone, Copy)]
enum Kind<'a> {
    Tally,
    Mold,
    /// Of a tally sheet, under this second plan.
    Regrading(&'a [u8]),
}

impl<'a> Kind<'a> {
    fn second_plan(self) -> &'a [u8] {
        if let Kind::Regrading(plan) = self {
            plan
        } else {
            &[]
        }
    }
}

/// The byte that a buffer is filled with.
fn fill(seed: u64) -> u8 {
    (seed % 251) as u8
}

/// Room for the result records of a tally sheet, whatever its records are.
fn most_room(sheet: &[u8]) -> usize {
    RESULT_SIZE * sheet.len() / UNIT_SIZE
}

/// Grades by the library into a buffer of `room` bytes inside a larger one; the guard bytes around it,
/// the sheet and the second plan must stay as they were.
fn library(kind: Kind, seed: u64, sheet: &[u8], room: usize, fill: u8) -> (Answer, Vec<u8>) {
    let (lent, lent_plan) = (sheet.to_vec(), kind.second_plan().to_vec());
    let mut memory = vec![fill; GUARD + room + GUARD];
    let results = memory[GUARD..GUARD + room].as_mut_ptr();
    let (bytes, length) = (lent.as_ptr(), lent.len());
    let (plan, plan_length) = (lent_plan.as_ptr(), lent_plan.len());
    // Safety: every pointer is valid for its length, and the buffers are apart.
    let ffi::Answer { number, units, offset } = unsafe {
        match kind {
            Kind::Tally => ffi::hatmuyon_grade(bytes, length, results, room),
            Kind::Mold => ffi::hatmuyon_grade_mold(bytes, length, results, room),
            Kind::Regrading(_) => {
                ffi::hatmuyon_regrade(bytes, length, plan, plan_length, results, room)
            }
        }
    };
    let (before, rest) = memory.split_at(GUARD);
    let (results, behind) = rest.split_at(room);
    if before.iter().chain(behind).any(|&byte| byte != fill) {
        report(kind, "a guard byte", seed, sheet, &[before, behind], &fill);
    }
    if lent != sheet {
        report(kind, "the sheet after grading", seed, sheet, &"changed", &"kept");
    }
    if lent_plan != kind.second_plan() {
        report(kind, "the second plan after grading", seed, sheet, &"changed", &"kept");
    }
    (Answer { number, units, offset }, results.to_vec())
}

/// The command that prints what the grader makes of standard input.
fn grader_command() -> String {
    let manifest = concat!(env!("CARGO_MANIFEST_DIR"), "/../grader/Cargo.toml");
    format!("cargo run -q --release --offline --manifest-path {manifest}")
}

/// Says what differs, writes the sheet to a file, and ends the run.
fn report(
    kind: Kind,
    what: &str,
    seed: u64,
    sheet: &[u8],
    ours: &dyn Debug,
    theirs: &dyn Debug,
) -> ! {
    let of = match kind {
        Kind::Tally => "",
        Kind::Mold => " of a mold sheet",
        Kind::Regrading(_) => " of a regrading",
    };
    let what = format!("differential: {what}{of} differs at seed {seed}");
    let what = format!("{what}\n  library: {ours:?}\n  grader:  {theirs:?}");
    let file = format!("hatmuyon-differs-{seed}.sheet");
    match kind {
        Kind::Tally => failure::end(&what, &file, sheet, "target/bin/print_tally"),
        Kind::Mold => failure::end_mold(&what, &file, sheet),
        Kind::Regrading(plan) => regrade::end(&what, &file, sheet, plan),
    }
}

/// Grades by the library, compares its answer and buffer with the grader's, and hands out the buffer.
/// Every byte of `expected` that the grader did not write is `fill`.
fn compare_with(
    kind: Kind,
    seed: u64,
    sheet: &[u8],
    fill: u8,
    answer: Answer,
    expected: &[u8],
) -> Vec<u8> {
    let (returned, results) = library(kind, seed, sheet, expected.len(), fill);
    if returned != answer {
        report(kind, "the answer", seed, sheet, &returned, &answer);
    }
    if results != expected {
        let at = results.iter().zip(expected).position(|(a, b)| a != b).unwrap_or(0);
        report(kind, &format!("byte {at} of the buffer"), seed, sheet, &results[at], &expected[at]);
    }
    results
}

/// Counts what [`Counts::note`] does not see: how the buffer fits, and who shares a code or a recovery.
fn note(counts: &mut Counts, sheet: &[u8], room: usize, answer: Answer, graded: Option<&Graded>) {
    counts.note(answer.number, graded);
    counts.note_overshoots(graded);
    note_offset(counts, "", answer);
    let mut add = |name: &str, times: usize| counts.add(name, times);
    let needed = RESULT_SIZE * sheet::read(sheet).map_or(0, |sheet| sheet.units());
    let accepted = answer.number == 0;
    add("buffer longer than needed", usize::from(accepted && room > needed));
    add("buffer exactly long enough", usize::from(accepted && room == needed && needed > 0));
    add("buffer one byte too short", usize::from(answer.number == 13 && room + 1 == needed));
    add("buffer without a byte and no unit", usize::from(accepted && room == 0));

    let rows: &[Row] = graded.map_or(&[], |graded| &graded.rows);
    let mixed =
        |last: &[Row]| last.iter().any(|row| row.unit.recoverable != last[0].unit.recoverable);
    let ends = graded.iter().flat_map(|graded| &graded.events);
    let ends = ends.filter(|event| event.what == What::StepThreeEnds);
    let mixed_ends = ends.filter(|end| mixed(&rows[end.units_before - 3..end.units_before]));
    add("recovery with mixed recoverable bytes", mixed_ends.count());
    // For each code: does it have a recovered unit, and one that is not?
    let mut codes = std::collections::BTreeMap::new();
    for row in rows {
        let [recovered, other]: &mut [bool; 2] = codes.entry(row.unit.code).or_default();
        *(if row.standing == RECOVERED { recovered } else { other }) = true;
    }
    // The library looks for a code's next record eight at a time: it must be found in each place.
    let mut last = std::collections::BTreeMap::new();
    let mut apart = [0; 10];
    for (unit, row) in rows.iter().enumerate() {
        if let Some(before) = last.insert(row.unit.code, unit) {
            apart[(unit - before).min(9)] += 1;
        }
    }
    for (units, times) in apart.into_iter().enumerate().skip(1) {
        let more = if units == 9 { " or more" } else { "" };
        add(&format!("code met again {units}{more} units on"), times);
    }
    let with = |wanted: [bool; 2]| codes.values().filter(|has| **has == wanted).count();
    add("code of a recovered and an unrecovered unit", with([true, true]));
    add("code of recovered units only", with([true, false]));
}

/// Counts offsets that take more than two bytes, of this kind of gradings.
fn note_offset(counts: &mut Counts, of: &str, answer: Answer) {
    let (accepted, large) = (answer.number == 0, answer.offset > 65_536);
    let mut add = |name: &str, is: bool| counts.add(&format!("{of}{name}"), is.into());
    add("sheet above 65,536 bytes, accepted", accepted && large);
    add("refused at an offset above 65,536", !accepted && large);
}

/// What the library did with a tally sheet, after it was compared: the answer, the buffer, and the
/// grader's trace with the grades, CuSums and overshoots that the library recorded.
struct Compared {
    answer: Answer,
    results: Vec<u8>,
    graded: Option<Graded>,
}

/// Compares a grading of a tally sheet with what this function of the grader makes of it, and looks up
/// codes in the records that it left.
fn compare_traced(
    kind: Kind,
    seed: u64,
    sheet: &[u8],
    room: usize,
    counts: &mut Counts,
    grade: impl FnOnce(&mut [u8]) -> (Answer, Option<Graded>),
) -> Compared {
    let fill = fill(seed);
    let mut expected = vec![fill; room];
    let (answer, mut graded) = grade(&mut expected);
    let results = compare_with(kind, seed, sheet, fill, answer, &expected);
    let rows = graded.iter_mut().flat_map(|graded| &mut graded.rows);
    for (row, record) in rows.zip(results.chunks_exact(RESULT_SIZE)) {
        row.portion_grade = record[ffi::RESULT_PORTION_GRADE];
        row.code_grade = record[ffi::RESULT_CODE_GRADE];
        for (class, cusum) in row.cusums.iter_mut().enumerate() {
            let at = ffi::RESULT_CRITICAL + 2 * class;
            *cusum = i64::from(u16::from_be_bytes([record[at], record[at + 1]]));
        }
        let recorded = record[OVERSHOOTS..].chunks_exact(4);
        for (overshoot, bytes) in row.overshoots.iter_mut().zip(recorded) {
            *overshoot = i64::from(u32::from_be_bytes(bytes.try_into().expect("four bytes")));
        }
    }
    if graded.is_some() {
        let left_by = if let Kind::Regrading(_) = kind { "a regrading" } else { "a grading" };
        lookup::in_records(seed, left_by, &results[..RESULT_SIZE * answer.units], counts);
    }
    Compared { answer, results, graded }
}

/// Compares one sheet, and its regrading under its own plan where that must be the same. Hands out the
/// trace, as recorded.
fn compare(seed: u64, sheet: &[u8], room: usize, counts: &mut Counts) -> Option<Graded> {
    let grade = |results: &mut [u8]| grader::grade_traced(sheet, results, false);
    let compared = compare_traced(Kind::Tally, seed, sheet, room, counts, grade);
    note(counts, sheet, room, compared.answer, compared.graded.as_ref());
    regrade::under_own_plan(seed, sheet, &compared, counts);
    compared.graded
}

/// Demand 3, first half, on recorded bytes: the grader's 'largest of' form, with the anchor found by
/// its place, against the CuSums that the library recorded; and its overshoots against what follows
/// from these CuSums and from sums of the same form. Says whether this was computed.
fn largest_of(kind: Kind, seed: u64, sheet: &[u8], graded: Option<&Graded>) -> bool {
    let Some(graded) = graded.filter(|graded| graded.rows.len() <= MOST_COMPUTED) else {
        return false;
    };
    if std::panic::catch_unwind(|| check::cusums_twice(graded)).is_err() {
        report(kind, "the 'largest of' form", seed, sheet, &"recorded", &"computed");
    }
    if std::panic::catch_unwind(|| check::overshoots_twice(graded)).is_err() {
        report(kind, "an overshoot by sums", seed, sheet, &"recorded", &"computed");
    }
    true
}

/// Demand 3, second half, on recorded bytes of a pair.
fn monotone(seed: u64, first: &[u8], second: &[u8], counts: &mut Counts) -> bool {
    let sides = [first, second]
        .map(|sheet| compare(seed, sheet, most_room(sheet), counts).expect("a pair is accepted"));
    counts.note_pair(&sides[0], &sides[1]);
    check::monotone(&sides[0], &sides[1])
        .unwrap_or_else(|what| report_pair(Kind::Tally, seed, second, &what))
}

/// Says what the second half of demand 3 does not find in the records of a pair, and ends the run.
fn report_pair(kind: Kind, seed: u64, second: &[u8], what: &str) -> ! {
    report(kind, &format!("the monotone half: {what}"), seed, second, &"first", &"second")
}

/// Breaks behind the plan, if there is one, take the records beyond 65,536 bytes.
fn lengthen(seed: u64, sheet: &mut Vec<u8>) {
    if sheet.len() > PLAN_SIZE {
        let breaks = 32_000 + Dice(seed).below(50_000);
        sheet.splice(PLAN_SIZE..PLAN_SIZE, [0x42, 0x4B].repeat(breaks));
    }
}

fn main() {
    let mut arguments = std::env::args().skip(1).map(|word| word.parse().expect("a number"));
    let cases: u64 = arguments.next().unwrap_or(200_000);
    let seed: u64 = arguments.next().unwrap_or(19_780_801);
    assert_eq!(RESULT_SIZE, grader::RESULT_SIZE, "bytes of a result record, library and grader");
    let start = Instant::now();
    let (mut counts, mut lot_counts) = (Counts::default(), LotCounts::default());
    let (mut checked, mut pairs, mut graded_pairs, mut molds, mut molds_checked) = (0, 0, 0, 0, 0);
    let (mut regradings, mut regradings_checked, mut regraded_pairs, mut lookups) = (0, 0, 0, 0);
    let (mut largest, mut largest_checked, mut lots, mut lot_pairs) = (0, 0, 0, 0);
    for case in 0..cases {
        let seed = seed_of(seed, case);
        let long = case % 500 == 0;
        let make = if long { generate::case } else { generate::any_case };
        let mut made = make(seed);
        if long {
            lengthen(seed, &mut made.sheet);
        }
        let graded = compare(seed, &made.sheet, made.room, &mut counts);
        checked += usize::from(largest_of(Kind::Tally, seed, &made.sheet, graded.as_ref()));
        if case % 4 == 0 {
            let (first, second) = generate::pair(seed);
            graded_pairs += usize::from(monotone(seed, &first, &second, &mut counts));
            pairs += 1;
            molds_checked += usize::from(mold::compare(seed, &mut counts));
            molds += 1;
            regradings_checked += usize::from(regrade::compare(seed, &mut counts));
            regradings += 1;
            regrade::monotone(seed, &mut counts);
            regraded_pairs += 1;
            lookup::compare(seed, &mut counts);
            lookups += 1;
            largest_checked += usize::from(largest::compare(seed, &mut counts));
            largest_checked += usize::from(largest::compare_regrading(seed, &mut counts));
            largest += 1;
            lot::compare(seed, &mut lot_counts);
            lots += 1;
            lot::monotone(seed, &mut lot_counts);
            lot_pairs += 1;
        }
        // More often than a long sheet, as fewer of them are refused behind the breaks.
        if case % 200 == 0 {
            regradings_checked += usize::from(regrade::compare_long(seed, &mut counts));
            regradings += 1;
            lookup::compare_long(seed, &mut counts);
            lookups += 1;
            lot::compare_long(seed, &mut lot_counts);
            lots += 1;
        }
    }
    let (defects, fields) = (counts::defects(), counts::fields());
    let around = lot::table(&mut lot_counts);
    print!("{counts}{lot_counts}");
    println!(
        "{checked:>9}  sheets whose recorded CuSums are the 'largest of' form, overshoots by sums"
    );
    println!("{pairs:>9}  pairs alike but for fewer counts, {graded_pairs} with grades compared");
    println!("{molds_checked:>9}  mold sheets whose recorded CuSums are the 'largest of' form");
    println!(
        "{regradings_checked:>9}  regradings whose recorded CuSums are the 'largest of' form, \
         overshoots by sums"
    );
    println!("{regraded_pairs:>9}  pairs alike but for fewer counts, regraded, grades compared");
    println!(
        "{largest_checked:>9}  sheets and regradings of {largest} each with the largest CuSums, which are \
         the 'largest of' form, overshoots by sums"
    );
    println!("{defects:>9}  sheets with every count from 0 to 2,000 in each kind and in all kinds");
    println!("{fields:>9}  mold sheets with every number of fields from 0 to 25 at each level");
    println!("{around:>9}  lots with a count at every acceptance number and one above, by class");
    // A short run need not have everything, and one of few lots not everything of them.
    let in_lots = lot_counts.missing().filter(|_| lots >= WHOLE);
    if let Some(name) = counts.missing().filter(|_| cases >= WHOLE).chain(in_lots).next() {
        println!("differential: no case has: {name}");
        std::process::exit(1);
    }
    println!(
        "differential: {cases} sheets, {pairs} pairs, {molds} mold sheets, {regradings} regradings, \
         {regraded_pairs} pairs of them, {lookups} look-ups, {largest} sheets and as many regradings \
         with the largest CuSums, {lots} lots, {lot_pairs} pairs of them agree, seed {seed}, {:.1} s",
        start.elapsed().as_secs_f64()
    );
}
