//! Times the library, over its boundary, beside two peers on the same sheets: the independent
//! grader, and the tuned grader of [`tuned`].
//!
//! `bench [ROUNDS]`. In a round every contender grades the sheet in turn, several times for a small
//! sheet, each time into a buffer of its own that was cleared before; the clearing is not timed. The
//! table has the median over the rounds and, as other work on the machine slows some of them, the
//! least. Before a sheet is timed the contenders must agree on it; before any is, the library and
//! the tuned grader must agree on seeded random sheets, refused ones among them. So it is with mold
//! sheets, with regradings, with look-ups of one code in results and with lots, for each of which every
//! contender has a function of its own.

use grader::generate::{self, table, Dice, PEACH};
use grader::generate_lookup::lookup_case;
use grader::generate_lot::lot_case;
use grader::generate_regrade::regrade_case;
use grader::lot::Lot;
use grader::sheet::{Record, Sheet, Unit};
use hatmuyon::ffi::{
    hatmuyon_find_code, hatmuyon_grade_lot, hatmuyon_regrade, MOLD_RESULT_MET, RESULT_CODE,
    RESULT_CODE_GRADE, RESULT_CRITICAL_OVERSHOOT, RESULT_PORTION_GRADE, RESULT_STANDING,
};
use hatmuyon::{MOLD_LEVELS, MOLD_RESULT_SIZE, MOLD_UNIT_SIZE, MOST_POSITIVE_FIELDS};
use hatmuyon::{MOST_UNITS, RESULT_SIZE};
use std::hint::black_box;
use std::time::Instant;
use tuned::Tuned;

mod tuned;

/// Number, units, offset; of a look-up number, offset, length; of a lot number, grade, offset.
type Answer = (u32, usize, usize);
/// Grades a sheet into a buffer.
type Contender<'a> = &'a mut dyn FnMut(&[u8], &mut [u8]) -> Answer;

fn library(sheet: &[u8], results: &mut [u8]) -> Answer {
    match hatmuyon::grade(sheet, results) {
        Ok(graded) => (0, graded.units(), sheet.len()),
        Err(refusal) => (refusal.number, 0, refusal.offset),
    }
}

fn grader(sheet: &[u8], results: &mut [u8]) -> Answer {
    let answer = grader::grade(sheet, results);
    (answer.number, answer.units, answer.offset)
}

fn library_mold(sheet: &[u8], results: &mut [u8]) -> Answer {
    match hatmuyon::grade_mold(sheet, results) {
        Ok(graded) => (0, graded.units(), sheet.len()),
        Err(refusal) => (refusal.number, 0, refusal.offset),
    }
}

fn grader_mold(sheet: &[u8], results: &mut [u8]) -> Answer {
    let answer = grader::mold::grade(sheet, results);
    (answer.number, answer.units, answer.offset)
}

fn library_regrade(sheet: &[u8], plan: &[u8], results: &mut [u8]) -> Answer {
    let (place, room) = (results.as_mut_ptr(), results.len());
    // Safety: a slice's pointer is not null and valid for its length, and a slice that may be written
    // overlaps no other.
    let answer = unsafe {
        hatmuyon_regrade(sheet.as_ptr(), sheet.len(), plan.as_ptr(), plan.len(), place, room)
    };
    (answer.number, answer.units, answer.offset)
}

fn grader_regrade(sheet: &[u8], plan: &[u8], results: &mut [u8]) -> Answer {
    let answer = grader::regrade::regrade(sheet, plan, results);
    (answer.number, answer.units, answer.offset)
}

fn library_find(results: &[u8], code: u16) -> Answer {
    // Safety: a slice's pointer is not null and valid for its length.
    let part = unsafe { hatmuyon_find_code(results.as_ptr(), results.len(), code) };
    (part.number, part.offset, part.length)
}

/// By the grader's reading that ends at the first Substandard portion of the code.
fn grader_find(results: &[u8], code: u16) -> Answer {
    let (number, part) = grader::lookup::find_ended(results, code);
    (number, part.as_ptr().addr() - results.as_ptr().addr(), part.len())
}

/// Into no buffer: of a lot nothing is written.
fn library_lot(lot: &[u8], _: &mut [u8]) -> Answer {
    // Safety: a slice's pointer is not null and valid for its length.
    let answer = unsafe { hatmuyon_grade_lot(lot.as_ptr(), lot.len()) };
    (answer.number, answer.grade.into(), answer.offset)
}

fn grader_lot(lot: &[u8], _: &mut [u8]) -> Answer {
    let answer = grader::lot::grade_lot(lot);
    (answer.number, answer.grade.into(), answer.offset)
}

/// The grader without its map: the code grades are found with the library's scheme of reading.
fn grader_reads_alike(sheet: &[u8], results: &mut [u8]) -> Answer {
    let answer = grader::grade_but_codes(sheet, results);
    grade_codes(&mut results[..RESULT_SIZE * answer.units]);
    (answer.number, answer.units, answer.offset)
}

/// The tuned grader without its table by code, in the same way.
fn tuned_reads_alike(sheet: &[u8], results: &mut [u8]) -> Answer {
    let answer = tuned::grade_but_codes(sheet, results);
    grade_codes(&mut results[..RESULT_SIZE * answer.1]);
    answer
}

/// Standings.
const FAILED: u8 = 1;
const RECOVERED: u8 = 3;
/// In place of the code grade while the code is not graded.
const UNGRADED: u8 = 255;

/// Code grades in place, as the library reads: one look at each record tells whether its code is
/// graded; from the record where a code is first met on, the records are read once for the worst
/// portion grade and once to write it.
fn grade_codes(results: &mut [u8]) {
    fn code(record: &[u8]) -> [u8; 2] {
        [record[RESULT_CODE], record[RESULT_CODE + 1]]
    }
    for record in results.chunks_exact_mut(RESULT_SIZE) {
        record[RESULT_CODE_GRADE] = UNGRADED;
    }
    for start in (0..results.len()).step_by(RESULT_SIZE) {
        if results[start + RESULT_CODE_GRADE] == UNGRADED {
            let this = code(&results[start..]);
            let mut worst = 0;
            for record in results[start..].chunks_exact(RESULT_SIZE) {
                if code(record) == this {
                    worst = worst.max(record[RESULT_PORTION_GRADE]);
                }
            }
            for record in results[start..].chunks_exact_mut(RESULT_SIZE) {
                if code(record) == this {
                    record[RESULT_CODE_GRADE] = worst;
                }
            }
        }
    }
}

/// So many random sheets of each kind the library and the tuned grader are compared on.
const RANDOM_SHEETS: u64 = 4000;

/// The library and the tuned grader, with its table and without, must agree on random sheets: on the
/// answer and on every byte of the buffer.
fn compare(tuned: &mut Tuned) {
    for seed in 0..RANDOM_SHEETS {
        let case = generate::any_case(seed);
        let outcome = |contender: Contender| {
            let mut buffer = vec![seed as u8; case.room];
            (contender(&case.sheet, &mut buffer), buffer)
        };
        let expected = outcome(&mut library);
        let with_table = outcome(&mut |sheet, results| tuned.grade(sheet, results));
        assert!(with_table == expected, "the tuned grader differs at seed {seed}");
        let reads_alike = outcome(&mut tuned_reads_alike);
        assert!(
            reads_alike == expected,
            "the tuned grader that reads alike differs at seed {seed}"
        );
    }
}

/// The same with random mold sheets.
fn compare_mold() {
    for seed in 0..RANDOM_SHEETS {
        let (sheet, room) = random_mold(&mut Dice(seed));
        let outcome = |contender: Contender| {
            let mut buffer = vec![seed as u8; room];
            (contender(&sheet, &mut buffer), buffer)
        };
        assert!(
            outcome(&mut tuned::grade_mold) == outcome(&mut library_mold),
            "the tuned grader differs on the mold sheet of seed {seed}"
        );
    }
}

/// The same with random regradings.
fn compare_regradings(tuned: &mut Tuned) {
    for seed in 0..RANDOM_SHEETS {
        let case = regrade_case(seed);
        let outcome = |contender: Contender| {
            let mut buffer = vec![seed as u8; case.room];
            (contender(&case.sheet, &mut buffer), buffer)
        };
        let expected = outcome(&mut |sheet, results| library_regrade(sheet, &case.plan, results));
        assert!(
            outcome(&mut |sheet, results| tuned.regrade(sheet, &case.plan, results)) == expected,
            "the tuned grader differs on the regrading of seed {seed}"
        );
    }
}

/// The same with random look-ups.
fn compare_lookups() {
    for seed in 0..RANDOM_SHEETS {
        let case = lookup_case(seed);
        assert!(
            tuned::find(&case.results, case.code) == library_find(&case.results, case.code),
            "the tuned grader differs on the look-up of seed {seed}"
        );
    }
}

/// The same with random lots.
fn compare_lots() {
    for seed in 0..RANDOM_SHEETS {
        let lot = lot_case(seed).lot;
        assert!(
            tuned::grade_lot(&lot, &mut []) == library_lot(&lot, &mut []),
            "the tuned grader differs on the lot of seed {seed}"
        );
    }
}

/// A random mold sheet, and room for its results, or a little less. Some have a level row or a count
/// too large, a unit too many, another byte somewhere, or are cut.
fn random_mold(dice: &mut Dice) -> (Vec<u8>, usize) {
    let row = if dice.chance(5) { MOLD_LEVELS } else { dice.below(MOLD_LEVELS.into()) as u8 };
    let units = if dice.chance(2) { MOST_UNITS - 2 + dice.below(5) } else { dice.below(30) };
    let most = usize::from(MOST_POSITIVE_FIELDS);
    let end = dice.pick(&[3, 6, 12, most + 1, most + 2]);
    let mut sheet = mold(row, (0..units).map(|_| dice.below(end) as u8));
    if dice.chance(10) {
        let at = dice.below(sheet.len());
        sheet[at] = dice.below(256) as u8;
    }
    if dice.chance(10) {
        sheet.truncate(dice.below(sheet.len()));
    }
    let room = MOLD_RESULT_SIZE * units + dice.below(8);
    (sheet, room.saturating_sub(dice.pick(&[0, 0, 4])))
}

/// The time of one grading.
#[derive(Clone, Copy)]
struct Time {
    median: f64,
    least: f64,
}

impl Time {
    fn per(self, divisor: f64) -> Time {
        Time { median: self.median / divisor, least: self.least / divisor }
    }
}

/// The time of each contender in nanoseconds; the answer and the buffer. It has room for the result
/// records of so many units, of this size.
fn times<const N: usize>(
    mut contenders: [Contender; N],
    sheet: &[u8],
    units: usize,
    result_size: usize,
    rounds: usize,
) -> ([Time; N], Answer, Vec<u8>) {
    let outcomes = contenders.each_mut().map(|contender| {
        let mut buffer = vec![0; result_size * units];
        (contender(sheet, &mut buffer), buffer)
    });
    assert!(outcomes.iter().all(|outcome| *outcome == outcomes[0]), "the contenders differ");
    let gradings = (1000 / units).max(1);
    let mut buffers = vec![vec![0; result_size * units]; gradings];
    let mut samples = [(); N].map(|()| Vec::with_capacity(rounds));
    for _ in 0..rounds {
        for (contender, samples) in contenders.iter_mut().zip(&mut samples) {
            buffers.iter_mut().for_each(|buffer| buffer.fill(0));
            let start = Instant::now();
            for buffer in &mut buffers {
                black_box(contender(black_box(sheet), buffer));
            }
            samples.push(start.elapsed().as_nanos() as f64);
        }
    }
    let times = samples.map(|mut samples| {
        samples.sort_by(f64::total_cmp);
        Time { median: samples[rounds / 2], least: samples[0] }.per(gradings as f64)
    });
    let (answer, results) = outcomes[0].clone();
    (times, answer, results)
}

fn unit(code: usize, counts: [i64; 4]) -> Record {
    Record::Unit(Unit { code: code as u16, counts, prerequisite: 0, recoverable: true })
}

/// A unit that meets the peach plan, one that fails A and grades B, and one that fails B and grades C.
const MEETS: [i64; 4] = [0, 1, 1, 2];
const FAILS: [i64; 4] = [0, 2, 5, 6];
const FAILS_B: [i64; 4] = [0, 2, 5, 13];

/// A sheet of units that meet, with so many codes.
fn plain(units: usize, codes: usize) -> Vec<Record> {
    (0..units).map(|i| unit(i % codes, MEETS)).collect()
}

/// Two units fail and three qualify, again and again.
fn in_and_out() -> Vec<Record> {
    (0..1000).map(|i| unit(1, if i % 5 < 2 { FAILS } else { MEETS })).collect()
}

/// Two units fail A, two fail B in step 3 and three qualify under C, again and again.
fn down_to_c() -> Vec<Record> {
    let counts = [FAILS, FAILS, FAILS_B, FAILS_B, MEETS, MEETS, MEETS].into_iter().cycle();
    counts.take(1000).map(|counts| unit(1, counts)).collect()
}

/// Every second unit fails, so that step 3 never begins.
fn every_second_fails() -> Vec<Record> {
    (0..1000).map(|i| unit(1, if i % 2 == 0 { FAILS } else { MEETS })).collect()
}

fn refused_last() -> Vec<Record> {
    let mut records = plain(1000, 1);
    records.push(Record::Redesignation(0));
    records
}

fn with_breaks() -> Vec<Record> {
    let mut records = Vec::new();
    for unit in plain(1000, 1) {
        records.extend([Record::Break; 20]);
        records.push(unit);
    }
    records
}

/// A sheet with five codes, a break before every 50th unit and a redesignation before every 40th. Two
/// units in a row of every ten fail B.
fn to_regrade() -> Vec<Record> {
    let mut records = Vec::new();
    for i in 0..1000 {
        if i % 50 == 49 {
            records.push(Record::Break);
        }
        if i % 40 == 39 {
            records.push(Record::Redesignation(if i % 80 == 39 { 1 } else { 0 }));
        }
        records.push(unit(i % 5, if (3..5).contains(&(i % 10)) { FAILS_B } else { MEETS }));
    }
    records
}

/// The bytes of a sheet under the peach plan, grade A designated.
fn bytes(records: Vec<Record>) -> Vec<u8> {
    let table = table(PEACH);
    Sheet { designated: 0, table, records }.bytes()
}

/// The second plan: the peach plan, grade B designated.
fn second_plan() -> Vec<u8> {
    Sheet { designated: 1, table: table(PEACH), records: Vec::new() }.bytes()
}

/// A mold sheet with a level row and units of so many positive fields, all with one code.
fn mold(row: u8, fields: impl Iterator<Item = u8>) -> Vec<u8> {
    let units = fields.flat_map(|fields| -> [u8; MOLD_UNIT_SIZE] { [0x4D, 0x55, 0, 1, fields] });
    [0x4D, 0x44, row].into_iter().chain(units).collect()
}

/// The manual's mold count record, again and again: every fifth unit fails.
fn every_fifth_fails() -> Vec<u8> {
    mold(2, [3, 3, 2, 6, 3].into_iter().cycle().take(1000))
}

/// The results of units that meet, with so many codes, all of grade A.
fn finished(units: usize, codes: usize) -> Vec<u8> {
    let mut results = vec![0; RESULT_SIZE * units];
    assert_eq!(library(&bytes(plain(units, codes)), &mut results).0, 0);
    results
}

/// So are these, but for the first unit: it is Substandard.
fn first_substandard(units: usize, codes: usize) -> Vec<u8> {
    let mut results = finished(units, codes);
    results[RESULT_PORTION_GRADE] = 3;
    results
}

/// A lot of 13 sample units with a critical, a severe and a major defect, so many minor ones, and this
/// prerequisite. The AQLs rise from grade to grade; the acceptance numbers of total are 7, 15 and 15.
fn lot(minor: u16, prerequisite: u8) -> Vec<u8> {
    let aqls = [[10, 15, 40, 50], [15, 25, 50, 125], [25, 40, 50, 125]];
    Lot { sample_units: 13, aqls, counts: [1, 1, 1, minor], prerequisite }.bytes()
}

/// The library, the independent grader and the tuned one.
type Times = [Time; 3];

fn head(name: &str, of: &str) {
    let columns =
        format!("{:>9}{:>9}{:>7}{:>9}{:>7}", "library", "grader", "ratio", "tuned", "ratio");
    println!("{:<52}{:>41}{:>41}", "", "median", "least");
    println!("{name:<52}{columns}{columns}");
    let units = format!("{of:>9}{of:>9}{:>7}{of:>9}{:>7}", "", "");
    println!("{:<52}{units}{units}", "");
}

fn row(name: &str, times: Times) {
    let columns = |[library, grader, tuned]: [f64; 3]| {
        let (to_grader, to_tuned) = (library / grader, library / tuned);
        format!("{library:>9.2}{grader:>9.2}{to_grader:>7.2}{tuned:>9.2}{to_tuned:>7.2}")
    };
    let (median, least) =
        (columns(times.map(|time| time.median)), columns(times.map(|time| time.least)));
    println!("{name:<52}{median}{least}");
}

fn main() {
    let rounds = match std::env::args().nth(1) {
        Some(word) => word.parse::<usize>().expect("ROUNDS is a number").max(1),
        None => 501,
    };
    let mut table_by_code = Tuned::new();
    compare(&mut table_by_code);
    compare_mold();
    let mut regrader = Tuned::new();
    compare_regradings(&mut regrader);
    compare_lookups();
    compare_lots();
    let mut tuned = |sheet: &[u8], results: &mut [u8]| table_by_code.grade(sheet, results);
    println!("The library beside the independent grader and the tuned one, {rounds} rounds, tally");
    println!(
        "sheets under the peach plan; all built for release, result buffers cleared before each"
    );
    println!("grading (not timed).");
    println!(
        "The library and the tuned grader agree on {RANDOM_SHEETS} random sheets, and on as many"
    );
    println!("mold sheets, regradings, look-ups and lots.");
    println!();

    head("sheet", "us");
    // Each with its units, its expected number, and how many units must be recovered and how many must
    // have an overshoot.
    for (name, units, records, number, recovered, over) in [
        ("40 units, 5 codes", 40, plain(40, 5), 0, 0, 0),
        ("1,000 units, 1 code", 1000, plain(1000, 1), 0, 0, 0),
        ("1,000 units, 1,000 codes; a map, a table by code", 1000, plain(1000, 1000), 0, 0, 0),
        ("1,000 units, every second fails", 1000, every_second_fails(), 0, 0, 500),
        ("1,000 units in and out of step 3, 600 recovered", 1000, in_and_out(), 0, 600, 400),
        ("1,000 units, down to C in step 3, 426 recovered", 1000, down_to_c(), 0, 426, 572),
        ("1,000 units, refused at the last record", 1000, refused_last(), 11, 0, 0),
        ("1,000 units, 20,000 breaks", 1000, with_breaks(), 0, 0, 0),
    ] {
        let contenders: [Contender; 3] = [&mut library, &mut grader, &mut tuned];
        let (times, answer, results) =
            times(contenders, &bytes(records), units, RESULT_SIZE, rounds);
        let count = |holds: fn(&[u8]) -> bool| {
            results.chunks_exact(RESULT_SIZE).filter(|record| holds(record)).count()
        };
        let found = (
            answer.0,
            count(|record| record[RESULT_STANDING] == RECOVERED),
            count(|record| record[RESULT_CRITICAL_OVERSHOOT..].iter().any(|&byte| byte != 0)),
        );
        assert_eq!(found, (number, recovered, over), "{name}");
        row(name, times.map(|time| time.per(1000.0)));
    }
    let sheet = bytes(plain(1000, 1000));
    let alike: [Contender; 3] = [&mut library, &mut grader_reads_alike, &mut tuned_reads_alike];
    let (alike, ..) = times(alike, &sheet, 1000, RESULT_SIZE, rounds);
    row("1,000 units, 1,000 codes; all read alike (*)", alike.map(|time| time.per(1000.0)));
    let contenders: [Contender; 3] = [&mut library_mold, &mut grader_mold, &mut tuned::grade_mold];
    let (mold, answer, results) =
        times(contenders, &every_fifth_fails(), 1000, MOLD_RESULT_SIZE, rounds);
    let failed =
        results.chunks_exact(MOLD_RESULT_SIZE).filter(|record| record[MOLD_RESULT_MET] == 0);
    assert_eq!((answer.0, failed.count()), (0, 200), "mold");
    row("1,000 mold units, every fifth fails", mold.map(|time| time.per(1000.0)));
    let plan = second_plan();
    let contenders: [Contender; 3] = [
        &mut |sheet, results| library_regrade(sheet, &plan, results),
        &mut |sheet, results| grader_regrade(sheet, &plan, results),
        &mut |sheet, results| regrader.regrade(sheet, &plan, results),
    ];
    let (regrading, answer, results) =
        times(contenders, &bytes(to_regrade()), 1000, RESULT_SIZE, rounds);
    let failed =
        results.chunks_exact(RESULT_SIZE).filter(|record| record[RESULT_STANDING] == FAILED);
    assert_eq!((answer.0, failed.count()), (0, 200), "regrading");
    row("1,000 units regraded, 5 codes, 200 fail", regrading.map(|time| time.per(1000.0)));
    println!();
    println!("(*) The grader's map and the tuned grader's table are left out. The code grades are");
    println!("    found over the result records, in the library's scheme: from each code's first");
    println!("    record on, all records are read twice.");

    println!();
    head("plan alone", "ns");
    // As if of one unit, so that it is done often in a round; nothing is written.
    let alone = bytes(Vec::new());
    let graded: [Contender; 3] = [&mut library, &mut grader, &mut tuned];
    let (graded, answer, _) = times(graded, &alone, 1, 0, rounds);
    assert_eq!(answer, (0, 0, alone.len()), "plan alone");
    row("no record, graded", graded);
    let regraded: [Contender; 3] = [
        &mut |sheet, results| library_regrade(sheet, &plan, results),
        &mut |sheet, results| grader_regrade(sheet, &plan, results),
        &mut |sheet, results| regrader.regrade(sheet, &plan, results),
    ];
    let (regraded, answer, _) = times(regraded, &alone, 1, 0, rounds);
    assert_eq!(answer, (0, 0, alone.len()), "plan alone, regraded");
    row("no record, regraded", regraded);

    println!();
    head("look-up", "ns");
    // Each with its code and its expected number and offset.
    for (name, results, code, number, offset) in [
        ("find, one record, Substandard", first_substandard(1, 1), 0, 0, 0),
        ("find, first record Substandard, 1,000 records", first_substandard(1000, 5), 0, 0, 0),
        ("find, not there, 1,000 records", finished(1000, 5), 5, 1, 0),
        ("find, code in every record, 1,000 records", finished(1000, 1), 0, 0, 0),
        ("find, code in every fifth record, 1,000 records", finished(1000, 5), 4, 0, 128),
    ] {
        let contenders: [Contender; 3] = [
            &mut |results, _| library_find(results, black_box(code)),
            &mut |results, _| grader_find(results, black_box(code)),
            &mut |results, _| tuned::find(results, black_box(code)),
        ];
        // As if of one unit, so that it is done often in a round; nothing is written.
        let (times, answer, _) = times(contenders, &results, 1, 0, rounds);
        assert_eq!((answer.0, answer.1), (number, offset), "{name}");
        row(name, times);
    }

    println!();
    head("lot", "ns");
    // Each with its expected number and grade. In the Substandard one each grade fails in total, the last
    // class; the refused ones meet the last ground and the first.
    for (name, lot, number, grade) in [
        ("lot, grade A", lot(4, 0), 0, 0),
        ("lot, Substandard, three grades looked at", lot(13, 0), 0, 3),
        ("lot, refused with 9, the last ground", lot(4, 4), 9, 3),
        ("lot, refused with 6, no byte", Vec::new(), 6, 3),
    ] {
        let contenders: [Contender; 3] = [&mut library_lot, &mut grader_lot, &mut tuned::grade_lot];
        // As if of one unit, so that it is done often in a round.
        let (times, answer, _) = times(contenders, &lot, 1, 0, rounds);
        assert_eq!((answer.0, answer.1), (number, grade), "{name}");
        row(name, times);
    }

    for (name, codes) in [("growth, one code", 1), ("growth, a code for each unit", 1000)] {
        println!();
        head(name, "ns/unit");
        for units in [10, 100, 1000] {
            let contenders: [Contender; 3] = [&mut library, &mut grader, &mut tuned];
            let (times, ..) =
                times(contenders, &bytes(plain(units, codes)), units, RESULT_SIZE, rounds);
            row(&format!("{units} units"), times.map(|time| time.per(units as f64)));
        }
    }
}
