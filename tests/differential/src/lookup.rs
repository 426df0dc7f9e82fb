//! Look-ups of one code (A.6 of paper 02): the library against the independent grader, in random
//! results and in those that gradings and regradings left.

use crate::grader_command;
use grader::generate::{Counts, Dice};
use grader::generate_lookup::{lookup_case, LookupCase, Made};
use grader::lookup::{find_ended, part, Part, FOUND, NOT_THERE};
use hatmuyon::{ffi, MOST_UNITS, RESULT_SIZE};
use std::collections::BTreeSet;
use std::fmt::Debug;

/// Bytes before the results, and behind them: one record.
const GUARD: usize = RESULT_SIZE;

/// Says what differs, writes the results to a file, says how to see what the grader prints for them,
/// and ends the run.
fn report(
    what: &str,
    seed: u64,
    results: &[u8],
    code: u16,
    ours: &dyn Debug,
    theirs: &dyn Debug,
) -> ! {
    println!("differential: {what} of a look-up differs at seed {seed}");
    println!("  library: {ours:?}\n  grader:  {theirs:?}");
    let path = std::env::temp_dir().join(format!("hatmuyon-differs-{seed}.results"));
    std::fs::write(&path, results).expect("cannot write the results");
    let path = path.display();
    println!("  the sheet: {path}");
    println!("  see it: {} -- --find {code} < {path}", grader_command());
    std::process::exit(1);
}

fn code_of(record: &[u8]) -> u16 {
    u16::from_be_bytes([record[ffi::RESULT_CODE], record[ffi::RESULT_CODE + 1]])
}

/// A record of this code, Substandard.
fn substandard(code: u16) -> [u8; RESULT_SIZE] {
    let [high, low] = code.to_be_bytes();
    let mut record = [3; RESULT_SIZE];
    record[..4].copy_from_slice(&[0x47, 0x52, high, low]);
    record
}

/// Looks up a code by the library, in results inside a larger buffer, all of which must stay as it was.
/// Compares its answer with both readings of the grader, the full one and the one that ends, and hands
/// out the part.
fn compare_bytes(seed: u64, results: &[u8], code: u16) -> (Part, &[u8]) {
    // Guard bytes that would be found if they were looked at.
    let guard = substandard(code);
    let mut memory = [&guard, results, &guard].concat();
    let lent = memory[GUARD..GUARD + results.len()].as_mut_ptr();
    // Safety: the pointer is valid for the length.
    let returned = unsafe { ffi::hatmuyon_find_code(lent, results.len(), code) };
    let (before, rest) = memory.split_at(GUARD);
    let (lent, behind) = rest.split_at(results.len());
    if [before, behind] != [&guard; 2] {
        report("a guard byte", seed, results, code, &[before, behind], &guard);
    }
    if lent != results {
        let at = lent.iter().zip(results).position(|(a, b)| a != b).unwrap_or(0);
        let what = format!("byte {at} of the results");
        report(&what, seed, results, code, &lent[at], &results[at]);
    }
    let ffi::Part { number, offset, length } = returned;
    let (returned, expected) = (Part { number, offset, length }, part(results, code));
    if returned != expected {
        report("the answer", seed, results, code, &returned, &expected);
    }
    let found = find_ended(results, code);
    let bytes = &lent[offset..offset + length];
    if (number, bytes) != found {
        report("the part", seed, results, code, &(number, bytes), &found);
    }
    (returned, found.1)
}

fn compare_case(seed: u64, case: &LookupCase, counts: &mut Counts) {
    let (part, _) = compare_bytes(seed, &case.results, case.code);
    counts.note_lookup(case, part);
}

/// Compares the look-up of this seed.
pub fn compare(seed: u64, counts: &mut Counts) {
    compare_case(seed, &lookup_case(seed), counts);
}

/// As [`compare`], behind 1,000 and more records of another code, Substandard.
pub fn compare_long(seed: u64, counts: &mut Counts) {
    let mut case = lookup_case(seed);
    let records = MOST_UNITS + Dice(seed).below(1_100);
    let before = substandard(case.code ^ 1).repeat(records);
    case.results.splice(..0, before);
    case.expected = None;
    if matches!(case.made, Made::Grading | Made::Regrading) {
        case.made = Made::Changed;
    }
    compare_case(seed, &case, counts);
}

/// Looks up codes in the records that the library left of a sheet: those of the first and of the last
/// unit, and one that no unit has. "the code grade: the worst portion grade among all units of the
/// sheet with that code" (paper 01): so it is the portion grade of the record found.
pub fn in_records(seed: u64, left_by: &str, records: &[u8], counts: &mut Counts) {
    let mut count = |name: &str, is: bool| {
        counts.add(&format!("lookup: in records left by {left_by}, {name}"), is.into());
    };
    let units = || records.chunks_exact(RESULT_SIZE);
    let own = [("first", units().next()), ("last", units().next_back())];
    for (which, unit) in own {
        count(&format!("the {which} unit's code"), unit.is_some());
        let Some(code) = unit.map(code_of) else { continue };
        let (part, found) = compare_bytes(seed, records, code);
        let is_it = part.number == FOUND
            && code_of(found) == code
            && found[ffi::RESULT_PORTION_GRADE] == found[ffi::RESULT_CODE_GRADE];
        if !is_it {
            let wanted = "a record of the code, with the code grade as portion grade";
            report("the part by the code grade", seed, records, code, &(part, found), &wanted);
        }
    }
    // Near the others: the bytes of the first unit's code exchanged, or the next from there on that no
    // unit has.
    let codes: BTreeSet<u16> = units().map(code_of).collect();
    let near = units().next().map_or(0, code_of).swap_bytes();
    let mut others = (near..=u16::MAX).chain(0..near).filter(|code| !codes.contains(code));
    let other = others.next().expect("at most 1,000 units");
    let (part, _) = compare_bytes(seed, records, other);
    if part.number != NOT_THERE {
        report("the part by the codes", seed, records, other, &part, &"not on this sheet");
    }
    count("a code of no unit", !codes.is_empty());
    count("no unit", codes.is_empty());
}
