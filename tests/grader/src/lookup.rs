//! "What became of this code", A.6 of paper 02: the look-up of one code in finished results. The
//! sentences in quotation marks are those of A.6 where no paper is named. A result record has the
//! fields of paper 01, in 32 bytes (A.1 of paper 02). How many records there may be is not said: any
//! number of them is read here, and whether a grading could have made them is not looked at.

use crate::rules::RESULT_SIZE;
use crate::sheet::{Grade, SUBSTANDARD};

/// "a separate number is 0 for found, 1 for not there, or 19"
pub const FOUND: u32 = 0;
pub const NOT_THERE: u32 = 1;
pub const WRONG_LENGTH: u32 = 19;

/// "Result, 47 52, [...]: code (2)" (paper 01), "high byte first" (paper 01). "Marks are not looked
/// at."
pub(crate) fn code_of(record: &[u8]) -> u16 {
    u16::from_be_bytes([record[2], record[3]])
}

/// "portion grade (1)" (paper 01), behind the code. "A grade byte of 3 or more is Substandard."
pub(crate) fn portion_grade(record: &[u8]) -> Grade {
    record[4].min(SUBSTANDARD)
}

/// "19, results not a multiple of 32 bytes long, offset 0, before reading." No byte is a multiple.
fn is_wrong_length(results: &[u8]) -> bool {
    !results.len().is_multiple_of(RESULT_SIZE)
}

/// The full reading: the number, and the place of "the first record of that code whose portion grade
/// is the worst the code has" among the records, counted from 0.
fn full_reading(results: &[u8], code: u16) -> (u32, Option<usize>) {
    if is_wrong_length(results) {
        return (WRONG_LENGTH, None);
    }
    // "the worst the code has", over all records.
    let mut worst: Option<Grade> = None;
    for record in results.chunks_exact(RESULT_SIZE) {
        if code_of(record) == code {
            worst = worst.max(Some(portion_grade(record)));
        }
    }
    // "A code that isn't there gets 'not on this sheet', and only then."
    let Some(worst) = worst else {
        return (NOT_THERE, None);
    };
    // "the first record of that code" with it.
    let is_it = |record: &[u8]| code_of(record) == code && portion_grade(record) == worst;
    (FOUND, results.chunks_exact(RESULT_SIZE).position(is_it))
}

/// The number and, "as part of those results", the record. Not there "and after 19 the part handed
/// back is empty".
pub fn find(results: &[u8], code: u16) -> (u32, &[u8]) {
    let (number, place) = full_reading(results, code);
    match place {
        Some(place) => (number, &results[RESULT_SIZE * place..RESULT_SIZE * (place + 1)]),
        None => (number, &results[..0]),
    }
}

/// What [`find`] hands back, as the place of the part: offset and length in bytes, from the start of
/// the results; both 0 where the part is empty.
#[derive(Clone, Copy, Debug, PartialEq, Eq)]
pub struct Part {
    pub number: u32,
    pub offset: usize,
    pub length: usize,
}

impl Part {
    /// The record at this place among the records, counted from 0.
    pub fn record(place: usize) -> Part {
        Part { number: FOUND, offset: RESULT_SIZE * place, length: RESULT_SIZE }
    }

    /// The empty part, of a code that is not there or of results of a wrong length.
    pub fn empty(number: u32) -> Part {
        Part { number, offset: 0, length: 0 }
    }
}

/// As [`find`].
pub fn part(results: &[u8], code: u16) -> Part {
    let (number, place) = full_reading(results, code);
    place.map_or(Part::empty(number), Part::record)
}

/// "Reading ends at the first Substandard portion of that code": how many records are looked at,
/// one after the other from the first on, with the one at which it ends; all of them if there is no
/// such portion. None after 19, which comes "before reading".
pub fn records_read(results: &[u8], code: u16) -> usize {
    if is_wrong_length(results) {
        return 0;
    }
    let ends =
        |record: &[u8]| code_of(record) == code && (SUBSTANDARD..=u8::MAX).contains(&record[4]);
    let end = results.chunks_exact(RESULT_SIZE).position(ends);
    end.map_or(results.len() / RESULT_SIZE, |place| place + 1)
}

/// As [`find`], in one pass that ends at the first Substandard portion of the code: "the answer equals
/// that of a full reading".
pub fn find_ended(results: &[u8], code: u16) -> (u32, &[u8]) {
    let (mut number, mut found) = (NOT_THERE, &results[..0]);
    let mut rest = results;
    if !results.chunks_exact(RESULT_SIZE).remainder().is_empty() {
        (number, rest) = (WRONG_LENGTH, found);
    }
    let [high, low] = code.to_be_bytes();
    while let [_, _, first, second, portion, ..] = *rest {
        let record;
        (record, rest) = rest.split_at(RESULT_SIZE);
        if [first, second] != [high, low] {
            continue;
        }
        if portion >= SUBSTANDARD {
            return (FOUND, record);
        }
        // Of equal portions the first stays. All before the end are of A, B or C.
        if found.is_empty() || portion > found[4] {
            (number, found) = (FOUND, record);
        }
    }
    (number, found)
}

/// One line. The papers do not say how a look-up is printed: "found", the offset of the part and its
/// bytes, all in decimal and parted by one space; "not on this sheet"; or "refused", number and
/// offset, as for a sheet. Number 15 is about sheets, and is not used here.
pub fn print(results: &[u8], code: u16) -> String {
    let Part { number, offset, length } = part(results, code);
    match number {
        FOUND => {
            let bytes = results[offset..offset + length].iter().map(|byte| format!(" {byte}"));
            format!("found {offset}{}\n", bytes.collect::<String>())
        }
        NOT_THERE => "not on this sheet\n".to_string(),
        _ => format!("refused {number} 0\n"),
    }
}
