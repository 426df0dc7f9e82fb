//! What became of a code: a look-up in finished results, what it finds and its refusal.

use crate::{ffi, say_refused, Graded, Record, ResultRecord, RESULT_SIZE};
use std::fmt;

/// Finds, in finished results, what became of a code: the first record of the code whose portion grade
/// is the worst that the code has. `None` is 'not on this sheet': no record has the code.
///
/// The results are bytes of any origin, taken as result records of [`RESULT_SIZE`] bytes one after the
/// other, as [`grade`](crate::grade) and [`regrade`](crate::regrade) write them; no byte at all is no
/// record. Those of a grading are its [`Graded::bytes`]: what lies behind them in the result buffer
/// would be taken for records, too. The records of a mold sheet have no code.
///
/// Of a record the code and the portion grade are looked at; its mark, its code grade and all else are
/// not. A portion grade of 3 or more is [`Substandard`](crate::Grade::Substandard). Reading ends at the
/// first Substandard portion of the code; the answer is that of a full reading. Nothing is written, and
/// nothing allocated.
///
/// Results that are not a multiple of [`RESULT_SIZE`] bytes long are refused before they are read, and
/// no others.
///
/// ```
/// use hatmuyon::{find, grade, Grade, LookupGround, RESULT_SIZE};
///
/// // A plan with grade A designated; S is 0, T and L are 5.0, in every grade and class.
/// let mut sheet = vec![0x50, 0x4C, 0];
/// sheet.extend([0, 0, 0, 50, 0, 50].repeat(12));
/// // Three sample units with code 7, of prerequisite A, C and C; between them one with code 8.
/// for (code, prerequisite) in [(7, 0), (7, 2), (8, 3), (7, 2)] {
///     sheet.extend([0x53, 0x55, 0, code, 0, 0, 0, 0, 0, 0, 0, 0, prerequisite, 0]);
/// }
/// let mut results = [0; 4 * RESULT_SIZE];
/// let graded = grade(&sheet, &mut results)?;
///
/// let found = graded.find(7).expect("not on this sheet");
/// assert_eq!(found.offset(), RESULT_SIZE);
/// assert_eq!(found.record().portion_grade, Grade::C);
/// assert_eq!(graded.find(9), None);
///
/// // The same in results from elsewhere.
/// let found = find(&results, 7)?.expect("not on this sheet");
/// assert_eq!(found.bytes(), &results[RESULT_SIZE..2 * RESULT_SIZE]);
/// assert_eq!(find(&results, 9)?, None);
///
/// let refusal = find(&results[1..], 7).unwrap_err();
/// assert_eq!(refusal.ground(), Some(LookupGround::NotWholeRecords));
/// assert_eq!(
///     refusal.to_string(),
///     "refused 19 at offset 0: results not a multiple of 32 bytes long"
/// );
/// # Ok::<(), Box<dyn std::error::Error>>(())
/// ```
///
/// # Panics
///
/// Never with an archive of this version; see [Versions](crate#versions).
pub fn find(results: &[u8], code: u16) -> Result<Option<Found<'_>>, LookupRefusal> {
    // Safety: a slice's pointer is not null and valid for its length, and none may write to the slice
    // while it is lent.
    let part = unsafe { ffi::hatmuyon_find_code(results.as_ptr(), results.len(), code) };
    handed_back(part, results)
}

/// What is said of a part of these results.
fn handed_back(part: ffi::Part, results: &[u8]) -> Result<Option<Found<'_>>, LookupRefusal> {
    let ffi::Part { number, offset, length } = part;
    match number {
        ffi::FOUND => {}
        ffi::NOT_ON_THIS_SHEET => return Ok(None),
        _ => return Err(LookupRefusal { number, offset }),
    }
    let room = results.len();
    assert!(
        length == RESULT_SIZE && length <= room && offset <= room - length,
        "an archive of another version: a part of {length} bytes at {offset} of {room}"
    );
    Ok(Some(Found { offset, bytes: &results[offset..offset + length] }))
}

impl<'r> Graded<'r> {
    /// What became of a code, as [`find`] finds it in these results; `None` is 'not on this sheet'.
    /// They are whole records, so that nothing is refused.
    ///
    /// # Panics
    ///
    /// Never with an archive of this version; see [Versions](crate#versions).
    pub fn find(&self, code: u16) -> Option<Found<'r>> {
        match find(self.bytes(), code) {
            Ok(found) => found,
            Err(refusal) => panic!("an archive of another version: {refusal}"),
        }
    }
}

/// A record found in finished results, borrowed from them.
#[derive(Clone, Copy, Debug, PartialEq, Eq)]
pub struct Found<'r> {
    offset: usize,
    bytes: &'r [u8],
}

impl<'r> Found<'r> {
    /// Where the record begins in the results: [`RESULT_SIZE`] times the number of records before it.
    pub fn offset(&self) -> usize {
        self.offset
    }

    /// The record as it stands in the results, [`RESULT_SIZE`] bytes: a part of the slice that was lent.
    pub fn bytes(&self) -> &'r [u8] {
        self.bytes
    }

    /// What is recorded there.
    pub fn record(&self) -> Record {
        Record::from_bytes(self.bytes)
    }
}

/// A refused look-up: the number of the ground, and the place.
#[derive(Clone, Copy, Debug, PartialEq, Eq, Hash)]
pub struct LookupRefusal {
    /// The number of the ground, that of a [`LookupGround`] from an archive of this version.
    pub number: u32,
    /// 0 from an archive of this version: the ground is no place in the results, but their length.
    pub offset: usize,
}

impl LookupRefusal {
    /// The ground, or `None` if this version does not know its number: the archive is of another version
    /// then.
    pub fn ground(&self) -> Option<LookupGround> {
        LookupGround::from_number(self.number)
    }
}

impl fmt::Display for LookupRefusal {
    fn fmt(&self, f: &mut fmt::Formatter<'_>) -> fmt::Result {
        say_refused(f, self.number, self.offset, self.ground())
    }
}

impl std::error::Error for LookupRefusal {}

/// A ground on which a look-up is refused. More grounds may follow.
#[derive(Clone, Copy, Debug, PartialEq, Eq, Hash)]
#[repr(u32)]
#[non_exhaustive]
pub enum LookupGround {
    /// The results are not a multiple of 32 bytes long.
    NotWholeRecords = 19,
}

impl LookupGround {
    /// Every ground, by its number.
    pub const ALL: &'static [LookupGround] = &[LookupGround::NotWholeRecords];

    /// The number of the refusal.
    pub fn number(self) -> u32 {
        self as u32
    }

    /// The ground with this number, if there is one.
    pub fn from_number(number: u32) -> Option<LookupGround> {
        LookupGround::ALL.iter().copied().find(|ground| ground.number() == number)
    }
}

impl fmt::Display for LookupGround {
    fn fmt(&self, f: &mut fmt::Formatter<'_>) -> fmt::Result {
        f.write_str(match self {
            LookupGround::NotWholeRecords => "results not a multiple of 32 bytes long",
        })
    }
}

#[cfg(test)]
mod tests {
    use super::*;
    use crate::ffi::Part;
    use crate::VERSION;

    /// What is said of a part in results of three records.
    fn in_three(number: u32, offset: usize, length: usize) -> Result<Option<usize>, LookupRefusal> {
        let results: [u8; 3 * RESULT_SIZE] = std::array::from_fn(|place| place as u8);
        let found = handed_back(Part { number, offset, length }, &results)?;
        Ok(found.map(|found| {
            assert_eq!(found.bytes(), &results[offset..offset + RESULT_SIZE]);
            found.offset()
        }))
    }

    #[test]
    fn parts_of_the_results() {
        for offset in [0, RESULT_SIZE, 2 * RESULT_SIZE] {
            assert_eq!(in_three(0, offset, RESULT_SIZE), Ok(Some(offset)));
        }
        assert_eq!(in_three(1, 0, 0), Ok(None));
        assert_eq!(in_three(19, 0, 0), Err(LookupRefusal { number: 19, offset: 0 }));
    }

    #[test]
    fn a_number_not_known() {
        // Those of sheets among them, but 1, and of lots.
        for number in [2, 13, 14, 15, 18, 20, u32::MAX] {
            let refusal = in_three(number, 64, 32).unwrap_err();
            assert_eq!((refusal.number, refusal.offset, refusal.ground()), (number, 64, None));
            let words = format!(
                "refused {number} at offset 64: a number that version {VERSION} does not know"
            );
            assert_eq!(refusal.to_string(), words);
        }
    }

    #[test]
    #[should_panic(expected = "an archive of another version")]
    fn a_part_behind_the_results() {
        let _ = in_three(0, 3 * RESULT_SIZE, RESULT_SIZE);
    }

    #[test]
    #[should_panic(expected = "an archive of another version")]
    fn a_part_over_the_end() {
        let _ = in_three(0, 2 * RESULT_SIZE + 1, RESULT_SIZE);
    }

    #[test]
    #[should_panic(expected = "an archive of another version")]
    fn a_part_whose_end_overflows() {
        let _ = in_three(0, usize::MAX - RESULT_SIZE + 1, RESULT_SIZE);
    }

    #[test]
    #[should_panic(expected = "an archive of another version")]
    fn a_part_of_no_results() {
        let _ = handed_back(Part { number: 0, offset: 0, length: RESULT_SIZE }, &[]);
    }

    #[test]
    #[should_panic(expected = "an archive of another version")]
    fn an_empty_part_that_is_found() {
        let _ = in_three(0, 0, 0);
    }

    #[test]
    #[should_panic(expected = "an archive of another version")]
    fn a_part_of_another_length() {
        let _ = in_three(0, 0, RESULT_SIZE + 6);
    }
}
