//! Grades the tally sheet of an on-line inspection, and the mold sheet of a tomato line, under the
//! USDA cumulative sum plan, File Code 120 A-6 of August 1978; and a recorded tally sheet again, under
//! a second plan. In finished results it looks up what became of a code. A warehouse lot it grades
//! under the lot single sampling plan, from one sample.
//!
//! A tally sheet is bytes: a plan record, and then sample units, redesignations and breaks in any
//! order. `include/hatmuyon.h` describes them. [`grade`] takes any bytes, and either grades the sheet
//! into a result buffer or refuses it with the [`Ground`] and the place:
//!
//! ```
//! use hatmuyon::{grade, Grade, Ground, Standing, RESULT_SIZE};
//!
//! // A plan with grade A designated; S is 0, T and L are 5.0, in every grade and class.
//! let mut sheet = vec![0x50, 0x4C, 0];
//! for _ in 0..12 {
//!     sheet.extend([0, 0, 0, 50, 0, 50]);
//! }
//! // Two sample units with code 7: six minor defects, then ten.
//! for minor in [6, 10] {
//!     sheet.extend([0x53, 0x55, 0, 7, 0, 0, 0, 0, 0, 0, 0, minor, 0, 0]);
//! }
//!
//! let mut results = [0; 2 * RESULT_SIZE];
//! let graded = grade(&sheet, &mut results)?;
//! assert_eq!(graded.units(), 2);
//! for record in &graded {
//!     assert_eq!((record.code, record.code_grade), (7, Grade::B));
//! }
//! let mut records = graded.records();
//! let first = records.next().unwrap();
//! assert_eq!((first.portion_grade, first.standing), (Grade::A, Standing::Met));
//! assert_eq!((first.cusums, first.overshoots), ([0, 0, 0, 10], [0; 4])); // tenths
//! // 1.0 + 10 - 5.0 = 6.0 is 1.0 above L.
//! let second = records.next().unwrap();
//! assert_eq!((second.portion_grade, second.standing), (Grade::B, Standing::Failed));
//! assert_eq!((second.cusums, second.overshoots), ([0, 0, 0, 50], [0, 0, 0, 10]));
//!
//! // The same without its last byte.
//! let refusal = grade(&sheet[..102], &mut results).unwrap_err();
//! assert_eq!(refusal.ground(), Some(Ground::CutShort));
//! assert_eq!(refusal.offset, 89);
//! # Ok::<(), hatmuyon::Refusal>(())
//! ```
//!
//! [`regrade`] grades a recorded tally sheet again under a second plan record, that of a new buyer. Its
//! records, refusals and grounds are those of [`grade`], with one ground more,
//! [`Ground::BadSecondPlan`].
//!
//! [`find`] looks up what became of a code in the results of either, and so does
//! [`Graded::find`]. That a code is not on this sheet is no refusal. Refusal and ground of a look-up
//! are of types of their own.
//!
//! [`grade_mold`] does the same as [`grade`] with a mold sheet, which counts positive fields. They and
//! defects are never to be added or compared, and neither are their CuSums; records, refusals and
//! grounds of the two sheets are of types apart.
//!
//! [`grade_lot`] grades a warehouse lot, which has no units and no result record: the answer is its
//! grade. Refusal and ground of a lot are of types of their own, too.
//!
//! Gradings and look-ups are those of the proved library `libhatmuyon.a`, which `./archive` at the top
//! of the repository writes (x86-64). The build links it from target/staticlib of the repository, or from the folder that
//! the environment variable `HATMUYON_ARCHIVE_DIR` names.
//!
//! # Versions
//!
//! The crate and the archive must be of one version. The archive does not carry its version, so that
//! the build cannot compare them. Linked with an archive of another version:
//!
//! - A refusal by a number that this version does not know is handed on with its number and offset;
//!   its [`Refusal::ground`], [`MoldRefusal::ground`], [`LookupRefusal::ground`] or
//!   [`LotRefusal::ground`] is `None`.
//! - An answer of more result records than the result buffer has room for, at this version's
//!   [`RESULT_SIZE`] or [`MOLD_RESULT_SIZE`], panics.
//! - A found part that does not lie in the results, or has another length than [`RESULT_SIZE`], panics;
//!   so does any refusal in [`Graded::find`].
//! - Nothing else is checked. If that archive writes records of another size or with other fields,
//!   it keeps to the buffer, but they are read as if they were of this version, and the [`Record`]s
//!   or [`MoldRecord`]s are wrong. If its answer or a function itself has another form, the behaviour
//!   is undefined.

#![warn(missing_docs)]

use std::fmt;
use std::iter::FusedIterator;
use std::marker::PhantomData;
use std::slice::ChunksExact;

pub mod ffi;
mod lookup;
mod lot;
mod mold;
mod regrade;

pub use lookup::{find, Found, LookupGround, LookupRefusal};
pub use lot::{grade_lot, LotGround, LotRefusal, LOT_MARK, LOT_SIZE};
pub use mold::{grade_mold, GradedMold, MoldGround, MoldRecord, MoldRefusal};
pub use mold::{MOLD_LEVELS, MOLD_OPENING_SIZE, MOLD_RESULT_SIZE, MOLD_UNIT_SIZE};
pub use mold::{MOLD_RESULT_MARK, MOLD_SHEET_MARK, MOLD_UNIT_MARK, MOST_POSITIVE_FIELDS};
pub use regrade::regrade;
use sealed::ResultRecord;

/// The version of the crate, which is `HATMUYON_VERSION` of the header: raised with each change of a
/// record or an answer, and of the functions and types in C or Rust.
pub const VERSION: &str = env!("CARGO_PKG_VERSION");

/// The mark that opens a plan record, as a number of two bytes; the high byte comes first.
pub const PLAN_MARK: u16 = 0x504C;
/// The mark of a sample unit on a tally sheet.
pub const UNIT_MARK: u16 = 0x5355;
/// The mark of a redesignation.
pub const REDESIGNATION_MARK: u16 = 0x5244;
/// The mark of a break in production.
pub const BREAK_MARK: u16 = 0x424B;
/// The mark of a result record of a tally sheet.
pub const RESULT_MARK: u16 = 0x4752;

/// Bytes of a plan record.
pub const PLAN_SIZE: usize = 75;
/// Bytes of a sample unit on a tally sheet.
pub const UNIT_SIZE: usize = 14;
/// Bytes of a redesignation.
pub const REDESIGNATION_SIZE: usize = 3;
/// Bytes of a break in production.
pub const BREAK_SIZE: usize = 2;
/// Bytes of a result record of a tally sheet.
pub const RESULT_SIZE: usize = 32;

/// The most sample units on a sheet, so that `RESULT_SIZE * MOST_UNITS` bytes hold the results of
/// any tally sheet, and `MOLD_RESULT_SIZE * MOST_UNITS` those of any mold sheet.
pub const MOST_UNITS: usize = 1000;
/// The largest count of defects of a sample unit, and of a lot.
pub const LARGEST_COUNT: u16 = 2000;
/// The largest S, T and L of a plan, in tenths.
pub const LARGEST_PLAN_NUMBER: u16 = 9999;

/// Grades a tally sheet into a result buffer: one result record of [`RESULT_SIZE`] bytes for each
/// sample unit, in their order.
///
/// An accepted sheet changes only the bytes of its result records, which are lent on in the
/// [`Graded`]; a refused one changes no byte of the buffer. No sheet is refused to which none of
/// the grounds applies. Nothing is allocated.
///
/// ```
/// let mut results = [0xEE; 32];
/// let refusal = hatmuyon::grade(b"not a sheet", &mut results).unwrap_err();
/// assert_eq!(refusal.number, 1);
/// assert_eq!(results, [0xEE; 32]);
/// ```
///
/// # Panics
///
/// Never with an archive of this version; see [Versions](crate#versions).
pub fn grade<'r>(sheet: &[u8], results: &'r mut [u8]) -> Result<Graded<'r>, Refusal> {
    // Safety: a slice's pointer is not null and valid for its length, and a slice that may be
    // written overlaps no other.
    let answer = unsafe {
        ffi::hatmuyon_grade(sheet.as_ptr(), sheet.len(), results.as_mut_ptr(), results.len())
    };
    outcome(answer, results).map_err(|(number, offset)| Refusal { number, offset })
}

mod sealed {
    /// What is recorded of a sample unit: a [`Record`](crate::Record), or a
    /// [`MoldRecord`](crate::MoldRecord).
    pub trait ResultRecord {
        /// Bytes of the result record.
        const SIZE: usize;

        /// From the bytes of the result record.
        fn from_bytes(bytes: &[u8]) -> Self;
    }
}

/// What an answer says, after which the result records are in the buffer if the sheet is accepted;
/// number and offset if it is refused.
fn outcome<R: ResultRecord>(
    answer: ffi::Answer,
    results: &[u8],
) -> Result<Graded<'_, R>, (u32, usize)> {
    let ffi::Answer { number, units, offset } = answer;
    if number != 0 {
        return Err((number, offset));
    }
    let room = results.len() / R::SIZE;
    assert!(units <= room, "an archive of another version: {units} records where {room} have room");
    Ok(Graded { bytes: &results[..R::SIZE * units], records: PhantomData })
}

/// The result records of an accepted sheet, borrowed from the result buffer: each a [`Record`], or a
/// [`MoldRecord`] in the [`GradedMold`] of a mold sheet.
#[derive(Clone, Copy, Debug, PartialEq, Eq)]
pub struct Graded<'r, R = Record> {
    bytes: &'r [u8],
    records: PhantomData<R>,
}

impl<'r, R: ResultRecord> Graded<'r, R> {
    /// The number of sample units on the sheet, which is the number of result records.
    pub fn units(&self) -> usize {
        self.bytes.len() / R::SIZE
    }

    /// The result records as they stand in the buffer, [`RESULT_SIZE`] bytes each, or
    /// [`MOLD_RESULT_SIZE`].
    pub fn bytes(&self) -> &'r [u8] {
        self.bytes
    }

    /// The result records, one for each sample unit, in their order.
    pub fn records(&self) -> Records<'r, R> {
        Records { chunks: self.bytes.chunks_exact(R::SIZE), records: PhantomData }
    }
}

impl<'r, R: ResultRecord> IntoIterator for Graded<'r, R> {
    type Item = R;
    type IntoIter = Records<'r, R>;

    fn into_iter(self) -> Records<'r, R> {
        self.records()
    }
}

impl<'r, R: ResultRecord> IntoIterator for &Graded<'r, R> {
    type Item = R;
    type IntoIter = Records<'r, R>;

    fn into_iter(self) -> Records<'r, R> {
        self.records()
    }
}

/// An iterator over result records; see [`Graded::records`].
#[derive(Clone, Debug)]
pub struct Records<'r, R = Record> {
    chunks: ChunksExact<'r, u8>,
    records: PhantomData<R>,
}

impl<R: ResultRecord> Iterator for Records<'_, R> {
    type Item = R;

    fn next(&mut self) -> Option<R> {
        self.chunks.next().map(R::from_bytes)
    }

    fn size_hint(&self) -> (usize, Option<usize>) {
        self.chunks.size_hint()
    }

    fn nth(&mut self, n: usize) -> Option<R> {
        self.chunks.nth(n).map(R::from_bytes)
    }
}

impl<R: ResultRecord> DoubleEndedIterator for Records<'_, R> {
    fn next_back(&mut self) -> Option<R> {
        self.chunks.next_back().map(R::from_bytes)
    }
}

impl<R: ResultRecord> ExactSizeIterator for Records<'_, R> {}
impl<R: ResultRecord> FusedIterator for Records<'_, R> {}

/// What is recorded of a sample unit on a tally sheet.
///
/// An archive of this version writes grades and standings from 0 to 3. A larger byte, which results of
/// another origin may have, is read as 3: [`Grade::Substandard`], no plan in force,
/// [`Standing::Recovered`]. The mark is not read.
#[derive(Clone, Copy, Debug, PartialEq, Eq, Hash)]
pub struct Record {
    /// The production code.
    pub code: u16,
    /// The grade of the portion that the unit stands for.
    pub portion_grade: Grade,
    /// The grade of the code: the worst portion grade among all units of the sheet with it.
    pub code_grade: Grade,
    /// The grade of the plan in force for the unit, A, B or C, or none.
    pub plan_grade: Option<Grade>,
    /// How the unit stands to the designated plan.
    pub standing: Standing,
    /// The CuSums of the classes critical, severe, major and total, in tenths of a defect; zero if
    /// no plan is in force.
    pub cusums: [u16; 4],
    /// How far each class is over its limit, in the same order and in tenths: the raw value less L of
    /// the plan in force, and zero if the class met or no plan is in force. A class failed exactly if
    /// its overshoot is not zero.
    pub overshoots: [u32; 4],
}

impl ResultRecord for Record {
    const SIZE: usize = RESULT_SIZE;

    fn from_bytes(bytes: &[u8]) -> Record {
        use ffi::*;
        let two = |at: usize| u16::from_be_bytes([bytes[at], bytes[at + 1]]);
        let four = |at: usize| u32::from_be_bytes(std::array::from_fn(|i| bytes[at + i]));
        Record {
            code: two(RESULT_CODE),
            portion_grade: Grade::from_byte(bytes[RESULT_PORTION_GRADE]),
            code_grade: Grade::from_byte(bytes[RESULT_CODE_GRADE]),
            plan_grade: match Grade::from_byte(bytes[RESULT_PLAN_GRADE]) {
                Grade::Substandard => None,
                grade => Some(grade),
            },
            standing: Standing::from_byte(bytes[RESULT_STANDING]),
            cusums: [RESULT_CRITICAL, RESULT_SEVERE, RESULT_MAJOR, RESULT_TOTAL].map(two),
            overshoots: [
                RESULT_CRITICAL_OVERSHOOT,
                RESULT_SEVERE_OVERSHOOT,
                RESULT_MAJOR_OVERSHOOT,
                RESULT_TOTAL_OVERSHOOT,
            ]
            .map(four),
        }
    }
}

/// A grade; a worse one is greater.
#[derive(Clone, Copy, Debug, PartialEq, Eq, PartialOrd, Ord, Hash)]
#[repr(u8)]
#[allow(missing_docs)]
pub enum Grade {
    A = 0,
    B = 1,
    C = 2,
    Substandard = 3,
}

impl Grade {
    fn from_byte(byte: u8) -> Grade {
        match byte {
            0 => Grade::A,
            1 => Grade::B,
            2 => Grade::C,
            _ => Grade::Substandard,
        }
    }
}

/// A letter: A, B, C, or S for Substandard.
impl fmt::Display for Grade {
    fn fmt(&self, f: &mut fmt::Formatter<'_>) -> fmt::Result {
        f.write_str(match self {
            Grade::A => "A",
            Grade::B => "B",
            Grade::C => "C",
            Grade::Substandard => "S",
        })
    }
}

/// How a unit stands to the designated plan; in a regrading, to that of the second plan, where it met
/// or failed and there is no step 3.
#[derive(Clone, Copy, Debug, PartialEq, Eq, Hash)]
#[repr(u8)]
pub enum Standing {
    /// It met the designated plan.
    Met = 0,
    /// It failed the designated plan.
    Failed = 1,
    /// It is in step 3 and not recovered.
    InStepThree = 2,
    /// It is in step 3 and recovered.
    Recovered = 3,
}

impl Standing {
    fn from_byte(byte: u8) -> Standing {
        match byte {
            0 => Standing::Met,
            1 => Standing::Failed,
            2 => Standing::InStepThree,
            _ => Standing::Recovered,
        }
    }
}

/// A refused tally sheet, or a refused regrading of one: the number of the ground, and the place.
///
/// ```
/// let refusal = hatmuyon::grade(&[], &mut []).unwrap_err();
/// assert_eq!(
///     refusal.to_string(),
///     "refused 1 at offset 0: shorter than 75 bytes, or first mark not 50 4C"
/// );
/// ```
#[derive(Clone, Copy, Debug, PartialEq, Eq, Hash)]
pub struct Refusal {
    /// The number of the first ground met. From an archive of this version it is 1 to 13, and from
    /// [`regrade`] also 18.
    pub number: u32,
    /// 0 for a ground in the plan or in the second plan, the offset of the record's mark for one in a
    /// record, and the sheet's length for one in the result buffer.
    pub offset: usize,
}

impl Refusal {
    /// The first ground met, or `None` if this version does not know its number: the archive is of
    /// another version then.
    pub fn ground(&self) -> Option<Ground> {
        Ground::from_number(self.number)
    }
}

impl fmt::Display for Refusal {
    fn fmt(&self, f: &mut fmt::Formatter<'_>) -> fmt::Result {
        say_refused(f, self.number, self.offset, self.ground())
    }
}

impl std::error::Error for Refusal {}

/// Says in words that a sheet, a look-up or a lot is refused.
fn say_refused(
    f: &mut fmt::Formatter<'_>,
    number: u32,
    offset: usize,
    ground: Option<impl fmt::Display>,
) -> fmt::Result {
    write!(f, "refused {number} at offset {offset}: ")?;
    match ground {
        Some(ground) => ground.fmt(f),
        None => write!(f, "a number that version {VERSION} does not know"),
    }
}

/// A ground on which a tally sheet, or a regrading of one, is refused.
///
/// The plan is checked first, for grounds 1 to 5 in turn; then the records from left to right, each
/// wholly before the next, for 6, 7, 12, 8, 9, 10, 11 in this order; then, by [`regrade`] alone, the
/// second plan, for 18; then the result buffer, for 13. More grounds may follow; number 14 is not used
/// again.
#[derive(Clone, Copy, Debug, PartialEq, Eq, Hash)]
#[repr(u32)]
#[non_exhaustive]
pub enum Ground {
    /// The sheet is shorter than 75 bytes, or its first mark is not 50 4C.
    NoPlan = 1,
    /// The designated grade is above 2.
    BadDesignatedGrade = 2,
    /// An S, T or L is above 9,999.
    PlanNumberTooLarge = 3,
    /// An S is above its L.
    StartAboveLimit = 4,
    /// In a class, T or T+L is smaller at B than at A, or at C than at B.
    SmallerAtLowerGrade = 5,
    /// One byte is left, or a mark is not of a unit, redesignation or break.
    UnknownMark = 6,
    /// A record is cut short.
    CutShort = 7,
    /// A count is above 2,000.
    CountTooLarge = 8,
    /// A prerequisite is above 3, or a recoverable above 1.
    BadUnitField = 9,
    /// A new grade is above 2.
    BadNewGrade = 10,
    /// A new grade equals the one designated just before its record.
    SameGrade = 11,
    /// A unit stands after the 1,000th.
    TooManyUnits = 12,
    /// The result buffer is shorter than 32 times the units.
    ResultBufferTooShort = 13,
    /// The second plan is not exactly one plan record free of 2 to 5: it has another length than
    /// [`PLAN_SIZE`] or another mark than [`PLAN_MARK`], or one of these grounds applies to it. From
    /// [`regrade`] alone, never from [`grade`].
    BadSecondPlan = 18,
}

impl Ground {
    /// Every ground, by its number.
    pub const ALL: &'static [Ground] = &[
        Ground::NoPlan,
        Ground::BadDesignatedGrade,
        Ground::PlanNumberTooLarge,
        Ground::StartAboveLimit,
        Ground::SmallerAtLowerGrade,
        Ground::UnknownMark,
        Ground::CutShort,
        Ground::CountTooLarge,
        Ground::BadUnitField,
        Ground::BadNewGrade,
        Ground::SameGrade,
        Ground::TooManyUnits,
        Ground::ResultBufferTooShort,
        Ground::BadSecondPlan,
    ];

    /// The number of the refusal, 1 to 13 or 18.
    pub fn number(self) -> u32 {
        self as u32
    }

    /// The ground with this number, if there is one.
    ///
    /// ```
    /// use hatmuyon::Ground;
    ///
    /// assert_eq!(Ground::from_number(8), Some(Ground::CountTooLarge));
    /// assert_eq!(Ground::from_number(0), None);
    /// ```
    pub fn from_number(number: u32) -> Option<Ground> {
        Ground::ALL.iter().copied().find(|ground| ground.number() == number)
    }
}

impl fmt::Display for Ground {
    fn fmt(&self, f: &mut fmt::Formatter<'_>) -> fmt::Result {
        f.write_str(match self {
            Ground::NoPlan => "shorter than 75 bytes, or first mark not 50 4C",
            Ground::BadDesignatedGrade => "designated grade above 2",
            Ground::PlanNumberTooLarge => "an S, T or L above 9,999",
            Ground::StartAboveLimit => "an S above its L",
            Ground::SmallerAtLowerGrade => {
                "in a class, T or T+L smaller at B than at A, or at C than at B"
            }
            Ground::UnknownMark => "one byte left, or a mark not of a unit, redesignation or break",
            Ground::CutShort => "record cut short",
            Ground::CountTooLarge => "a count above 2,000",
            Ground::BadUnitField => "prerequisite above 3 or recoverable above 1",
            Ground::BadNewGrade => "new grade above 2",
            Ground::SameGrade => "new grade equals the one designated just before this record",
            Ground::TooManyUnits => "a unit after the 1,000th",
            Ground::ResultBufferTooShort => "result buffer shorter than 32 times the units",
            Ground::BadSecondPlan => "second plan not exactly one plan record free of 2 to 5",
        })
    }
}

#[cfg(test)]
mod tests {
    use super::*;
    use ffi::Answer;

    #[test]
    fn a_number_not_known() {
        let answer = Answer { number: 15, units: 0, offset: 75 };
        assert_eq!(outcome::<Record>(answer, &[]), Err((15, 75)));
        assert_eq!(outcome::<MoldRecord>(answer, &[]), Err((15, 75)));
        let words =
            format!("refused 15 at offset 75: a number that version {VERSION} does not know");
        let refusal = Refusal { number: 15, offset: 75 };
        assert_eq!((refusal.ground(), refusal.to_string()), (None, words.clone()));
        let refusal = MoldRefusal { number: 15, offset: 75 };
        assert_eq!((refusal.ground(), refusal.to_string()), (None, words));
    }

    #[test]
    fn a_number_of_the_other_sheet() {
        for number in [2, 5, 8, 11, 14, 18] {
            assert_eq!(MoldRefusal { number, offset: 0 }.ground(), None);
        }
        for number in [14, 16, 17] {
            assert_eq!(Refusal { number, offset: 0 }.ground(), None);
        }
        // Those of a look-up and of a lot.
        for number in [19, 20, 21, 22] {
            assert_eq!(Refusal { number, offset: 0 }.ground(), None);
            assert_eq!(MoldRefusal { number, offset: 0 }.ground(), None);
        }
    }

    #[test]
    fn records_up_to_the_room() {
        let results = [0; 3 * RESULT_SIZE - 1];
        let graded =
            outcome::<Record>(Answer { number: 0, units: 2, offset: 103 }, &results).unwrap();
        assert_eq!((graded.units(), graded.bytes().len()), (2, 2 * RESULT_SIZE));
        let results = [0; 3 * MOLD_RESULT_SIZE - 1];
        let graded =
            outcome::<MoldRecord>(Answer { number: 0, units: 2, offset: 13 }, &results).unwrap();
        assert_eq!((graded.units(), graded.bytes().len()), (2, 2 * MOLD_RESULT_SIZE));
    }

    #[test]
    #[should_panic(expected = "an archive of another version")]
    fn more_records_than_room() {
        let answer = Answer { number: 0, units: 3, offset: 117 };
        let _ = outcome::<Record>(answer, &[0; 3 * RESULT_SIZE - 1]);
    }

    #[test]
    #[should_panic(expected = "an archive of another version")]
    fn more_mold_records_than_room() {
        let answer = Answer { number: 0, units: 3, offset: 18 };
        let _ = outcome::<MoldRecord>(answer, &[0; 3 * MOLD_RESULT_SIZE - 1]);
    }

    #[test]
    #[should_panic(expected = "an archive of another version")]
    fn more_records_than_any_room() {
        // Times RESULT_SIZE this would be 0.
        let units = usize::MAX / RESULT_SIZE + 1;
        let _ = outcome::<Record>(Answer { number: 0, units, offset: 75 }, &[]);
    }

    #[test]
    fn each_field_from_its_bytes() {
        let bytes: [u8; RESULT_SIZE] = [
            0x47, 0x52, 0x12, 0x34, 2, 3, 1, 1, // mark, code, grades, standing
            0, 1, 0, 2, 0x27, 0x0F, 1, 0, // CuSums
            0, 0, 0, 1, 1, 2, 3, 4, 0, 0, 0xFF, 0xFF, 0, 1, 0x38, 0x80, // overshoots
        ];
        let expected = Record {
            code: 0x1234,
            portion_grade: Grade::C,
            code_grade: Grade::Substandard,
            plan_grade: Some(Grade::B),
            standing: Standing::Failed,
            cusums: [1, 2, 9999, 256],
            overshoots: [1, 0x01020304, 65_535, 80_000],
        };
        assert_eq!(Record::from_bytes(&bytes), expected);
    }

    #[test]
    fn a_larger_byte_is_read_as_three() {
        let read = |byte| Record::from_bytes(&[byte; RESULT_SIZE]);
        for byte in [3, 4, 255] {
            let Record { portion_grade, code_grade, plan_grade, standing, .. } = read(byte);
            assert_eq!((portion_grade, code_grade), (Grade::Substandard, Grade::Substandard));
            assert_eq!((plan_grade, standing), (None, Standing::Recovered));
        }
        let Record { portion_grade, code_grade, plan_grade, standing, .. } = read(2);
        assert_eq!((portion_grade, code_grade, plan_grade), (Grade::C, Grade::C, Some(Grade::C)));
        assert_eq!(standing, Standing::InStepThree);
    }
}
