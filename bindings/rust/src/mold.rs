//! Mold sheets. Marks, sizes and limits, the grading, its records and its refusals.

use crate::ffi::{self, MOLD_RESULT_CUSUM, MOLD_RESULT_MET};
use crate::{outcome, say_refused, Graded, ResultRecord};
use std::fmt;

/// The mark that opens a mold sheet.
pub const MOLD_SHEET_MARK: u16 = 0x4D44;
/// The mark of a sample unit on a mold sheet.
pub const MOLD_UNIT_MARK: u16 = 0x4D55;
/// The mark of a result record of a mold sheet.
pub const MOLD_RESULT_MARK: u16 = 0x4D52;

/// Bytes of the opening of a mold sheet: its mark and the level row.
pub const MOLD_OPENING_SIZE: usize = 3;
/// Bytes of a sample unit on a mold sheet.
pub const MOLD_UNIT_SIZE: usize = 5;
/// Bytes of a result record of a mold sheet.
pub const MOLD_RESULT_SIZE: usize = 5;

/// The number of level rows, which begin at 0.
pub const MOLD_LEVELS: u8 = 6;
/// The most positive fields of a sample unit: so many are counted. A count of them is never to be added
/// to one of defects, or compared with it.
pub const MOST_POSITIVE_FIELDS: u8 = 25;

/// Grades a mold sheet into a result buffer: one result record of [`MOLD_RESULT_SIZE`] bytes for each
/// sample unit, in their order.
///
/// A mold sheet is bytes: the mark 4D 44 and a level row, and then sample units of positive fields.
/// `include/hatmuyon.h` describes them, with S, T and L of each row. What is said of the buffer and of
/// refusals at [`grade`](crate::grade) holds here, too.
///
/// ```
/// use hatmuyon::{grade_mold, MoldGround, MoldRecord, MOLD_RESULT_SIZE};
///
/// // The manual's example: row 2 is a defect action level of 12 percent, where S is 0, T 3 and L 2.
/// let mut sheet = vec![0x4D, 0x44, 2];
/// for (code, positive_fields) in [(1, 3), (2, 3), (3, 2), (4, 6), (5, 3)] {
///     sheet.extend([0x4D, 0x55, 0, code, positive_fields]);
/// }
///
/// let mut results = [0; 5 * MOLD_RESULT_SIZE];
/// let graded = grade_mold(&sheet, &mut results)?;
/// assert_eq!(graded.units(), 5);
/// let cusums: Vec<u16> = graded.records().map(|record| record.cusum).collect();
/// assert_eq!(cusums, [0, 0, 0, 20, 20]); // tenths
/// // 0 + 6 - 3 = 3 is above L.
/// let failed: Vec<MoldRecord> = graded.into_iter().filter(|record| !record.met).collect();
/// assert_eq!(failed, [MoldRecord { met: false, cusum: 20 }]);
///
/// // There is no row 6.
/// sheet[2] = 6;
/// let refusal = grade_mold(&sheet, &mut results).unwrap_err();
/// assert_eq!(refusal.ground(), Some(MoldGround::BadLevelRow));
/// assert_eq!(refusal.to_string(), "refused 16 at offset 0: level row above 5");
/// # Ok::<(), hatmuyon::MoldRefusal>(())
/// ```
///
/// # Panics
///
/// Never with an archive of this version; see [Versions](crate#versions).
pub fn grade_mold<'r>(sheet: &[u8], results: &'r mut [u8]) -> Result<GradedMold<'r>, MoldRefusal> {
    // Safety: as in `grade`.
    let answer = unsafe {
        ffi::hatmuyon_grade_mold(sheet.as_ptr(), sheet.len(), results.as_mut_ptr(), results.len())
    };
    outcome(answer, results).map_err(|(number, offset)| MoldRefusal { number, offset })
}

/// The result records of an accepted mold sheet, borrowed from the result buffer.
pub type GradedMold<'r> = Graded<'r, MoldRecord>;

/// What is recorded of a sample unit on a mold sheet.
///
/// An archive of this version writes 1 or 0 for met. Another byte would be read as 0. The mark is not
/// read.
#[derive(Clone, Copy, Debug, PartialEq, Eq, Hash)]
pub struct MoldRecord {
    /// Whether the unit met; else it failed.
    pub met: bool,
    /// The CuSum, in tenths of a positive field. It must not be compared with the CuSums of a
    /// [`Record`](crate::Record), which are tenths of a defect.
    pub cusum: u16,
}

impl ResultRecord for MoldRecord {
    const SIZE: usize = MOLD_RESULT_SIZE;

    fn from_bytes(bytes: &[u8]) -> MoldRecord {
        MoldRecord {
            met: bytes[MOLD_RESULT_MET] == 1,
            cusum: u16::from_be_bytes([bytes[MOLD_RESULT_CUSUM], bytes[MOLD_RESULT_CUSUM + 1]]),
        }
    }
}

/// A refused mold sheet: the number of the ground, and the place.
#[derive(Clone, Copy, Debug, PartialEq, Eq, Hash)]
pub struct MoldRefusal {
    /// The number of the first ground met, that of a [`MoldGround`] from an archive of this version.
    pub number: u32,
    /// 0 for a ground in the opening, the offset of the record's mark for one in a record, and the
    /// sheet's length for one in the result buffer.
    pub offset: usize,
}

impl MoldRefusal {
    /// The first ground met, or `None` if this version does not know its number: the archive is of
    /// another version then.
    pub fn ground(&self) -> Option<MoldGround> {
        MoldGround::from_number(self.number)
    }
}

impl fmt::Display for MoldRefusal {
    fn fmt(&self, f: &mut fmt::Formatter<'_>) -> fmt::Result {
        say_refused(f, self.number, self.offset, self.ground())
    }
}

impl std::error::Error for MoldRefusal {}

/// A ground on which a mold sheet is refused.
///
/// The opening is checked first, for grounds 1 and 16; then the records from left to right, each
/// wholly before the next, for 6, 7, 12, 17 in this order; then the result buffer. More grounds may
/// follow.
#[derive(Clone, Copy, Debug, PartialEq, Eq, Hash)]
#[repr(u32)]
#[non_exhaustive]
pub enum MoldGround {
    /// The sheet is shorter than 3 bytes, or its first mark is not 4D 44.
    NoOpening = 1,
    /// One byte is left, or a mark is not 4D 55.
    UnknownMark = 6,
    /// A record is cut short.
    CutShort = 7,
    /// A unit stands after the 1,000th.
    TooManyUnits = 12,
    /// The result buffer is shorter than 5 times the units.
    ResultBufferTooShort = 13,
    /// The level row is above 5.
    BadLevelRow = 16,
    /// Positive fields are above 25.
    TooManyPositiveFields = 17,
}

impl MoldGround {
    /// Every ground, by its number.
    pub const ALL: &'static [MoldGround] = &[
        MoldGround::NoOpening,
        MoldGround::UnknownMark,
        MoldGround::CutShort,
        MoldGround::TooManyUnits,
        MoldGround::ResultBufferTooShort,
        MoldGround::BadLevelRow,
        MoldGround::TooManyPositiveFields,
    ];

    /// The number of the refusal.
    pub fn number(self) -> u32 {
        self as u32
    }

    /// The ground with this number, if there is one.
    pub fn from_number(number: u32) -> Option<MoldGround> {
        MoldGround::ALL.iter().copied().find(|ground| ground.number() == number)
    }
}

impl fmt::Display for MoldGround {
    fn fmt(&self, f: &mut fmt::Formatter<'_>) -> fmt::Result {
        f.write_str(match self {
            MoldGround::NoOpening => "shorter than 3 bytes, or first mark not 4D 44",
            MoldGround::UnknownMark => "one byte left, or a mark not 4D 55",
            MoldGround::CutShort => "record cut short",
            MoldGround::TooManyUnits => "a unit after the 1,000th",
            MoldGround::ResultBufferTooShort => "result buffer shorter than 5 times the units",
            MoldGround::BadLevelRow => "level row above 5",
            MoldGround::TooManyPositiveFields => "positive fields above 25",
        })
    }
}

#[cfg(test)]
mod tests {
    use super::*;

    #[test]
    fn each_field_from_its_bytes() {
        let read = |met| MoldRecord::from_bytes(&[0x4D, 0x52, met, 0x01, 0x02]);
        assert_eq!(read(1), MoldRecord { met: true, cusum: 0x0102 });
        for met in [0, 2, 255] {
            assert_eq!(read(met), MoldRecord { met: false, cusum: 0x0102 });
        }
    }
}
