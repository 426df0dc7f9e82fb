//! Warehouse lots. Mark and size, the grading and its refusals.

use crate::{ffi, say_refused, Grade};
use std::fmt;

/// The mark that opens a lot.
pub const LOT_MARK: u16 = 0x4C54;
/// Bytes of a lot.
pub const LOT_SIZE: usize = 36;

/// Grades a warehouse lot under the lot single sampling plan for a standard sample unit size of 6: the
/// lot grade.
///
/// A lot is bytes, one record: a mark, the sample units, the AQLs of each class for grades A, B and C,
/// the counts, and a prerequisite grade. `include/hatmuyon.h` describes them, with the acceptance
/// numbers. No lot is refused to which none of the grounds applies. Nothing is written, and nothing
/// allocated.
///
/// ```
/// use hatmuyon::{grade_lot, Grade, LotGround, LOT_SIZE};
///
/// // Six sample units; at every grade the AQLs of critical, severe, major and total are 1.0, 1.5, 4.0
/// // and 12.5, whose acceptance numbers are 1, 1, 4 and 8.
/// let mut lot = vec![0x4C, 0x54, 6];
/// lot.extend([0, 10, 0, 15, 0, 40, 0, 125].repeat(3));
/// // 1 critical, 1 severe, 3 major and 2 minor defects: 7 in total. The prerequisite grade is A.
/// lot.extend([0, 1, 0, 1, 0, 3, 0, 2, 0]);
/// assert_eq!(lot.len(), LOT_SIZE);
/// assert_eq!(grade_lot(&lot)?, Grade::A);
///
/// // With two more minor defects the total is 9, which no grade admits.
/// lot[34] = 4;
/// assert_eq!(grade_lot(&lot)?, Grade::Substandard);
///
/// // Major at B: an AQL of 6.5 is not listed.
/// lot[16] = 65;
/// let refusal = grade_lot(&lot).unwrap_err();
/// assert_eq!(refusal.ground(), Some(LotGround::UnlistedAql));
/// assert_eq!(refusal.to_string(), "refused 21 at offset 0: an AQL not listed");
/// # Ok::<(), hatmuyon::LotRefusal>(())
/// ```
///
/// An archive of this version answers grades from 0 to 3. A larger byte would be read as 3,
/// [`Grade::Substandard`].
pub fn grade_lot(lot: &[u8]) -> Result<Grade, LotRefusal> {
    // Safety: a slice's pointer is not null and valid for its length, and none may write to the slice
    // while it is lent.
    lot_grade(unsafe { ffi::hatmuyon_grade_lot(lot.as_ptr(), lot.len()) })
}

/// What an answer says.
fn lot_grade(answer: ffi::LotAnswer) -> Result<Grade, LotRefusal> {
    let ffi::LotAnswer { number, grade, offset } = answer;
    match number {
        0 => Ok(Grade::from_byte(grade)),
        _ => Err(LotRefusal { number, offset }),
    }
}

/// A refused lot: the number of the ground, and the place.
#[derive(Clone, Copy, Debug, PartialEq, Eq, Hash)]
pub struct LotRefusal {
    /// The number of the first ground met, that of a [`LotGround`] from an archive of this version.
    pub number: u32,
    /// 0 from an archive of this version, whatever the ground.
    pub offset: usize,
}

impl LotRefusal {
    /// The first ground met, or `None` if this version does not know its number: the archive is of
    /// another version then.
    pub fn ground(&self) -> Option<LotGround> {
        LotGround::from_number(self.number)
    }
}

impl fmt::Display for LotRefusal {
    fn fmt(&self, f: &mut fmt::Formatter<'_>) -> fmt::Result {
        say_refused(f, self.number, self.offset, self.ground())
    }
}

impl std::error::Error for LotRefusal {}

/// A ground on which a lot is refused.
///
/// They are checked in the order 6, 7, 20, 21, 22, 8, 9, each in the whole lot before the next. More
/// grounds may follow.
#[derive(Clone, Copy, Debug, PartialEq, Eq, Hash)]
#[repr(u32)]
#[non_exhaustive]
pub enum LotGround {
    /// The lot is shorter than 2 bytes, or its mark is not 4C 54.
    UnknownMark = 6,
    /// The lot is not 36 bytes long.
    WrongLength = 7,
    /// A count is above 2,000.
    CountTooLarge = 8,
    /// The prerequisite is above 3.
    BadPrerequisite = 9,
    /// The sample units are not 6, 13, 21 or 29.
    BadSampleUnits = 20,
    /// An AQL is not listed.
    UnlistedAql = 21,
    /// In a class, an AQL is smaller at B than at A, or at C than at B.
    FallingAql = 22,
}

impl LotGround {
    /// Every ground, by its number.
    pub const ALL: &'static [LotGround] = &[
        LotGround::UnknownMark,
        LotGround::WrongLength,
        LotGround::CountTooLarge,
        LotGround::BadPrerequisite,
        LotGround::BadSampleUnits,
        LotGround::UnlistedAql,
        LotGround::FallingAql,
    ];

    /// The number of the refusal.
    pub fn number(self) -> u32 {
        self as u32
    }

    /// The ground with this number, if there is one.
    pub fn from_number(number: u32) -> Option<LotGround> {
        LotGround::ALL.iter().copied().find(|ground| ground.number() == number)
    }
}

impl fmt::Display for LotGround {
    fn fmt(&self, f: &mut fmt::Formatter<'_>) -> fmt::Result {
        f.write_str(match self {
            LotGround::UnknownMark => "shorter than 2 bytes, or mark not 4C 54",
            LotGround::WrongLength => "length not 36 bytes",
            LotGround::CountTooLarge => "a count above 2,000",
            LotGround::BadPrerequisite => "prerequisite above 3",
            LotGround::BadSampleUnits => "sample units not 6, 13, 21 or 29",
            LotGround::UnlistedAql => "an AQL not listed",
            LotGround::FallingAql => "in a class, an AQL smaller at B than at A, or at C than at B",
        })
    }
}

#[cfg(test)]
mod tests {
    use super::*;
    use crate::ffi::LotAnswer;
    use crate::VERSION;

    #[test]
    fn each_grade_from_its_byte() {
        use Grade::{Substandard, A, B, C};
        let grades = [(0, A), (1, B), (2, C), (3, Substandard), (4, Substandard)];
        for (byte, grade) in grades.into_iter().chain([(255, Substandard)]) {
            assert_eq!(lot_grade(LotAnswer { number: 0, grade: byte, offset: 0 }), Ok(grade));
        }
    }

    #[test]
    fn a_number_not_known() {
        // Those of sheets and of look-ups among them.
        for number in [1, 5, 10, 13, 14, 16, 18, 19, 23, u32::MAX] {
            // Refused, whatever the grade.
            for grade in [0, 3] {
                let refusal = lot_grade(LotAnswer { number, grade, offset: 12 }).unwrap_err();
                assert_eq!((refusal.number, refusal.offset, refusal.ground()), (number, 12, None));
                let words = format!(
                    "refused {number} at offset 12: a number that version {VERSION} does not know"
                );
                assert_eq!(refusal.to_string(), words);
            }
        }
    }
}
