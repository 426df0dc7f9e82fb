//! The boundary as `include/hatmuyon.h` declares it. [`grade`](crate::grade),
//! [`grade_mold`](crate::grade_mold), [`regrade`](crate::regrade), [`find`](crate::find) and
//! [`grade_lot`](crate::grade_lot) are the safe ways in.

/// Offset of the production code in a result record, 2 bytes with the high byte first.
pub const RESULT_CODE: usize = 2;
/// Offset of the portion grade, 1 byte.
pub const RESULT_PORTION_GRADE: usize = 4;
/// Offset of the code grade, 1 byte.
pub const RESULT_CODE_GRADE: usize = 5;
/// Offset of the grade of the plan in force, 1 byte, 3 if there is none.
pub const RESULT_PLAN_GRADE: usize = 6;
/// Offset of the standing, 1 byte.
pub const RESULT_STANDING: usize = 7;
/// Offset of the CuSum of critical defects, 2 bytes, tenths.
pub const RESULT_CRITICAL: usize = 8;
/// Offset of the CuSum of severe defects.
pub const RESULT_SEVERE: usize = 10;
/// Offset of the CuSum of major defects.
pub const RESULT_MAJOR: usize = 12;
/// Offset of the CuSum of total defects.
pub const RESULT_TOTAL: usize = 14;
/// Offset of the overshoot of critical defects, 4 bytes with the high byte first, tenths.
pub const RESULT_CRITICAL_OVERSHOOT: usize = 16;
/// Offset of the overshoot of severe defects.
pub const RESULT_SEVERE_OVERSHOOT: usize = 20;
/// Offset of the overshoot of major defects.
pub const RESULT_MAJOR_OVERSHOOT: usize = 24;
/// Offset of the overshoot of total defects.
pub const RESULT_TOTAL_OVERSHOOT: usize = 28;

/// Offset of the byte in a mold sheet's result record that is 1 if the unit met, 0 if it failed.
pub const MOLD_RESULT_MET: usize = 2;
/// Offset of the CuSum of positive fields, 2 bytes, tenths.
pub const MOLD_RESULT_CUSUM: usize = 3;

/// The number of a look-up that found a record.
pub const FOUND: u32 = 0;
/// The number of a look-up where no record has the code; it is no refusal.
pub const NOT_ON_THIS_SHEET: u32 = 1;

/// Bytes of stack that [`hatmuyon_grade`], [`hatmuyon_grade_mold`], [`hatmuyon_regrade`],
/// [`hatmuyon_find_code`] and [`hatmuyon_grade_lot`] need at most; the header says how they were
/// measured.
pub const STACK_SIZE: usize = 2048;

/// `struct hatmuyon_answer`.
#[derive(Clone, Copy, Debug, PartialEq, Eq)]
#[repr(C)]
pub struct Answer {
    /// 0, or the number of the refusal. From an archive of this version it is that of a
    /// [`Ground`](crate::Ground), or of a [`MoldGround`](crate::MoldGround) for a mold sheet.
    pub number: u32,
    /// Accepted: the number of sample units. Refused: 0.
    pub units: usize,
    /// Accepted: the sheet's length. Refused: the place, which is that of a
    /// [`Refusal`](crate::Refusal), or of a [`MoldRefusal`](crate::MoldRefusal) for a mold sheet.
    pub offset: usize,
}

/// `struct hatmuyon_part`: the place of a part of finished results.
#[derive(Clone, Copy, Debug, PartialEq, Eq)]
#[repr(C)]
pub struct Part {
    /// [`FOUND`], [`NOT_ON_THIS_SHEET`], or the number of the refusal, which from an archive of this
    /// version is that of a [`LookupGround`](crate::LookupGround).
    pub number: u32,
    /// Found: where the record begins in the results. Else 0.
    pub offset: usize,
    /// Found: the bytes of the record, [`RESULT_SIZE`](crate::RESULT_SIZE). Else 0.
    pub length: usize,
}

/// `struct hatmuyon_lot_answer`.
#[derive(Clone, Copy, Debug, PartialEq, Eq)]
#[repr(C)]
pub struct LotAnswer {
    /// 0, or the number of the refusal, which from an archive of this version is that of a
    /// [`LotGround`](crate::LotGround).
    pub number: u32,
    /// Accepted: the lot grade, that of a [`Grade`](crate::Grade). Refused: 3, which is then no grade.
    pub grade: u8,
    /// 0, accepted or refused.
    pub offset: usize,
}

extern "C" {
    /// Grades a tally sheet into a result buffer.
    ///
    /// # Safety
    ///
    /// `sheet` must be valid for reads of `sheet_length` bytes and `results` for reads and writes
    /// of `results_length` bytes, all of them initialized; neither is null, also where its length
    /// is 0. The two must not overlap, and during the call no other thread may write to the sheet
    /// or touch the results.
    pub fn hatmuyon_grade(
        sheet: *const u8,
        sheet_length: usize,
        results: *mut u8,
        results_length: usize,
    ) -> Answer;

    /// Grades a mold sheet into a result buffer.
    ///
    /// # Safety
    ///
    /// As for [`hatmuyon_grade`].
    pub fn hatmuyon_grade_mold(
        sheet: *const u8,
        sheet_length: usize,
        results: *mut u8,
        results_length: usize,
    ) -> Answer;

    /// Grades a recorded tally sheet again under a second plan record, into a result buffer.
    ///
    /// # Safety
    ///
    /// As for [`hatmuyon_grade`]. What is asked of the sheet is asked of `plan`, with `plan_length`
    /// bytes, too: it may overlap the sheet, but not the results.
    pub fn hatmuyon_regrade(
        sheet: *const u8,
        sheet_length: usize,
        plan: *const u8,
        plan_length: usize,
        results: *mut u8,
        results_length: usize,
    ) -> Answer;

    /// Finds, in finished results, the first record of a code whose portion grade is the worst that
    /// the code has.
    ///
    /// # Safety
    ///
    /// `results` must be valid for reads of `results_length` bytes, all of them initialized; it is not
    /// null, also where the length is 0. During the call no other thread may write to the results.
    pub fn hatmuyon_find_code(results: *const u8, results_length: usize, code: u16) -> Part;

    /// Grades a warehouse lot.
    ///
    /// # Safety
    ///
    /// `lot` must be valid for reads of `lot_length` bytes, all of them initialized; it is not null,
    /// also where the length is 0. During the call no other thread may write to the lot.
    pub fn hatmuyon_grade_lot(lot: *const u8, lot_length: usize) -> LotAnswer;
}
