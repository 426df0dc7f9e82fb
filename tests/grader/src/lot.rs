//! "Warehouse lots", A.8 of paper 02: the lot in bytes, where it is turned away, its grading, its
//! line, and both its refusal and its grade a second time. The sentences in quotation marks are
//! those of A.8 where no paper is named; document 003 is the source document "LOT SINGLE SAMPLING
//! PLAN (ATTRIBUTES)". A lot has one sample, no CuSum and no result record: its counts are compared
//! as they are, and not in tenths.

use crate::sheet::{Grade, SUBSTANDARD};

/// "A lot is 36 bytes".
pub const LOT_SIZE: usize = 36;
/// "mark 4C 54".
pub const MARK: [u8; 2] = [0x4C, 0x54];
/// "a count from 0 to 2,000" (paper 01).
pub const MOST_DEFECTS: u16 = 2_000;

/// "Acceptance numbers at 6, 13, 21, 29 units are, for AQL 1.0: 1 2 3 4; 1.5: 1 3 4 5; 2.5: 3 4 6
/// 8; 4.0: 4 6 9 11; 5.0: 4 7 11 14; 12.5: 8 15 22 29." A row for each AQL, a column for each
/// number of sample units; AQLs "in tenths".
pub const SAMPLE_UNITS: [u8; 4] = [6, 13, 21, 29];
pub const AQLS: [u16; 6] = [10, 15, 25, 40, 50, 125];
#[rustfmt::skip]
const ACCEPTANCE_NUMBERS: [[u16; 4]; 6] = [
    [1, 2, 3, 4],
    [1, 3, 4, 5],
    [3, 4, 6, 8],
    [4, 6, 9, 11],
    [4, 7, 11, 14],
    [8, 15, 22, 29],
];

/// The refusals of a lot, first to last: 20, 21 and 22 "come in that order after 6 (under 2 bytes
/// or a wrong mark) and 7 (length not 36), and before 8 and 9 (prerequisite)". 8 stands before 9 as
/// in the table of paper 01.
pub const NUMBERS: [u32; 7] = [6, 7, 20, 21, 22, 8, 9];

/// "Acceptance returns 0 and the lot grade, a refusal its number and 3"; "every offset here is 0".
/// Of an acceptance no offset is told; it is 0 here too.
#[derive(Clone, Copy, Debug, PartialEq, Eq)]
pub struct LotAnswer {
    pub number: u32,
    pub grade: Grade,
    pub offset: usize,
}

impl LotAnswer {
    pub fn accepted(grade: Grade) -> LotAnswer {
        LotAnswer { number: 0, grade, offset: 0 }
    }

    pub fn refused(number: u32) -> LotAnswer {
        LotAnswer { number, grade: SUBSTANDARD, offset: 0 }
    }
}

/// The fields behind the mark.
#[derive(Clone, Copy, Debug, PartialEq, Eq)]
pub struct Lot {
    pub sample_units: u8,
    /// In tenths, of grades A, B, C, within each of critical, severe, major, total.
    pub aqls: [[u16; 4]; 3],
    /// Critical, severe, major, minor, as recorded.
    pub counts: [u16; 4],
    pub prerequisite: Grade,
}

impl Lot {
    /// The count of each class: "total is the sum of critical, severe, major and minor" (paper 01).
    pub fn class_counts(&self) -> [u32; 4] {
        let [critical, severe, major, minor] = self.counts.map(u32::from);
        [critical, severe, major, critical + severe + major + minor]
    }
}

/// The acceptance number at so many sample units and this AQL in tenths; none if one is not listed.
pub fn acceptance_number(sample_units: u8, aql_in_tenths: u16) -> Option<u16> {
    let row = AQLS.iter().position(|&aql| aql == aql_in_tenths)?;
    let column = SAMPLE_UNITS.iter().position(|&units| units == sample_units)?;
    Some(ACCEPTANCE_NUMBERS[row][column])
}

/// Reads the lot whole; numbers 6 and 7.
pub(crate) fn read(bytes: &[u8]) -> Result<Lot, u32> {
    // "6 (under 2 bytes or a wrong mark)"
    if bytes.len() < 2 || bytes[..2] != MARK {
        return Err(6);
    }
    // "7 (length not 36)"
    if bytes.len() != LOT_SIZE {
        return Err(7);
    }
    // "Numbers of two bytes have the high byte first." (paper 01)
    let two = |at: usize| u16::from_be_bytes([bytes[at], bytes[at + 1]]);
    // "mark 4C 54, sample units (1), AQL in tenths for grades A, B, C by four classes (2 each), the
    // four counts, prerequisite grade (1)": the counts have two bytes each, as in a unit of paper
    // 01 and as the 36 bytes leave them.
    Ok(Lot {
        sample_units: bytes[2],
        aqls: [0, 1, 2].map(|grade| [0, 1, 2, 3].map(|class| two(3 + 8 * grade + 2 * class))),
        counts: [27, 29, 31, 33].map(two),
        prerequisite: bytes[35],
    })
}

/// Numbers 20, 21, 22, 8 and 9, each over the whole lot before the next.
fn check(lot: &Lot) -> Result<(), u32> {
    // "20, sample units not one of the four"
    if !SAMPLE_UNITS.contains(&lot.sample_units) {
        return Err(20);
    }
    // "21, an AQL not listed"
    if lot.aqls.iter().flatten().any(|aql| !AQLS.contains(aql)) {
        return Err(21);
    }
    // "22, an AQL falling from A to B or B to C": in a class.
    for (better, lower) in [(lot.aqls[0], lot.aqls[1]), (lot.aqls[1], lot.aqls[2])] {
        if (0..4).any(|class| lower[class] < better[class]) {
            return Err(22);
        }
    }
    // "a count above 2,000" (paper 01): one of the four that are recorded; total is not.
    if lot.counts.iter().any(|&count| count > MOST_DEFECTS) {
        return Err(8);
    }
    // "9 (prerequisite)": "prerequisite above 3" (paper 01). A lot has no recoverable byte.
    if lot.prerequisite > 3 {
        return Err(9);
    }
    Ok(())
}

/// "The defect grade is the best that admits all classes, and Substandard exactly if none does".
pub(crate) fn defect_grade(lot: &Lot) -> Grade {
    let counts = lot.class_counts();
    // "A grade admits a class whose count is not above its acceptance number."
    let admits = |grade: usize, class: usize| {
        let number = acceptance_number(lot.sample_units, lot.aqls[grade][class]);
        counts[class] <= u32::from(number.expect("checked"))
    };
    let admits_all = |grade: usize| (0..4).all(|class| admits(grade, class));
    (0..3).find(|&grade| admits_all(grade)).map_or(SUBSTANDARD, |grade| grade as Grade)
}

/// Grades a lot, or refuses it.
pub fn grade_lot(lot: &[u8]) -> LotAnswer {
    let checked = read(lot).and_then(|lot| check(&lot).map(|()| lot));
    match checked {
        // "the lot grade is the worse of it and the prerequisite"
        Ok(lot) => LotAnswer::accepted(defect_grade(&lot).max(lot.prerequisite)),
        Err(number) => LotAnswer::refused(number),
    }
}

/// One line. The papers do not say how a lot is printed: "lot" and the grade (A, B, C, S); or
/// "refused", number and offset, as for a sheet. Number 15 is about sheets: a lot that long is
/// refused with 6 or 7.
pub fn print(lot: &[u8]) -> String {
    let LotAnswer { number, grade, offset } = grade_lot(lot);
    if number != 0 {
        return format!("refused {number} {offset}\n");
    }
    format!("lot {}\n", ['A', 'B', 'C', 'S'][usize::from(grade)])
}

/// "TABLE XV", "STANDARD SAMPLE UNIT SIZE = 6", of document 003 (example 18) by columns: the number
/// of sample units, then each AQL in tenths with its acceptance number.
pub(crate) const TABLE_XV: [(u8, [(u16, u16); 6]); 4] = [
    (6, [(10, 1), (15, 1), (25, 3), (40, 4), (50, 4), (125, 8)]),
    (13, [(10, 2), (15, 3), (25, 4), (40, 6), (50, 7), (125, 15)]),
    (21, [(10, 3), (15, 4), (25, 6), (40, 9), (50, 11), (125, 22)]),
    (29, [(10, 4), (15, 5), (25, 8), (40, 11), (50, 14), (125, 29)]),
];

/// A number of two bytes, if both are there.
fn number_at(lot: &[u8], at: usize) -> Option<usize> {
    match lot.get(at..at + 2)? {
        [high, low] => Some(256 * usize::from(*high) + usize::from(*low)),
        _ => None,
    }
}

/// The AQLs of a class at A, B and C, as far as they are there.
fn aqls_of(lot: &[u8], class: usize) -> [Option<usize>; 3] {
    [3, 11, 19].map(|grade| number_at(lot, grade + 2 * class))
}

/// All grounds on which a lot may be refused, first to last, each looked for by itself; in a lot of
/// a wrong length in the fields that are there whole. The first is the one returned.
pub fn grounds(lot: &[u8]) -> Vec<u32> {
    let listed = |aql: usize| TABLE_XV[0].1.iter().any(|&(known, _)| usize::from(known) == aql);
    let falls = |aqls: [Option<usize>; 3]| {
        aqls.windows(2).any(|two| matches!(two, [Some(better), Some(lower)] if lower < better))
    };
    let applies = |number: u32| match number {
        6 => !lot.starts_with(&[0x4C, 0x54]),
        7 => lot.len() != 36,
        20 => lot.get(2).is_some_and(|units| TABLE_XV.iter().all(|(known, _)| known != units)),
        21 => (0..4).flat_map(|class| aqls_of(lot, class)).flatten().any(|aql| !listed(aql)),
        22 => (0..4).any(|class| falls(aqls_of(lot, class))),
        8 => (27..35).step_by(2).filter_map(|at| number_at(lot, at)).any(|count| count > 2_000),
        _ => lot.get(35).is_some_and(|&prerequisite| prerequisite > 3),
    };
    NUMBERS.into_iter().filter(|&number| applies(number)).collect()
}

/// The best grade that admits a class taken by itself, for each class of a lot without a ground.
/// First the smallest AQL in the column whose acceptance number is not below the count; none if the
/// count is above all. As "at the same sample units a larger AQL never has a smaller acceptance
/// number", a grade admits the class exactly if its AQL is not smaller than that. As no AQL falls,
/// the grades that do not admit it are the first ones, and their number is the grade.
pub fn class_grades(lot: &[u8]) -> [Grade; 4] {
    let (_, column) = TABLE_XV.iter().find(|(units, _)| *units == lot[2]).expect("listed");
    let [critical, severe, major, minor] =
        [27, 29, 31, 33].map(|at| number_at(lot, at).expect("36 bytes"));
    let counts = [critical, severe, major, critical + severe + major + minor];
    [0, 1, 2, 3].map(|class| {
        let needed = column.iter().find(|&&(_, number)| usize::from(number) >= counts[class]);
        let admits = |aql: &usize| needed.is_some_and(|&(least, _)| *aql >= usize::from(least));
        let aqls = aqls_of(lot, class);
        aqls.iter().flatten().filter(|aql| !admits(aql)).count() as Grade
    })
}

/// As [`grade_lot`], in a second way: the refusal is the first of all grounds; the grade is the
/// worst of the four class grades and the prerequisite. "Determine the grade for each
/// classification"; "Determine the grade of the lot from the lowest grade given to any prerequisite
/// or classification of defects" (document 003). It is the same: a grade admits all classes exactly
/// if it is not better than the best for any of them.
pub fn grade_lot_by_class(lot: &[u8]) -> LotAnswer {
    match grounds(lot).first() {
        Some(&number) => LotAnswer::refused(number),
        None => LotAnswer::accepted(class_grades(lot).into_iter().fold(lot[35], Grade::max)),
    }
}

/// As [`grade_lot`]; panics if [`grade_lot_by_class`] has another answer.
pub fn check_lot(lot: &[u8]) -> LotAnswer {
    let answer = grade_lot(lot);
    assert_eq!(answer, grade_lot_by_class(lot), "two answers for the lot {lot:?}");
    answer
}
