//! Sheets of the peach plan of paper 01, for tests.

use crate::generate::{table, PEACH};
use crate::sheet::{Record, Sheet, Unit};

pub fn peach(records: Vec<Record>) -> Sheet {
    Sheet { designated: 0, table: table(PEACH), records }
}

/// Units by code, counts, prerequisite and recoverable.
pub fn peaches<const N: usize>(units: [(u16, [i64; 4], u8, u8); N]) -> Vec<u8> {
    let records = units.map(|(code, counts, prerequisite, recoverable)| {
        Record::Unit(Unit { code, counts, prerequisite, recoverable: recoverable == 1 })
    });
    peach(records.to_vec()).bytes()
}

/// P10, the peach sheet.
pub fn p10() -> Vec<u8> {
    #[rustfmt::skip]
    let units = [
        (1, [0, 1, 2, 4], 0, 0), (2, [0, 2, 4, 6], 0, 0), (3, [0, 1, 3, 3], 0, 0),
        (4, [0, 0, 1, 5], 0, 1), (5, [0, 1, 2, 2], 0, 1), (5, [0, 1, 1, 2], 0, 0),
        (7, [1, 0, 0, 0], 1, 0),
    ];
    peaches(units)
}

/// What is printed for P10.
pub const P10_LINES: &str = "1 1 A A m A 0.0 0.0 0.0 2.0\n2 2 B B f A 0.0 0.5 1.0 4.0\n\
    3 3 B B f A 0.0 0.0 1.0 4.0\n4 4 A A r B 0.0 0.0 0.0 0.0\n5 5 A B r B 0.0 0.0 0.0 0.0\n\
    6 5 B B u B 0.0 0.0 0.0 0.0\n7 7 B B m A 0.5 0.0 0.0 0.0\n";
