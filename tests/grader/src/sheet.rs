//! "The tally sheet in bytes" and "Where a sheet is turned away", numbers 1 to 12.

/// "Grades run A, B, C, Substandard, best first, coded 0, 1, 2, 3." Worse is larger.
pub type Grade = u8;
pub const SUBSTANDARD: Grade = 3;
/// "at most 1,000 units".
pub const MOST_UNITS: usize = 1_000;

/// "S (start), T (tolerance) and L (acceptance limit) are kept in tenths".
#[derive(Clone, Copy, Debug)]
pub struct Numbers {
    pub s: i64,
    pub t: i64,
    pub l: i64,
}

/// "The plan is a table of three grades by four classes."
pub type Table = [[Numbers; 4]; 3];

#[derive(Clone, Copy, Debug)]
pub struct Unit {
    pub code: u16,
    /// Critical, severe, major, minor, as recorded.
    pub counts: [i64; 4],
    pub prerequisite: Grade,
    pub recoverable: bool,
}

impl Unit {
    /// Ten times the count of each class: "a defect is ten tenths"; "Classes are critical, severe,
    /// major and total, always in that order; total is the sum of critical, severe, major and minor."
    pub fn defects(&self) -> [i64; 4] {
        let [critical, severe, major, minor] = self.counts;
        [critical, severe, major, critical + severe + major + minor].map(|count| 10 * count)
    }
}

#[derive(Clone, Copy, Debug)]
pub enum Record {
    Unit(Unit),
    Redesignation(Grade),
    Break,
}

#[derive(Clone, Debug)]
pub struct Sheet {
    pub designated: Grade,
    pub table: Table,
    pub records: Vec<Record>,
}

/// "Numbers of two bytes have the high byte first."
fn two(bytes: &[u8], at: usize) -> i64 {
    i64::from(bytes[at]) * 256 + i64::from(bytes[at + 1])
}

/// Reads all bytes, or refuses with a number and "the offset of the record's mark (0 for 1 to 5".
pub fn read(bytes: &[u8]) -> Result<Sheet, (u32, usize)> {
    let (designated, table) = read_plan(bytes).map_err(|number| (number, 0))?;
    let mut records = Vec::new();
    let (mut units, mut designated_now) = (0, designated);
    // "Records are checked left to right, each wholly before the next".
    let mut at = 75;
    while at < bytes.len() {
        let (record, length) =
            read_record(&bytes[at..], units, designated_now).map_err(|number| (number, at))?;
        match record {
            Record::Unit(_) => units += 1,
            Record::Redesignation(new) => designated_now = new,
            Record::Break => {}
        }
        records.push(record);
        at += length;
    }
    Ok(Sheet { designated, table, records })
}

/// Numbers 1 to 5, each over the whole plan before the next: "the first row met is returned".
pub(crate) fn read_plan(bytes: &[u8]) -> Result<(Grade, Table), u32> {
    // "shorter than 75 bytes, or first mark not 50 4C"
    if bytes.len() < 75 || bytes[..2] != [0x50, 0x4C] {
        return Err(1);
    }
    // "designated grade above 2"
    let designated = bytes[2];
    if designated > 2 {
        return Err(2);
    }
    // "for grades A, B, C, within each the four classes, within each S, T, L (2 bytes each, tenths)"
    let table: Table = [0, 1, 2].map(|grade| {
        [0, 1, 2, 3].map(|class| {
            let at = 3 + 24 * grade + 6 * class;
            Numbers { s: two(bytes, at), t: two(bytes, at + 2), l: two(bytes, at + 4) }
        })
    });
    // "an S, T or L above 9,999"
    if table.iter().flatten().any(|n| n.s > 9_999 || n.t > 9_999 || n.l > 9_999) {
        return Err(3);
    }
    // "an S above its L"
    if table.iter().flatten().any(|n| n.s > n.l) {
        return Err(4);
    }
    // "in a class, T or T+L smaller at B than at A, or at C than at B"
    for (better, lower) in [(table[0], table[1]), (table[1], table[2])] {
        if better.iter().zip(lower).any(|(x, y)| y.t < x.t || y.t + y.l < x.t + x.l) {
            return Err(5);
        }
    }
    Ok((designated, table))
}

/// The record at the start of `rest` (which is not empty) and its length; numbers 6 to 12 in the
/// order of the table, where 12 stands before 8.
fn read_record(rest: &[u8], units: usize, designated: Grade) -> Result<(Record, usize), u32> {
    // "one byte left, or a mark not of a unit, redesignation or break"
    let length = match rest.get(..2) {
        Some([0x53, 0x55]) => 14,
        Some([0x52, 0x44]) => 3,
        Some([0x42, 0x4B]) => 2,
        _ => return Err(6),
    };
    // "record cut short"
    if rest.len() < length {
        return Err(7);
    }
    if length == 2 {
        return Ok((Record::Break, length));
    }
    if length == 3 {
        let new = rest[2];
        // "new grade above 2"
        if new > 2 {
            return Err(10);
        }
        // "new grade equals the one designated just before this record"
        if new == designated {
            return Err(11);
        }
        return Ok((Record::Redesignation(new), length));
    }
    // "a unit after the 1,000th"
    if units >= MOST_UNITS {
        return Err(12);
    }
    // "a count above 2,000": one of the four that are recorded; total is not.
    let counts = [4, 6, 8, 10].map(|at| two(rest, at));
    if counts.iter().any(|&count| count > 2_000) {
        return Err(8);
    }
    // "prerequisite above 3 or recoverable above 1"
    if rest[12] > 3 || rest[13] > 1 {
        return Err(9);
    }
    let code = u16::from_be_bytes([rest[2], rest[3]]);
    let unit = Unit { code, counts, prerequisite: rest[12], recoverable: rest[13] == 1 };
    Ok((Record::Unit(unit), length))
}
