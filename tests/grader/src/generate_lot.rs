//! Seeded random warehouse lots (A.8 of paper 02): accepted ones of every defect grade and
//! prerequisite, with counts at the acceptance numbers and one above; ones with each ground of
//! refusal alone and with several at once; changed ones and ones of any bytes; the cells of the
//! table one by one; pairs for demand 3; and counts of what happened in them.

use crate::generate::{Counts, Dice};
use crate::lot::{check_lot, defect_grade, grade_lot, grounds, read};
use crate::lot::{Lot, LotAnswer, AQLS, LOT_SIZE, MARK, MOST_DEFECTS, NUMBERS};
use crate::lot::{SAMPLE_UNITS, TABLE_XV};
use crate::sheet::{Grade, SUBSTANDARD};

/// How a lot is made.
#[derive(Clone, Copy, Debug, PartialEq, Eq)]
pub enum Made {
    Accepted,
    /// With this one damage.
    OneGround(u32),
    SeveralGrounds,
    /// Accepted, and then changed.
    Changed,
    AnyBytes,
    /// For a cell of the table.
    Table,
}

/// A lot, and the expected answer if it is known from the making.
#[derive(Clone, Debug)]
pub struct LotCase {
    pub lot: Vec<u8>,
    pub expected: Option<LotAnswer>,
    pub made: Made,
}

/// "two accepted lots alike except that no count in the first exceeds its fellow in the second"
/// (A.8).
#[derive(Clone, Debug)]
pub struct LotPair {
    pub first: Vec<u8>,
    pub second: Vec<u8>,
}

impl Lot {
    pub fn bytes(&self) -> Vec<u8> {
        let numbers = self.aqls.iter().flatten().chain(&self.counts);
        let mut bytes = [&MARK[..], &[self.sample_units]].concat();
        bytes.extend(numbers.flat_map(|number| number.to_be_bytes()));
        bytes.push(self.prerequisite);
        bytes
    }

    /// The acceptance numbers of grades A, B, C, within each of the four classes. The lot is
    /// listed.
    fn numbers(&self) -> [[u16; 4]; 3] {
        let (_, column) = TABLE_XV.iter().find(|(units, _)| *units == self.sample_units).unwrap();
        self.aqls.map(|grade| grade.map(|aql| column.iter().find(|cell| cell.0 == aql).unwrap().1))
    }
}

/// Marks of the other records, of a lot's in small letters and with a letter of another, and none.
const OTHER_MARKS: [[u8; 2]; 12] = [
    [0x50, 0x4C],
    [0x53, 0x55],
    [0x52, 0x44],
    [0x42, 0x4B],
    [0x47, 0x52],
    [0x4D, 0x44],
    [0x4D, 0x55],
    [0x4D, 0x52],
    [0x6C, 0x74],
    [0x4C, 0x4C],
    [0x54, 0x54],
    [0, 0],
];
/// The bytes of the mark exchanged.
const EXCHANGED: [u8; 2] = [0x54, 0x4C];

/// Sample units that are not one of the four, each counted by itself.
const OTHER_UNITS: [u8; 13] = [0, 1, 3, 5, 7, 12, 14, 20, 22, 28, 30, 128, 255];

/// AQLs in tenths that are not listed, each counted by itself: those next to a listed one; its
/// bytes exchanged; ten times it; a tenth of it; with another high byte; AQLs of document 003 that
/// are not in the table; the least and the greatest.
#[rustfmt::skip]
const UNLISTED: [u16; 44] = [
    9, 11, 14, 16, 24, 26, 39, 41, 49, 51, 124, 126,
    2_560, 3_840, 6_400, 10_240, 12_800, 32_000,
    100, 150, 250, 400, 500, 1_250,
    1, 2, 4, 5, 12, 13,
    266, 271, 281, 296, 306, 381,
    65, 85, 200, 330, 1_000, 1_500,
    0, u16::MAX,
];

/// Lengths, each counted by itself; two of them are 36 in their last byte, or in their last two.
const LENGTHS: [usize; 13] = [0, 1, 2, 3, 26, 27, 34, 35, 37, 38, 72, 36 + 256, 36 + 65_536];

/// Counts above 2,000, each counted by itself at each place; one is 2,000 with its bytes exchanged.
const TOO_MANY: [u16; 4] = [2_001, 2_002, 0xD007, u16::MAX];

/// Prerequisites above 3, each counted by itself.
const ABOVE_3: [u8; 4] = [4, 5, 128, 255];

/// How the AQLs of a class can fall.
type Falls = fn([u16; 3]) -> bool;
const FALLS: [(&str, Falls); 5] = [
    ("A to B alone, C not below A", |[a, b, c]| b < a && a <= c),
    ("A to B alone, C below A", |[a, b, c]| b < a && b <= c && c < a),
    ("B to C alone, C not below A", |[a, b, c]| a <= c && c < b),
    ("B to C alone, C below A", |[a, b, c]| a <= b && c < b && c < a),
    ("A to B and B to C", |[a, b, c]| b < a && c < b),
];

/// The listed AQLs at A, B and C that fall in this way.
fn falling(falls: Falls) -> Vec<[u16; 3]> {
    let pairs = AQLS.iter().flat_map(|&a| AQLS.iter().map(move |&b| (a, b)));
    let all = pairs.flat_map(|(a, b)| AQLS.iter().map(move |&c| [a, b, c]));
    all.filter(|&aqls| falls(aqls)).collect()
}

/// Where the AQL of a grade and class stands.
fn aql_at(grade: usize, class: usize) -> usize {
    3 + 8 * grade + 2 * class
}

fn put(lot: &mut [u8], at: usize, number: u16) {
    lot[at..at + 2].copy_from_slice(&number.to_be_bytes());
}

/// A lot without a defect; its AQLs are listed and do not fall, often with a generous total.
fn draft(dice: &mut Dice) -> Lot {
    let by_class = [0, 1, 2, 3].map(|class| {
        let listed = if class == 3 && dice.chance(60) { &AQLS[4..] } else { &AQLS };
        let mut aqls = [0; 3];
        aqls.fill_with(|| dice.pick(listed));
        if dice.chance(15) {
            aqls = [aqls[0]; 3];
        }
        aqls.sort_unstable();
        aqls
    });
    let aqls = [0, 1, 2].map(|grade| by_class.map(|aqls| aqls[grade]));
    // Often the best, which lets every defect grade be seen.
    let prerequisite = dice.pick(&[0, 0, 0, 0, 1, 2, 3]);
    Lot { sample_units: dice.pick(&SAMPLE_UNITS), aqls, counts: [0; 4], prerequisite }
}

/// A number up to this, often this or none.
fn up_to(dice: &mut Dice, most: u16) -> u16 {
    let any = dice.between(0, most.into()) as u16;
    dice.pick(&[0, any, any, most])
}

/// A lot of this defect grade. It is known so: every class is within its acceptance number at this
/// grade, unless it is Substandard; and one class is above its acceptance number at the next better
/// grade, if there is one, and so at all better ones, as no AQL falls and no larger AQL has a
/// smaller acceptance number.
fn of_defect_grade(dice: &mut Dice, grade: Grade) -> Lot {
    let grade = usize::from(grade);
    loop {
        let mut lot = draft(dice);
        let numbers = lot.numbers();
        // The class that decides, and its count.
        let class = dice.below(4);
        let least = if grade > 0 { numbers[grade - 1][class] + 1 } else { 0 };
        let most = if grade < 3 { numbers[grade][class] } else { MOST_DEFECTS };
        if least > most {
            continue;
        }
        let any = dice.between(least.into(), most.into()) as u16;
        let [few, many] = if grade > 0 { [least, most] } else { [most, least] };
        let mut count = dice.pick(&[few, few, few, (few + 1).min(most), any, many]);
        if grade == 3 && dice.chance(20) {
            // Few, or none, in its low byte.
            count = 256 * dice.between(1, 7) as u16 + up_to(dice, least);
        }
        // What the others are to be within. For Substandard it may be anything.
        let anything = grade == 3 && dice.chance(30);
        let limits = if anything { [MOST_DEFECTS; 4] } else { numbers[grade.min(2)] };
        // How many of the total are left for them.
        let left = if class == 3 { Some(count) } else { limits[3].checked_sub(count) };
        if left.is_none() && grade < 3 {
            continue;
        }
        let mut left = left.unwrap_or(0);
        let percent = dice.pick(&[0, 40, 100]);
        let some_of_each = dice.chance(40);
        for other in (0..4).filter(|&other| other != class) {
            // Minor has no limit of its own.
            let limit = if other == 3 { left } else { limits[other].min(left) };
            if dice.chance(percent) {
                let few = if some_of_each { 1 } else { up_to(dice, limit) };
                lot.counts[other] = few.min(limit);
                left -= lot.counts[other];
            }
        }
        // Minor makes up the total.
        lot.counts[class] = if class == 3 { left } else { count };
        // So many are above every acceptance number.
        if grade == 3 && dice.chance(15) {
            let percent = dice.pick(&[50, 50, 100]);
            for place in 0..4 {
                if dice.chance(percent) {
                    lot.counts[place] =
                        dice.pick(&[MOST_DEFECTS, MOST_DEFECTS, MOST_DEFECTS, 1_999]);
                }
            }
        }
        return lot;
    }
}

/// An accepted lot, its grade known as in [`of_defect_grade`].
fn accepted(dice: &mut Dice) -> LotCase {
    let grade = dice.below(4) as Grade;
    let lot = of_defect_grade(dice, grade);
    // "the lot grade is the worse of it and the prerequisite"
    let expected = Some(LotAnswer::accepted(grade.max(lot.prerequisite)));
    LotCase { lot: lot.bytes(), expected, made: Made::Accepted }
}

/// Gives an accepted lot this ground of refusal, and no earlier one; number 6 may come with 7. Of
/// several the last is to be given first.
fn damage(dice: &mut Dice, lot: &mut Vec<u8>, number: u32) {
    match number {
        6 => match dice.below(12) {
            0 | 1 => lot.truncate(dice.below(2)),
            2 | 3 => lot[0] ^= dice.pick(&[1, 0x18, 0x20, 255]),
            4 | 5 => lot[1] ^= dice.pick(&[1, 0x18, 0x20, 255]),
            6 | 7 => lot[..2].copy_from_slice(&EXCHANGED),
            _ => lot[..2].copy_from_slice(&dice.pick(&OTHER_MARKS)),
        },
        7 => {
            let mut length = match dice.below(8) {
                0 => 2 + dice.below(LOT_SIZE - 2),
                1 => LOT_SIZE + 1 + dice.below(100),
                2..=4 => dice.pick(&LENGTHS[..LENGTHS.len() - 1]).max(2),
                _ => dice.pick(&[35, 37, 38, 72, 36 + 256]),
            };
            if dice.chance(3) {
                length = 36 + 65_536;
            }
            // Behind the lot the same lot again, or nothing but this byte.
            let byte = dice.pick(&[None, Some(0), Some(1), Some(255)]);
            while lot.len() < length {
                lot.push(byte.unwrap_or(lot[lot.len() - LOT_SIZE]));
            }
            lot.truncate(length);
        }
        20 => {
            let any = dice.below(256) as u8;
            let near = dice.pick(&OTHER_UNITS);
            lot[2] = if SAMPLE_UNITS.contains(&any) || dice.chance(80) { near } else { any };
        }
        21 => loop {
            let at = aql_at(dice.below(3), dice.below(4));
            let any = dice.below(65_536) as u16;
            let near = dice.pick(&UNLISTED);
            let mut other = lot.clone();
            put(&mut other, at, if AQLS.contains(&any) || dice.chance(90) { near } else { any });
            // Often without a fall, if it can be.
            if dice.chance(30) || !grounds(&other).contains(&22) {
                *lot = other;
                break;
            }
        },
        22 => {
            let (class, (_, falls)) = (dice.below(4), dice.pick(&FALLS));
            for (grade, aql) in dice.pick(&falling(falls)).into_iter().enumerate() {
                put(lot, aql_at(grade, class), aql);
            }
        }
        8 => {
            // At one place, and now and then at another; the others often at 2,000.
            let place = dice.below(4);
            for other in 0..4 {
                let any = dice.between(2_001, 65_535) as u16;
                let few = [2_001, 2_001, 2_048, 4_000, 32_768, any];
                if other == place || dice.chance(10) {
                    put(lot, 27 + 2 * other, dice.pick(&[&TOO_MANY[..], &few].concat()));
                } else if dice.chance(20) {
                    put(lot, 27 + 2 * other, MOST_DEFECTS);
                }
            }
        }
        _ => {
            let any = dice.between(4, 255) as u8;
            lot[35] = dice.pick(&[&ABOVE_3[..], &[any]].concat());
        }
    }
}

/// A lot with these grounds; expected is the first of them in the order of [`NUMBERS`].
fn damaged(dice: &mut Dice, numbers: &[u32], made: Made) -> LotCase {
    let mut lot = accepted(dice).lot;
    // An AQL that is not listed may take away a fall, and a wrong length any later ground; the
    // first ground stays.
    for number in NUMBERS.into_iter().rev() {
        if numbers.contains(&number) {
            damage(dice, &mut lot, number);
        }
    }
    let first = NUMBERS.into_iter().find(|number| numbers.contains(number));
    LotCase { lot, expected: first.map(LotAnswer::refused), made }
}

/// Two grounds, each two of them as often as others, or more.
fn several_grounds(dice: &mut Dice) -> LotCase {
    let first = dice.below(NUMBERS.len());
    let second = (first + 1 + dice.below(NUMBERS.len() - 1)) % NUMBERS.len();
    let mut numbers = vec![NUMBERS[first], NUMBERS[second]];
    let percent = dice.pick(&[0, 0, 0, 30, 80]);
    numbers.extend(NUMBERS.into_iter().filter(|_| dice.chance(percent)));
    damaged(dice, &numbers, Made::SeveralGrounds)
}

/// An accepted lot with some bytes changed; what comes of it is not known beforehand.
fn changed(dice: &mut Dice) -> LotCase {
    let mut lot = accepted(dice).lot;
    for _ in 0..dice.between(1, 3) {
        let at = dice.below(lot.len());
        // Any field of two bytes, as long as there are 36 bytes.
        let fields = [3 + 2 * dice.below(16), 3 + 2 * dice.below(16)];
        match dice.below(10) {
            0 | 1 => lot[at] ^= 1 << dice.below(8),
            2 => lot[at] = dice.below(256) as u8,
            3 => lot.insert(at, dice.below(256) as u8),
            4 if lot.len() > 1 => drop(lot.remove(at)),
            5 if dice.chance(20) => lot.truncate(at),
            6 | 7 if lot.len() == LOT_SIZE => {
                // Two fields exchanged.
                let [one, other] = fields.map(|at| u16::from_be_bytes([lot[at], lot[at + 1]]));
                put(&mut lot, fields[0], other);
                put(&mut lot, fields[1], one);
            }
            8 if lot.len() == LOT_SIZE => lot.swap(fields[0], fields[0] + 1),
            9 if lot.len() == LOT_SIZE => lot[2..].rotate_left(1),
            _ => {
                let last = lot.len() - 1;
                lot[last] = dice.below(5) as u8;
            }
        }
        if lot.is_empty() {
            break;
        }
    }
    LotCase { lot, expected: None, made: Made::Changed }
}

/// A lot of any bytes, mostly with a right mark, a right length and some right fields.
fn any_bytes(dice: &mut Dice) -> LotCase {
    let length = if dice.chance(85) { LOT_SIZE } else { dice.below(80) };
    let most = dice.pick(&[2, 5, 30, 256]);
    let mut lot: Vec<u8> = (0..length).map(|_| dice.below(most) as u8).collect();
    if dice.chance(85) {
        let mark = length.min(2);
        lot[..mark].copy_from_slice(&MARK[..mark]);
    }
    if length == LOT_SIZE {
        if dice.chance(80) {
            lot[2] = dice.pick(&SAMPLE_UNITS);
        }
        if dice.chance(75) {
            let mut aqls = [0; 12];
            let listed = dice.pick(&[0..6, 4..6, 5..6].each_ref());
            aqls.fill_with(|| dice.pick(&AQLS[listed.clone()]));
            if dice.chance(50) {
                // From A to C, and so in every class.
                aqls.sort_unstable();
            }
            for (place, aql) in aqls.into_iter().enumerate() {
                put(&mut lot, 3 + 2 * place, aql);
            }
        }
        if dice.chance(75) {
            let most = dice.pick(&[3, 8, 30, 2_002]);
            for place in 0..4 {
                put(&mut lot, 27 + 2 * place, dice.below(most) as u16);
            }
        }
        if dice.chance(75) {
            lot[35] = dice.below(5) as u8;
        }
    }
    LotCase { lot, expected: None, made: Made::AnyBytes }
}

/// The lot of this seed: more than four in ten accepted, four in a hundred with each ground by
/// itself. Panics if its answer is another in a second way.
pub fn lot_case(seed: u64) -> LotCase {
    let dice = &mut Dice(seed);
    let case = match dice.below(100) {
        percent @ 0..=27 => {
            let number = NUMBERS[percent / 4];
            damaged(dice, &[number], Made::OneGround(number))
        }
        28..=42 => several_grounds(dice),
        43..=48 => changed(dice),
        49..=54 => any_bytes(dice),
        _ => accepted(dice),
    };
    check_lot(&case.lot);
    case
}

/// Two lots of this seed: of one lot the first gets fewer defects or the second more, at one place
/// or several. Often one count alone goes across an acceptance number.
pub fn lot_pair(seed: u64) -> LotPair {
    let dice = &mut Dice(seed);
    let grade = dice.below(4) as Grade;
    let mut lot = of_defect_grade(dice, grade);
    if dice.chance(70) {
        lot.prerequisite = 0;
    }
    let (mut first, mut second) = (lot, lot);
    let alone = dice.below(4);
    let percent = dice.pick(&[0, 0, 0, 40, 100]);
    let lowers = dice.pick(&[0, 50, 100]);
    for (place, &count) in lot.counts.iter().enumerate() {
        if place != alone && !dice.chance(percent) {
            continue;
        }
        if dice.chance(lowers) {
            let any = up_to(dice, count);
            first.counts[place] = dice.pick(&[0, count.saturating_sub(1), any]);
        } else {
            let more = dice.between(2, 12) as u16;
            let any = dice.between(count.into(), MOST_DEFECTS.into()) as u16;
            let counts = [count, count + 1, count + 1, count + more, any, MOST_DEFECTS];
            second.counts[place] = dice.pick(&counts).min(MOST_DEFECTS);
        }
    }
    let pair = LotPair { first: first.bytes(), second: second.bytes() };
    for lot in [&pair.first, &pair.second] {
        assert_eq!(check_lot(lot).number, 0, "seed {seed}");
    }
    pair
}

/// The AQLs of one class at A, B and C around that of a cell, and the grades that answer a count at
/// its acceptance number and one above.
struct Around {
    aqls: [u16; 3],
    at: Grade,
    above: Grade,
}

/// For each cell of the table and each class, lots in which no other class decides: one with a
/// count at the acceptance number, and one with a count one above, each in four ways. All other
/// AQLs are 12.5, the largest there is, and all other counts zero; for total the defects are minor
/// ones. Total is then as large as the count, and is within the acceptance number of 12.5 exactly
/// if the class would be with 12.5. So the count alone decides, and the grade is known:
///
/// - The cell at A, B and C. At the number: A. One above: no grade admits it.
/// - The cell at A, 12.5 at B and C. At the number: A. One above: B, as every other number in the
///   column is smaller than that of 12.5 by two or more; for 12.5 itself, no grade.
/// - 1.0 at A, the cell at B, 12.5 at C. At the number: B, or A if the number of 1.0 is the same.
///   One above: C; for 12.5 itself, no grade.
/// - 1.0 at A and B, the cell at C. At the number: C, or A if the number of 1.0 is the same. One
///   above: no grade.
///
/// The prerequisite is A.
pub fn table_cases() -> Vec<LotCase> {
    let mut cases = Vec::new();
    for (sample_units, column) in TABLE_XV {
        for (aql, number) in column {
            let best = |grade: Grade| if number == column[0].1 { 0 } else { grade };
            let worst = |grade: Grade| if aql == 125 { SUBSTANDARD } else { grade };
            let ways = [
                Around { aqls: [aql, aql, aql], at: 0, above: SUBSTANDARD },
                Around { aqls: [aql, 125, 125], at: 0, above: worst(1) },
                Around { aqls: [10, aql, 125], at: best(1), above: worst(2) },
                Around { aqls: [10, 10, aql], at: best(2), above: SUBSTANDARD },
            ];
            for class in 0..4 {
                for Around { aqls, at, above } in &ways {
                    let mut lot =
                        Lot { sample_units, aqls: [[125; 4]; 3], counts: [0; 4], prerequisite: 0 };
                    for (grade, &aql) in aqls.iter().enumerate() {
                        lot.aqls[grade][class] = aql;
                    }
                    for (count, grade) in [(number, *at), (number + 1, *above)] {
                        // The fourth place is total as a class and minor as a count.
                        lot.counts[class] = count;
                        let expected = Some(LotAnswer::accepted(grade));
                        cases.push(LotCase { lot: lot.bytes(), expected, made: Made::Table });
                    }
                }
            }
        }
    }
    cases
}

const LETTERS: [char; 4] = ['A', 'B', 'C', 'S'];
const CLASSES: [&str; 4] = ["critical", "severe", "major", "total"];
const PLACES: [&str; 4] = ["critical", "severe", "major", "minor"];

/// How often each thing happened in lots; every name is there from the first note on, also with
/// zero.
#[derive(Default)]
pub struct LotCounts(pub Counts);

impl std::fmt::Display for LotCounts {
    fn fmt(&self, f: &mut std::fmt::Formatter<'_>) -> std::fmt::Result {
        self.0.fmt(f)
    }
}

impl LotCounts {
    fn note(&mut self, name: &str, is: bool) {
        self.0.add(&format!("lot: {name}"), is.into());
    }

    /// The names of what never happened.
    pub fn missing(&self) -> impl Iterator<Item = &str> {
        self.0.missing()
    }

    /// Panics if something never happened, or nothing was taken in.
    pub fn check(&self) {
        assert!(!self.0 .0.is_empty(), "no lot");
        let missing: Vec<&str> = self.missing().collect();
        assert!(missing.is_empty(), "never happened: {missing:#?}");
    }

    /// Takes in a case and its answer, as [`grade_lot`] hands it out.
    pub fn add(&mut self, case: &LotCase, answer: LotAnswer) {
        let number = answer.number;
        for known in [&[0], &NUMBERS[..]].concat() {
            self.note(&format!("number {known:02}"), number == known);
        }
        for (name, known) in [
            ("accepted lot", Made::Accepted),
            ("lot with several grounds", Made::SeveralGrounds),
            ("changed lot", Made::Changed),
            ("lot of any bytes", Made::AnyBytes),
        ] {
            let this = case.made == known;
            if known != Made::SeveralGrounds {
                self.note(&format!("{name}, accepted"), this && number == 0);
            }
            if known != Made::Accepted {
                self.note(&format!("{name}, refused"), this && number != 0);
            }
        }
        self.note_grounds(&case.lot, number);
        self.note_refused_fields(&case.lot, number);
        self.note_accepted(read(&case.lot).ok().filter(|_| number == 0));
    }

    /// Which grounds there are at once, by pairs, and the lengths and marks.
    fn note_grounds(&mut self, lot: &[u8], number: u32) {
        let grounds = grounds(lot);
        for (place, first) in NUMBERS.into_iter().enumerate() {
            self.note(&format!("ground {first:02} alone"), grounds == [first]);
            for second in &NUMBERS[place + 1..] {
                let both = grounds.contains(&first) && grounds.contains(second);
                self.note(&format!("grounds {first:02} and {second:02} at once"), both);
                let pair = grounds == [first, *second];
                self.note(&format!("grounds {first:02} and {second:02} and no other"), pair);
            }
        }
        self.note("three grounds or more", grounds.len() > 2);
        for length in LENGTHS {
            self.note(&format!("{length} bytes"), lot.len() == length);
            if length >= 2 {
                let refused = lot.len() == length && number == 7;
                self.note(&format!("number 07 for {length} bytes"), refused);
            }
        }
        let right = lot.len() == LOT_SIZE;
        self.note("number 06 for 36 bytes", number == 6 && right);
        self.note("number 06 for fewer than 36 bytes with a mark", {
            number == 6 && (2..LOT_SIZE).contains(&lot.len())
        });
        self.note("number 06 for more than 36 bytes", number == 6 && lot.len() > LOT_SIZE);
        self.note("number 06 for the first byte of a mark alone", lot == &MARK[..1]);
        let mark = lot.get(..2).unwrap_or(&MARK);
        let wrong = [0, 1].map(|at| mark[at] != MARK[at]);
        let refused = number == 6 && right;
        self.note("wrong mark, the first byte alone", refused && wrong == [true, false]);
        self.note("wrong mark, the second byte alone", refused && wrong == [false, true]);
        self.note("wrong mark, both bytes", refused && wrong == [true, true]);
        self.note("wrong mark, the bytes exchanged", refused && mark == EXCHANGED);
        for [first, second] in OTHER_MARKS {
            let name = format!("wrong mark {first:02X} {second:02X}");
            self.note(&name, refused && mark == [first, second]);
        }
    }

    /// What is wrong in the fields of a lot that is refused with 20, 21, 22, 8 or 9.
    fn note_refused_fields(&mut self, bytes: &[u8], number: u32) {
        let lot = read(bytes).ok();
        let here = |known: u32| lot.filter(|_| number == known);
        for units in OTHER_UNITS {
            let this = here(20).is_some_and(|lot| lot.sample_units == units);
            self.note(&format!("number 20 for {units} sample units"), this);
        }
        // The places of AQLs that are not listed, by grade and class, and the classes that fall.
        let mut unlisted: Vec<(usize, usize, u16)> = Vec::new();
        let mut falls = [false; 4];
        if let Some(lot) = here(21) {
            for class in 0..4 {
                let aqls = lot.aqls.map(|grade| grade[class]);
                let other = (0..3).filter(|&grade| !AQLS.contains(&aqls[grade]));
                unlisted.extend(other.map(|grade| (grade, class, aqls[grade])));
                falls[class] = aqls[1] < aqls[0] || aqls[2] < aqls[1];
            }
        }
        for value in UNLISTED {
            let this = matches!(unlisted[..], [(_, _, only)] if only == value);
            self.note(&format!("number 21 for {value} alone"), this);
        }
        for (grade, letter) in LETTERS.into_iter().take(3).enumerate() {
            for (class, name) in CLASSES.into_iter().enumerate() {
                let this = matches!(unlisted[..], [(g, c, _)] if (g, c) == (grade, class));
                self.note(&format!("number 21 for {letter} {name} alone"), this);
                let fall = this && falls == [false; 4];
                self.note(&format!("number 21 for {letter} {name} alone, without a fall"), fall);
            }
        }
        let with_fall = |test: &dyn Fn(usize, usize) -> bool| {
            let class = unlisted.first().map(|&(_, class, _)| class);
            class.is_some_and(|class| (0..4).any(|other| falls[other] && test(other, class)))
        };
        self.note("number 21, a fall in an earlier class", with_fall(&|fall, at| fall < at));
        self.note("number 21, a fall in the same class", with_fall(&|fall, at| fall == at));
        self.note("number 21, a fall in a later class", with_fall(&|fall, at| fall > at));
        let later_grade = with_fall(&|fall, at| fall != at) && unlisted[0].0 == 2;
        self.note("number 21 at grade C, a fall in another class", later_grade);

        for (class, name) in CLASSES.into_iter().enumerate() {
            for (kind, falls) in FALLS {
                // In this class alone.
                let this = here(22).is_some_and(|lot| {
                    (0..4).all(|other| {
                        let aqls = lot.aqls.map(|grade| grade[other]);
                        if other == class {
                            falls(aqls)
                        } else {
                            aqls.is_sorted()
                        }
                    })
                });
                self.note(&format!("number 22, {name} alone falls from {kind}"), this);
            }
        }
        for (place, name) in PLACES.into_iter().enumerate() {
            let alone = here(8).filter(|lot| {
                (0..4).all(|other| (lot.counts[other] > MOST_DEFECTS) == (other == place))
            });
            for count in TOO_MANY {
                let this = alone.is_some_and(|lot| lot.counts[place] == count);
                self.note(&format!("number 08 for {count} {name} alone"), this);
            }
            let beside = alone.is_some_and(|lot| lot.counts.contains(&MOST_DEFECTS));
            self.note(&format!("number 08 for {name} alone, 2000 at another place"), beside);
        }
        for prerequisite in ABOVE_3 {
            let this = here(9).is_some_and(|lot| lot.prerequisite == prerequisite);
            self.note(&format!("number 09 for prerequisite {prerequisite}"), this);
        }
    }

    /// The grades of an accepted lot and what decides them.
    fn note_accepted(&mut self, lot: Option<Lot>) {
        let grade = lot.map(|lot| defect_grade(&lot));
        let prerequisite = lot.map(|lot| lot.prerequisite);
        for (code, letter) in (0..).zip(LETTERS) {
            let this = grade.max(prerequisite) == Some(code);
            self.note(&format!("grade {letter}"), this);
            for (other, word) in (0..).zip(LETTERS) {
                let name = format!("defect grade {letter}, prerequisite {word}");
                self.note(&name, grade == Some(code) && prerequisite == Some(other));
            }
        }
        for (place, name) in PLACES.into_iter().enumerate() {
            let most = |lot: Lot| lot.counts[place] == MOST_DEFECTS;
            self.note(&format!("accepted, {name} of 2000"), lot.is_some_and(most));
        }
        let total = lot.map_or(0, |lot| lot.class_counts()[3]);
        self.note("accepted, a total above 2000", total > 2_000);
        self.note("accepted, a total of 8000", total == 8_000);
        self.note("accepted without a defect", lot.is_some() && total == 0);
        let is_even =
            |lot: Lot| (0..4).any(|class| lot.aqls.iter().all(|g| g[class] == lot.aqls[0][class]));
        self.note("accepted, a class with one AQL", lot.is_some_and(is_even));

        // Classes at the acceptance number of the defect grade: with one less there, the grade
        // would be worse. A class alone above that of the next better grade: if the count is one
        // above, with one more there the grade would be better. Each as far as the prerequisite
        // lets it be seen.
        let mut at: Vec<usize> = Vec::new();
        let mut above: Vec<usize> = Vec::new();
        let mut one_above = None;
        let mut cells = (Vec::new(), None);
        let worst = grade.map_or(0, usize::from);
        if let Some(lot) = lot {
            let (numbers, counts) = (lot.numbers(), lot.class_counts());
            if worst < 3 && usize::from(lot.prerequisite) <= worst {
                at.extend((0..4).filter(|&c| counts[c] == u32::from(numbers[worst][c])));
                cells.0.extend(at.iter().map(|&c| (lot.sample_units, lot.aqls[worst][c])));
            }
            if worst > 0 && usize::from(lot.prerequisite) < worst {
                let better = worst - 1;
                above.extend((0..4).filter(|&c| counts[c] > u32::from(numbers[better][c])));
                one_above = match above[..] {
                    [c] if counts[c] == u32::from(numbers[better][c]) + 1 => Some(c),
                    _ => None,
                };
                cells.1 = one_above.map(|c| (lot.sample_units, lot.aqls[better][c]));
            }
        }
        for (units, column) in TABLE_XV {
            for (aql, _) in column {
                let cell = (units, aql);
                let name = format!("{units:02} units, AQL {:>2}.{}", aql / 10, aql % 10);
                self.note(&format!("{name}: at the acceptance number"), cells.0.contains(&cell));
                self.note(&format!("{name}: one above alone"), cells.1 == Some(cell));
            }
        }
        for (class, name) in CLASSES.into_iter().enumerate() {
            for (code, letter) in LETTERS.into_iter().enumerate() {
                let this = lot.is_some() && worst == code;
                if code < 3 {
                    let at = this && at.contains(&class);
                    self.note(&format!("grade {letter} with {name} at the number"), at);
                }
                if code > 0 {
                    let alone = this && above[..] == [class];
                    self.note(&format!("grade {letter} decided by {name} alone"), alone);
                    let one = this && one_above == Some(class);
                    self.note(&format!("grade {letter} decided by one {name} alone"), one);
                }
            }
        }
        self.note("decided by two classes or more", above.len() > 1);
        let minor_alone = lot.is_some_and(|lot| lot.counts[..3] == [0; 3]);
        let some_of_all = lot.is_some_and(|lot| lot.counts.iter().all(|&count| count > 0));
        self.note("total at the number, by minor alone", minor_alone && at.contains(&3));
        self.note("total decides by one, by minor alone", minor_alone && one_above == Some(3));
        self.note("total at the number, by all four", some_of_all && at.contains(&3));
        self.note("total decides by one, by all four", some_of_all && one_above == Some(3));
        let no_minor = lot.is_some_and(|lot| lot.counts[3] == 0);
        self.note("total decides by one, without minor", no_minor && one_above == Some(3));
        // Substandard by one place, and not so by its low byte.
        for (place, name) in PLACES.into_iter().enumerate() {
            let by_high_byte = |mut lot: Lot| {
                let [high, low] = lot.counts[place].to_be_bytes();
                lot.counts[place] = low.into();
                high > 0 && worst == 3 && lot.prerequisite < 3 && defect_grade(&lot) < 3
            };
            let name = format!("grade S by the high byte of {name}");
            self.note(&name, lot.is_some_and(by_high_byte));
        }
        // Minor is no class, and has no acceptance number of its own.
        let many_minor = |lot: Lot| {
            let numbers = lot.numbers().get(worst).copied();
            numbers.is_some_and(|numbers| (0..3).all(|class| lot.counts[3] > numbers[class]))
        };
        let many_minor = lot.is_some_and(many_minor);
        self.note("minor above the numbers of critical, severe and major", many_minor);
    }

    /// Takes in a pair and the answers of both.
    pub fn add_pair(&mut self, pair: &LotPair, answers: [LotAnswer; 2]) {
        let grades = answers.map(|answer| usize::from(answer.grade));
        for (better, letter) in LETTERS.into_iter().enumerate() {
            for (lower, other) in LETTERS.into_iter().enumerate().skip(better) {
                self.note(&format!("pair of {letter} and {other}"), grades == [better, lower]);
            }
        }
        let counts = [&pair.first, &pair.second].map(|lot| read(lot).map(|lot| lot.counts));
        let [Ok(first), Ok(second)] = counts else { panic!("a refused lot in a pair") };
        let fewer: Vec<usize> = (0..4).filter(|&place| first[place] < second[place]).collect();
        for (place, name) in PLACES.into_iter().enumerate() {
            let alone = fewer == [place];
            self.note(&format!("pair, fewer {name} alone, equal grades"), {
                alone && grades[0] == grades[1]
            });
            self.note(&format!("pair, fewer {name} alone, another grade"), {
                alone && grades[0] != grades[1]
            });
            let one = alone && first[place] + 1 == second[place] && grades[0] != grades[1];
            self.note(&format!("pair, one {name} fewer, another grade"), one);
        }
        self.note("pair of equal lots", fewer.is_empty());
        self.note("pair, fewer at all places", fewer.len() == 4);
    }
}

/// The counts of so many seeds from 0 on, of lots and of pairs.
pub fn lot_counts(seeds: u64) -> LotCounts {
    let mut counts = LotCounts::default();
    for seed in 0..seeds {
        let case = lot_case(seed);
        counts.add(&case, grade_lot(&case.lot));
        let pair = lot_pair(seed);
        counts.add_pair(&pair, [&pair.first, &pair.second].map(|lot| grade_lot(lot)));
    }
    counts
}
