//! Warehouse lots over the boundary: each grade, each ground and their order, the examples of the source
//! document, and lots of any length.

use hatmuyon::{ffi, grade_lot, Grade, LotGround, LotRefusal, LARGEST_COUNT, LOT_MARK, LOT_SIZE};

const WAREHOUSE: &[u8] = include_bytes!("../../../examples/warehouse.lot");
const PEACH: &[u8] = include_bytes!("../../../examples/peach.sheet");
const TOMATO: &[u8] = include_bytes!("../../../examples/tomato.mold");

/// Where the AQL of a grade and class stands, and the count of a kind; the prerequisite is the last byte.
fn aql_at(grade: usize, class: usize) -> usize {
    3 + 8 * grade + 2 * class
}

fn count_at(kind: usize) -> usize {
    27 + 2 * kind
}

const PREREQUISITE: usize = 35;

/// A lot with these sample units, AQLs in tenths of critical, severe, major and total at A, B and C,
/// counts of critical, severe, major and minor, and this prerequisite.
fn lot(units: u8, aqls: [[u16; 4]; 3], counts: [u16; 4], prerequisite: u8) -> Vec<u8> {
    let numbers = aqls.into_iter().flatten().chain(counts).flat_map(u16::to_be_bytes);
    let mark = LOT_MARK.to_be_bytes();
    mark.into_iter().chain([units]).chain(numbers).chain([prerequisite]).collect()
}

/// AQLs that rise from A to B and from B to C: at 6 sample units the acceptance numbers are 1, 1, 1, 3
/// and 3, 3, 3, 4 and 4, 4, 4, 8.
const RISING: [[u16; 4]; 3] = [[10, 10, 15, 25], [25, 25, 25, 40], [40, 50, 50, 125]];

fn rising(counts: [u16; 4], prerequisite: u8) -> Vec<u8> {
    lot(6, RISING, counts, prerequisite)
}

fn with(lot: &[u8], at: usize, byte: u8) -> Vec<u8> {
    let mut lot = lot.to_vec();
    lot[at] = byte;
    lot
}

fn with_two(lot: &[u8], at: usize, number: u16) -> Vec<u8> {
    let [high, low] = number.to_be_bytes();
    with(&with(lot, at, high), at + 1, low)
}

/// Grades a lot inside a larger buffer, all of which is kept: the grade, or the number of the refusal.
/// The answer in C has 0 and the grade, or the number and 3, and offset 0.
fn graded(lot: &[u8]) -> Result<Grade, u32> {
    let mut memory = [&[0xEE; LOT_SIZE][..], lot, &[0xEE; LOT_SIZE]].concat();
    let kept = memory.clone();
    let lent = &memory[LOT_SIZE..LOT_SIZE + lot.len()];
    let graded = grade_lot(lent);
    let lent = memory[LOT_SIZE..].as_mut_ptr();
    // Safety: the pointer is valid for the length.
    let answer = unsafe { ffi::hatmuyon_grade_lot(lent, lot.len()) };
    assert_eq!(memory, kept, "a byte was changed");
    let (number, grade) = match graded {
        Ok(grade) => (0, grade),
        Err(LotRefusal { number, offset: 0 }) => (number, Grade::Substandard),
        Err(refusal) => panic!("{refusal}"),
    };
    assert_eq!(answer, ffi::LotAnswer { number, grade: grade as u8, offset: 0 });
    graded.map_err(|refusal| refusal.number)
}

use Grade::{Substandard, A, B, C};
const GRADES: [Grade; 4] = [A, B, C, Substandard];

#[test]
fn each_grade() {
    // By each class: at the acceptance number of a grade, and one above it.
    for (kind, [a, b, c]) in [[1, 3, 4], [1, 3, 4], [1, 3, 4], [3, 4, 8]].into_iter().enumerate() {
        for (count, grade) in [
            (0, A),
            (a, A),
            (a + 1, B),
            (b, B),
            (b + 1, C),
            (c, C),
            (c + 1, Substandard),
            (LARGEST_COUNT, Substandard),
        ] {
            let mut counts = [0; 4];
            counts[kind] = count;
            assert_eq!(graded(&rising(counts, 0)), Ok(grade), "{count} of kind {kind}");
        }
    }
    // Total is the sum of all four; minor is no class by itself.
    assert_eq!(graded(&rising([1, 1, 1, 0], 0)), Ok(A));
    assert_eq!(graded(&rising([1, 1, 1, 1], 0)), Ok(B));
    assert_eq!(graded(&rising([1, 1, 1, 2], 0)), Ok(C));
    assert_eq!(graded(&rising([2, 2, 2, 2], 0)), Ok(C));
    assert_eq!(graded(&rising([2, 2, 2, 3], 0)), Ok(Substandard));
    assert_eq!(graded(&rising([LARGEST_COUNT; 4], 0)), Ok(Substandard));
}

#[test]
fn worse_of_defect_grade_and_prerequisite() {
    let counts = [[0, 0, 0, 0], [2, 0, 0, 0], [4, 0, 0, 0], [5, 0, 0, 0]];
    for (counts, defect_grade) in counts.into_iter().zip(GRADES) {
        for prerequisite in GRADES {
            let worse = defect_grade.max(prerequisite);
            assert_eq!(graded(&rising(counts, prerequisite as u8)), Ok(worse));
        }
    }
}

#[test]
fn warehouse_lot() {
    // Example 19: 1 critical, 1 severe, 3 major and 2 minor defects in six sample units, grade A. Only
    // the AQLs of A are there, 1.0, 1.5, 4.0 and 12.5; those of B and C are filled in as the same.
    let aqls = [[10, 15, 40, 125]; 3];
    assert_eq!(WAREHOUSE, lot(6, aqls, [1, 1, 3, 2], 0));
    assert_eq!(graded(WAREHOUSE), Ok(A));
    // What is above an acceptance number fails all three grades.
    for (counts, grade) in [
        ([1, 1, 4, 2], A),
        ([1, 1, 3, 3], A),
        ([2, 1, 3, 2], Substandard),
        ([1, 2, 3, 2], Substandard),
        ([1, 1, 5, 1], Substandard),
        ([1, 1, 3, 4], Substandard),
    ] {
        assert_eq!(graded(&lot(6, aqls, counts, 0)), Ok(grade), "{counts:?}");
    }
}

#[test]
fn example_with_unlisted_aqls() {
    // Example 17: of its AQLs 6.5, 10.0, 20.0 and 25.0 are not listed for a sample unit size of 6.
    let example = [[10, 15, 40, 125], [15, 40, 65, 200], [25, 65, 100, 250]];
    for units in [6, 13, 21, 29] {
        assert_eq!(graded(&lot(units, example, [0; 4], 0)), Err(21));
        assert_eq!(graded(&lot(units, example, [1, 1, 3, 2], 3)), Err(21));
    }
}

#[test]
fn each_ground() {
    let good = rising([1, 1, 1, 0], 0);
    let mut refused: Vec<(u32, Vec<u8>)> = vec![
        (6, with(&good, 0, 0x4D)),
        (6, with(&good, 1, 0x55)),
        (6, with(&with(&good, 0, 0x54), 1, 0x4C)),
        (6, PEACH.to_vec()),
        (6, TOMATO.to_vec()),
        (7, [&good[..], &[0]].concat()),
        (7, [&good[..], &good].concat()),
        (7, good.iter().copied().chain([0; 65_536]).collect()),
    ];
    refused.extend((0..LOT_SIZE).map(|length| {
        let number = if length < 2 { 6 } else { 7 };
        (number, good[..length].to_vec())
    }));
    let listed = [6, 13, 21, 29];
    let others = (0..=u8::MAX).filter(|units| !listed.contains(units));
    refused.extend(others.map(|units| (20, with(&good, 2, units))));
    for class in 0..4 {
        for grade in 0..3 {
            for aql in [0, 1, 9, 11, 65, 100, 124, 126, 200, 250, 256 + 10, 0x0A00, u16::MAX] {
                refused.push((21, with_two(&good, aql_at(grade, class), aql)));
            }
        }
        for aqls in [[15, 10, 125], [25, 50, 40], [50, 40, 50], [125, 15, 10], [15, 125, 10]] {
            let falling = (0..3)
                .fold(good.clone(), |lot, grade| with_two(&lot, aql_at(grade, class), aqls[grade]));
            refused.push((22, falling));
        }
    }
    for kind in 0..4 {
        for count in [LARGEST_COUNT + 1, 0xD007, u16::MAX] {
            refused.push((8, with_two(&good, count_at(kind), count)));
        }
    }
    refused.extend((4..=u8::MAX).map(|byte| (9, with(&good, PREREQUISITE, byte))));

    for (number, lot) in &refused {
        assert_eq!(graded(lot), Err(*number), "{lot:?}");
    }
    for ground in LotGround::ALL {
        assert!(refused.iter().any(|&(number, _)| number == ground.number()), "{ground:?}");
    }
    assert_eq!(graded(&good), Ok(A));
}

#[test]
fn first_of_the_grounds() {
    // Each damage by itself is refused by its number; of two, the one that comes first in the order.
    type Damage = fn(&mut Vec<u8>);
    let damages: [(u32, Damage); 7] = [
        (6, |lot| lot[1] = 0),
        (7, |lot| lot.push(0)),
        (20, |lot| lot[2] = 7),
        (21, |lot| lot[aql_at(2, 3) + 1] = 126),
        (22, |lot| lot[aql_at(1, 0) + 1] = 125),
        (8, |lot| lot[count_at(3)] = 8),
        (9, |lot| lot[PREREQUISITE] = 4),
    ];
    for (first, (number, damage)) in damages.iter().enumerate() {
        let mut lot = rising([0; 4], 0);
        damage(&mut lot);
        assert_eq!(graded(&lot), Err(*number));
        for (_, further) in &damages[first + 1..] {
            let mut both = lot.clone();
            further(&mut both);
            assert_eq!(graded(&both), Err(*number));
        }
    }
    // An AQL that is not listed comes before one that falls, wherever they stand.
    for class in 0..4 {
        let falling = with_two(&rising([0; 4], 0), aql_at(1, class), 10);
        let falling = with_two(&falling, aql_at(0, class), 15);
        assert_eq!(graded(&falling), Err(22));
        for grade in 0..3 {
            for other in 0..4 {
                assert_eq!(graded(&with_two(&falling, aql_at(grade, other), 65)), Err(21));
            }
        }
    }
}

#[test]
fn no_byte() {
    assert_eq!(graded(&[]), Err(6));
    assert_eq!(grade_lot(&[]), Err(LotRefusal { number: 6, offset: 0 }));
}

#[test]
fn wherever_the_lot_begins() {
    let lot = rising([2, 0, 0, 0], 0);
    for before in 0..=LOT_SIZE {
        let bytes = [vec![0xEE; before], lot.clone()].concat();
        assert_eq!(graded(&bytes[before..]), Ok(B));
    }
}

#[test]
fn every_ground_and_error() {
    let numbers: Vec<u32> = LotGround::ALL.iter().map(|ground| ground.number()).collect();
    assert_eq!(numbers, [6, 7, 8, 9, 20, 21, 22]);
    for &ground in LotGround::ALL {
        assert_eq!(LotGround::from_number(ground.number()), Some(ground));
    }
    for number in (0..6).chain(10..20).chain([23, u32::MAX]) {
        assert_eq!(LotGround::from_number(number), None);
    }
    let error: Box<dyn std::error::Error> = Box::new(grade_lot(&WAREHOUSE[..35]).unwrap_err());
    assert_eq!(error.to_string(), "refused 7 at offset 0: length not 36 bytes");
    let refusal = grade_lot(&with(WAREHOUSE, 2, 12)).unwrap_err();
    assert_eq!(refusal.ground(), Some(LotGround::BadSampleUnits));
    assert_eq!(refusal.to_string(), "refused 20 at offset 0: sample units not 6, 13, 21 or 29");
}
