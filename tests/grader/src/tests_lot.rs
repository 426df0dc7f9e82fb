//! Warehouse lots (A.8 of paper 02): the table by hand, the examples of document 003, every refusal
//! and which of two is returned, the grades, wrong programs, the cells of the table, and random
//! lots and pairs in two ways.

use crate::generate_lot::{lot_case, lot_counts, lot_pair, table_cases, LotCounts, Made};
use crate::lot::{acceptance_number, check_lot, class_grades, grade_lot, grade_lot_by_class};
use crate::lot::{grounds, print, read, Lot, LotAnswer, AQLS, LOT_SIZE, NUMBERS, SAMPLE_UNITS};
use crate::sheet::Grade;
use std::collections::BTreeMap;

/// A lot by hand: sample units; AQLs of A, B, C (critical, severe, major, total), or those of A
/// alone, which then are those of B and C too; counts of critical, severe, major, minor;
/// prerequisite.
fn lot(script: &str) -> Vec<u8> {
    let fields: Vec<&str> = script.split(';').map(str::trim).collect();
    let numbers = |field: &str| -> [u16; 4] {
        let words = field.split_whitespace().map(|word| word.replace('.', "").parse().unwrap());
        words.collect::<Vec<u16>>().try_into().unwrap()
    };
    let mut grades: Vec<[u16; 4]> = fields[1].split('/').map(numbers).collect();
    grades.resize(3, grades[0]);
    let lot = Lot {
        sample_units: fields[0].parse().unwrap(),
        aqls: [grades[0], grades[1], grades[2]],
        counts: numbers(fields[2]),
        prerequisite: "ABCS".find(fields[3]).unwrap() as Grade,
    };
    lot.bytes()
}

/// The letter of the grade, or else the number. Both ways to grade have the same answer, and so has
/// the line.
fn graded(lot: &[u8]) -> Result<char, u32> {
    let LotAnswer { number, grade, offset } = check_lot(lot);
    // "every offset here is 0"
    assert_eq!(offset, 0);
    if number != 0 {
        // "a refusal its number and 3"
        assert_eq!(grade, 3);
        assert_eq!(print(lot), format!("refused {number} 0\n"));
        return Err(number);
    }
    let letter = ['A', 'B', 'C', 'S'][usize::from(grade)];
    assert_eq!(print(lot), format!("lot {letter}\n"));
    Ok(letter)
}

/// As [`graded`], of a lot by hand.
fn answer(script: &str) -> Result<char, u32> {
    graded(&lot(script))
}

/// The lot with this byte at this place.
fn with(lot: &[u8], at: usize, byte: u8) -> Vec<u8> {
    let mut lot = lot.to_vec();
    lot[at] = byte;
    lot
}

/// The lot with this number at this place and the next.
fn with_two(lot: &[u8], at: usize, number: u16) -> Vec<u8> {
    let [high, low] = number.to_be_bytes();
    with(&with(lot, at, high), at + 1, low)
}

/// AQLs that rise from A to C in every class; at 6 units the numbers are 1 1 4 8, 3 4 4 8, 4 4 8 8.
const RISING: &str = "1.0 1.5 4.0 12.5 / 2.5 4.0 5.0 12.5 / 4.0 5.0 12.5 12.5";

fn rising() -> Vec<u8> {
    lot(&format!("6; {RISING}; 0 0 0 0; A"))
}

#[test]
fn bytes_of_a_lot() {
    #[rustfmt::skip]
    let bytes = [
        0x4C, 0x54, 13,
        0, 10, 0, 15, 0, 25, 0, 125,
        0, 15, 0, 25, 0, 40, 0, 125,
        0, 25, 0, 40, 0, 50, 0, 125,
        0, 0, 0, 3, 0, 4, 7, 208, 2,
    ];
    let script = "13; 1.0 1.5 2.5 12.5 / 1.5 2.5 4.0 12.5 / 2.5 4.0 5.0 12.5; 0 3 4 2000; C";
    assert_eq!(bytes.len(), LOT_SIZE);
    assert_eq!(lot(script), bytes);
    let read = read(&bytes).unwrap();
    assert_eq!(read.sample_units, 13);
    assert_eq!(read.aqls, [[10, 15, 25, 125], [15, 25, 40, 125], [25, 40, 50, 125]]);
    assert_eq!((read.counts, read.prerequisite), ([0, 3, 4, 2_000], 2));
    assert_eq!(read.class_counts(), [0, 3, 4, 2_007]);
    assert_eq!(grade_lot(&bytes), LotAnswer { number: 0, grade: 3, offset: 0 });
    // 3 severe and 4 major at 13 units: A has 3 and 4, and total has 15.
    assert_eq!(grade_lot(&with_two(&bytes, 33, 8)), LotAnswer { number: 0, grade: 2, offset: 0 });
    let a = with(&with_two(&bytes, 33, 8), 35, 0);
    assert_eq!(grade_lot(&a), LotAnswer { number: 0, grade: 0, offset: 0 });
    assert_eq!(grade_lot(&a[..35]), LotAnswer { number: 7, grade: 3, offset: 0 });
}

#[test]
fn acceptance_numbers() {
    // "Acceptance numbers at 6, 13, 21, 29 units are, for AQL 1.0: 1 2 3 4; 1.5: 1 3 4 5; 2.5: 3 4
    // 6 8; 4.0: 4 6 9 11; 5.0: 4 7 11 14; 12.5: 8 15 22 29."
    let rows = [
        (10, [1, 2, 3, 4]),
        (15, [1, 3, 4, 5]),
        (25, [3, 4, 6, 8]),
        (40, [4, 6, 9, 11]),
        (50, [4, 7, 11, 14]),
        (125, [8, 15, 22, 29]),
    ];
    for (aql, numbers) in rows {
        let found = [6, 13, 21, 29].map(|units| acceptance_number(units, aql).unwrap());
        assert_eq!(found, numbers, "AQL {aql}");
    }
    assert_eq!(AQLS.to_vec(), rows.map(|(aql, _)| aql));
    // The table at the end of document 003, by numbers of units of product: its columns are 36, 78,
    // 126, 150, 169, 174, ...; 6 times the sample units are the first three and the sixth.
    let end_of_document = [
        (10, [1, 2, 3, 4, 4, 4]),
        (15, [1, 3, 4, 5, 5, 5]),
        (25, [3, 4, 6, 7, 8, 8]),
        (40, [4, 6, 9, 10, 11, 11]),
        (50, [4, 7, 11, 12, 13, 14]),
        (125, [8, 15, 22, 26, 29, 29]),
    ];
    for (aql, numbers) in end_of_document {
        for (units, column) in [(6, 0), (13, 1), (21, 2), (29, 5)] {
            assert_eq!(acceptance_number(units, aql), Some(numbers[column]), "{units}, AQL {aql}");
        }
    }
    // None but those.
    for units in 0..=255 {
        for aql in (0..1_300).chain([2_560, 3_840, 32_000, u16::MAX]) {
            let listed = SAMPLE_UNITS.contains(&units) && AQLS.contains(&aql);
            assert_eq!(acceptance_number(units, aql).is_some(), listed, "{units}, AQL {aql}");
        }
    }
    // "at the same sample units a larger AQL never has a smaller acceptance number"
    for units in SAMPLE_UNITS {
        for smaller in AQLS {
            for larger in AQLS.into_iter().filter(|&aql| aql > smaller) {
                assert!(acceptance_number(units, larger) >= acceptance_number(units, smaller));
            }
        }
    }
}

#[test]
fn examples_of_document_003() {
    // Example 17: "12.5 4.0 1.5 1.0", "20.0 6.5 4.0 1.5", "25.0 10.0 6.5 2.5" for total, major,
    // severe, critical. 6.5, 10.0, 20.0 and 25.0 are not listed in A.8.
    let example_17 = "1.0 1.5 4.0 12.5 / 1.5 4.0 6.5 20.0 / 2.5 6.5 10.0 25.0";
    for units in SAMPLE_UNITS {
        assert_eq!(answer(&format!("{units}; {example_17}; 0 0 0 0; A")), Err(21));
        assert_eq!(answer(&format!("{units}; {example_17}; 1 1 3 2; S")), Err(21));
    }
    // Each of the four alone is refused too.
    for (at, aql) in [(15, 65), (17, 200), (21, 65), (23, 100), (25, 250)] {
        assert_eq!(graded(&with_two(&rising(), at, aql)), Err(21), "{aql}");
    }
    // Example 18: "Crit → 1.0 → 1", "Sev 1", "Maj → 4.0 → 4", "Total → 12.5 → 8".
    let example_18 = [(10, 1), (15, 1), (40, 4), (125, 8)];
    for (aql, number) in example_18 {
        assert_eq!(acceptance_number(6, aql), Some(number));
    }
    // Example 19: "Total Critical 1 1", "Total Severe 1 1", "Total Major 3 4", "Total Minor 2",
    // "Total All Classes 7 8", all prerequisites A, "Final Grade A". Only the AQLs of grade A are
    // listed there; those of B and C are filled in as the same, so that what fails A is
    // Substandard.
    let example_19 = |counts: &str, prerequisite: char| {
        answer(&format!("6; 1.0 1.5 4.0 12.5; {counts}; {prerequisite}"))
    };
    assert_eq!(example_19("1 1 3 2", 'A'), Ok('A'));
    // At every acceptance number, and one above in each class.
    assert_eq!(example_19("1 1 4 2", 'A'), Ok('A'));
    assert_eq!(example_19("1 1 3 3", 'A'), Ok('A'));
    assert_eq!(example_19("1 1 3 4", 'A'), Ok('S'));
    assert_eq!(example_19("2 1 3 2", 'A'), Ok('S'));
    assert_eq!(example_19("1 2 3 2", 'A'), Ok('S'));
    assert_eq!(example_19("1 1 5 1", 'A'), Ok('S'));
    // With AQLs of B and C that rise, these are B.
    let rising = |counts: &str| answer(&format!("6; {RISING}; {counts}; A"));
    assert_eq!(rising("1 1 3 2"), Ok('A'));
    assert_eq!(rising("2 1 3 2"), Ok('B'));
    assert_eq!(rising("1 2 3 2"), Ok('B'));
    assert_eq!(rising("1 1 5 1"), Ok('C'));
    assert_eq!(rising("1 1 3 4"), Ok('S'));
    // Examples 15 and 16: "Could grade NO higher than Grade B", "NO higher than Grade C".
    assert_eq!(example_19("1 1 3 2", 'B'), Ok('B'));
    assert_eq!(example_19("1 1 3 2", 'C'), Ok('C'));
    assert_eq!(example_19("0 0 0 0", 'S'), Ok('S'));
    // Examples 8 to 12: 1 critical, 2 severe, 3 major, 4 minor, 10 in all. 13 units admit it at
    // these AQLs, 6 do not for severe and total.
    assert_eq!(example_19("1 2 3 4", 'A'), Ok('S'));
    assert_eq!(answer("13; 1.0 1.5 4.0 12.5; 1 2 3 4; A"), Ok('A'));
    assert_eq!(answer("13; 1.0 1.5 4.0 12.5; 1 2 3 4; B"), Ok('B'));
}

#[test]
fn marks_and_lengths() {
    // "6 (under 2 bytes or a wrong mark) and 7 (length not 36)"
    let right = rising();
    assert_eq!(graded(&right), Ok('A'));
    for length in 0..LOT_SIZE {
        let expected = if length < 2 { 6 } else { 7 };
        assert_eq!(graded(&right[..length]), Err(expected), "{length} bytes");
        assert_eq!(graded(&vec![0; length]), Err(6), "{length} bytes");
    }
    for more in [1, 2, 36, 220, 256, 1_000, 65_500, 65_501, 65_536] {
        for byte in [0, 1, 0x4C, 255] {
            let mut long = right.clone();
            long.resize(LOT_SIZE + more, byte);
            assert_eq!(graded(&long), Err(7), "{more} bytes more");
            assert_eq!(graded(&with(&long, 1, 0x55)), Err(6), "{more} bytes more");
        }
    }
    assert_eq!(graded(&[&right[..], &right].concat()), Err(7));
    // Every other byte at either place of the mark, and the marks of the other records.
    for byte in 0..=255 {
        let expected = |mark: u8| if byte == mark { Ok('A') } else { Err(6) };
        assert_eq!(graded(&with(&right, 0, byte)), expected(0x4C), "{byte}");
        assert_eq!(graded(&with(&right, 1, byte)), expected(0x54), "{byte}");
    }
    for mark in [0x544C, 0x504C, 0x5355, 0x5244, 0x424B, 0x4752, 0x4D44, 0x4D55, 0x4D52, 0] {
        assert_eq!(graded(&with_two(&right, 0, mark)), Err(6), "{mark:X}");
        assert_eq!(graded(&mark.to_be_bytes()), Err(6), "{mark:X}");
    }
    assert_eq!(graded(&[0x4C]), Err(6));
    assert_eq!(graded(&[0x54]), Err(6));
    assert_eq!(graded(&[0x4C, 0x54]), Err(7));
}

#[test]
fn fields_that_are_refused() {
    let right = rising();
    // "20, sample units not one of the four"
    for units in 0..=255 {
        let expected = if [6, 13, 21, 29].contains(&units) { Ok('A') } else { Err(20) };
        assert_eq!(graded(&with(&right, 2, units)), expected, "{units} units");
    }
    // "21, an AQL not listed": each number at each of the twelve places.
    for place in 0..12 {
        for aql in 0..=u16::MAX {
            let listed = [10, 15, 25, 40, 50, 125].contains(&aql);
            let refused = grade_lot(&with_two(&right, 3 + 2 * place, aql)).number;
            assert_eq!(refused == 21, !listed, "{aql} at {place}");
            assert!(refused == 21 || refused == 22 || refused == 0);
        }
    }
    // "22, an AQL falling from A to B or B to C": in each class all listed AQLs at A, B and C.
    for class in 0..4 {
        for a in AQLS {
            for b in AQLS {
                for c in AQLS {
                    let mut lot = right.clone();
                    for (grade, aql) in [a, b, c].into_iter().enumerate() {
                        lot = with_two(&lot, 3 + 8 * grade + 2 * class, aql);
                    }
                    let expected = if b < a || c < b { Err(22) } else { Ok('A') };
                    assert_eq!(graded(&lot), expected, "{a} {b} {c} in class {class}");
                }
            }
        }
    }
    // By hand: A to B alone, with C as A; B to C alone, with C as A; equal ones do not fall.
    // Falling from class to class is nothing.
    assert_eq!(
        answer("6; 4.0 1.0 1.0 1.0 / 2.5 1.0 1.0 1.0 / 4.0 1.0 1.0 1.0; 0 0 0 0; A"),
        Err(22)
    );
    assert_eq!(
        answer("6; 1.0 1.0 1.0 4.0 / 1.0 1.0 1.0 5.0 / 1.0 1.0 1.0 4.0; 0 0 0 0; A"),
        Err(22)
    );
    assert_eq!(answer("6; 1.0 1.0 1.0 1.0; 0 0 0 0; A"), Ok('A'));
    assert_eq!(answer("6; 12.5 5.0 4.0 1.0; 0 0 0 0; A"), Ok('A'));
    // 8, "a count above 2,000": 2,000 is not. Total may be above.
    for place in [27, 29, 31, 33] {
        assert_eq!(graded(&with_two(&right, place, 2_000)), Ok('S'));
        for count in (2_001..=u16::MAX).step_by(7).chain([2_002, 2_048, 32_768, u16::MAX]) {
            assert_eq!(graded(&with_two(&right, place, count)), Err(8), "{count} at {place}");
        }
    }
    assert_eq!(answer("29; 12.5 12.5 12.5 12.5; 2000 2000 2000 2000; A"), Ok('S'));
    assert_eq!(answer("29; 12.5 12.5 12.5 12.5; 2000 2000 2001 2000; A"), Err(8));
    assert_eq!(answer("29; 12.5 12.5 12.5 12.5; 65535 65535 65535 65535; A"), Err(8));
    // 9, "prerequisite above 3".
    for prerequisite in 0..=255 {
        let letter = "ABCS".chars().nth(prerequisite.into());
        assert_eq!(graded(&with(&right, 35, prerequisite)), letter.ok_or(9), "{prerequisite}");
    }
}

/// The lot `rising`, with this ground.
fn damaged(mut lot: Vec<u8>, number: u32) -> Vec<u8> {
    match number {
        6 => lot[1] = 0x53,
        7 => lot.push(0),
        20 => lot[2] = 14,
        // Total at C, the last.
        21 => lot = with_two(&lot, 25, 250),
        // Critical at A, the first.
        22 => lot = with_two(&lot, 3, 50),
        8 => lot = with_two(&lot, 33, 2_001),
        _ => lot[35] = 4,
    }
    lot
}

#[test]
fn order_of_refusals() {
    // "they come in that order after 6 [...] and 7 [...], and before 8 and 9": every set of grounds
    // gives the first.
    let order = [6, 7, 20, 21, 22, 8, 9];
    assert_eq!(NUMBERS, order);
    for set in 0..128 {
        let chosen = |place: &usize| set >> place & 1 == 1;
        let numbers: Vec<u32> = (0..7).filter(chosen).map(|place| order[place]).collect();
        let lot = numbers.iter().fold(rising(), |lot, &number| damaged(lot, number));
        let expected = numbers.first().map_or(Ok('A'), |&number| Err(number));
        assert_eq!(graded(&lot), expected, "{numbers:?}");
        assert_eq!(grounds(&lot), numbers);
    }
    // All twelve AQLs are looked at for 21 before one for 22: a fall in the first class and one not
    // listed at the last place, and the other way round, and both at once.
    assert_eq!(
        answer("6; 5.0 1.0 1.0 1.0 / 1.0 1.0 1.0 1.0 / 1.0 1.0 1.0 2.0; 0 0 0 0; A"),
        Err(21)
    );
    assert_eq!(
        answer("6; 5.0 1.0 1.0 1.0 / 1.0 1.0 1.0 1.0 / 1.0 1.0 1.0 1.0; 0 0 0 0; A"),
        Err(22)
    );
    assert_eq!(
        answer("6; 0.9 1.0 1.0 1.0 / 1.0 1.0 1.0 5.0 / 1.0 1.0 1.0 1.0; 0 0 0 0; A"),
        Err(21)
    );
    assert_eq!(
        answer("6; 2.6 1.0 1.0 1.0 / 2.5 1.0 1.0 1.0 / 2.5 1.0 1.0 1.0; 0 0 0 0; A"),
        Err(21)
    );
    assert_eq!(
        answer("6; 2.5 1.0 1.0 1.0 / 2.4 1.0 1.0 1.0 / 2.5 1.0 1.0 1.0; 0 0 0 0; A"),
        Err(21)
    );
    // Both falls before 8, all counts before 9.
    assert_eq!(
        answer("6; 1.0 1.0 1.0 1.0 / 1.0 1.0 1.0 5.0 / 1.0 1.0 1.0 4.0; 2001 0 0 0; A"),
        Err(22)
    );
    assert_eq!(graded(&with(&with_two(&rising(), 33, 2_001), 35, 255)), Err(8));
    // Under 2 bytes, and bytes of the right mark that are no lot.
    assert_eq!(graded(&[]), Err(6));
    assert_eq!(graded(&[0x4C, 0x54, 14]), Err(7));
    assert_eq!(graded(&[&[0x4C, 0x54][..], &[255; 33]].concat()), Err(7));
    assert_eq!(graded(&[&[0x4C, 0x54][..], &[255; 34]].concat()), Err(20));
    assert_eq!(graded(&[&[0x4C, 0x54, 6][..], &[255; 33]].concat()), Err(21));
}

#[test]
fn grades() {
    // "The defect grade is the best that admits all classes, and Substandard exactly if none does".
    // The numbers of RISING at 6 units are 1 1 4 8 at A, 3 4 4 8 at B, 4 4 8 8 at C.
    let grade = |counts: &str| answer(&format!("6; {RISING}; {counts}; A")).unwrap();
    for (counts, expected) in [
        ("0 0 0 0", 'A'),
        ("1 1 4 2", 'A'),
        ("0 0 0 8", 'A'),
        ("2 1 4 1", 'B'),
        ("3 4 1 0", 'B'),
        ("1 2 4 1", 'B'),
        ("0 4 4 0", 'B'),
        // Critical alone admits B no more, then severe is the same at B and C, then major.
        ("4 4 0 0", 'C'),
        ("4 0 0 4", 'C'),
        ("0 0 5 3", 'C'),
        ("0 0 8 0", 'C'),
        ("0 5 0 0", 'S'),
        ("5 0 0 0", 'S'),
        ("0 0 9 0", 'S'),
        // Total, which is the same at all grades: by minor alone, or by all.
        ("0 0 0 9", 'S'),
        ("1 1 4 3", 'S'),
        ("4 4 1 0", 'S'),
    ] {
        assert_eq!(grade(counts), expected, "{counts}");
    }
    // A class by itself, and the worst of them.
    let by_class = lot(&format!("6; {RISING}; 2 1 5 0; A"));
    assert_eq!(class_grades(&by_class), [1, 0, 2, 0]);
    assert_eq!(graded(&by_class), Ok('C'));
    assert_eq!(class_grades(&lot(&format!("6; {RISING}; 5 1 1 3; A"))), [3, 0, 0, 3]);
    // Each sample units have their own column: 4 critical at AQL 1.0 are for 29 alone.
    for (units, expected) in [(6, 'S'), (13, 'S'), (21, 'S'), (29, 'A')] {
        let script = format!("{units}; 1.0 12.5 12.5 12.5; 4 0 0 0; A");
        assert_eq!(answer(&script), Ok(expected), "{units}");
    }
    // At 6 units 1.0 and 1.5 have the same number, and so have 4.0 and 5.0.
    assert_eq!(answer("6; 1.0 1.0 1.0 12.5 / 1.5 1.0 1.0 12.5; 2 0 0 0; A"), Err(22));
    let same = "1.0 4.0 1.0 12.5 / 1.5 5.0 1.0 12.5 / 1.5 5.0 1.0 12.5";
    assert_eq!(answer(&format!("6; {same}; 1 4 0 0; A")), Ok('A'));
    assert_eq!(answer(&format!("6; {same}; 2 4 0 0; A")), Ok('S'));
    assert_eq!(answer(&format!("6; {same}; 1 5 0 0; A")), Ok('S'));
    assert_eq!(answer(&format!("13; {same}; 3 6 0 0; A")), Ok('B'));
    // "the lot grade is the worse of it and the prerequisite"
    for (counts, defect_grade) in
        [("1 1 4 2", 'A'), ("3 4 1 0", 'B'), ("4 4 0 0", 'C'), ("5 0 0 0", 'S')]
    {
        for prerequisite in ['A', 'B', 'C', 'S'] {
            let script = format!("6; {RISING}; {counts}; {prerequisite}");
            assert_eq!(answer(&script), Ok(defect_grade.max(prerequisite)), "{script}");
        }
    }
}

#[test]
fn every_count_of_a_class() {
    // All AQLs of a class that do not fall, all sample units, counts up to one above the largest
    // number, with a generous total: in two ways, and no fewer defects grade lower.
    for sample_units in SAMPLE_UNITS {
        for (a, b, c) in
            AQLS.iter().flat_map(|&a| AQLS.iter().map(move |&b| (a, b))).flat_map(|(a, b)| {
                AQLS.iter().map(move |&c| (a, b, c)).filter(|&(a, b, c)| a <= b && b <= c)
            })
        {
            for class in 0..4 {
                let mut lot =
                    Lot { sample_units, aqls: [[125; 4]; 3], counts: [0; 4], prerequisite: 0 };
                for (grade, aql) in [a, b, c].into_iter().enumerate() {
                    lot.aqls[grade][class] = aql;
                }
                let mut before = 0;
                for count in 0..=30 {
                    lot.counts[class] = count;
                    let LotAnswer { number, grade, .. } = check_lot(&lot.bytes());
                    assert_eq!(number, 0);
                    assert!(grade >= before);
                    before = grade;
                    let numbers =
                        [a, b, c].map(|aql| acceptance_number(sample_units, aql).unwrap());
                    let refusing = numbers.iter().filter(|&&number| count > number).count();
                    // Total is as large as the class, and 12.5 the best it can have.
                    let above_all = Some(count) > acceptance_number(sample_units, 125);
                    assert_eq!(usize::from(grade), if above_all { 3 } else { refusing });
                }
            }
        }
    }
}

#[test]
fn cells_of_the_table() {
    let cases = table_cases();
    // Four sample units, six AQLs, four classes, four ways, at the number and one above.
    assert_eq!(cases.len(), 4 * 6 * 4 * 4 * 2);
    let mut counts = LotCounts::default();
    for (nth, case) in cases.iter().enumerate() {
        let answer = check_lot(&case.lot);
        assert_eq!(Some(answer), case.expected, "case {nth}");
        assert_eq!(case.made, Made::Table);
        counts.add(case, answer);
    }
    // By hand: 13 units, severe at AQL 2.5 (4), 1.0 (2) before it and 12.5 behind it.
    let script = |count: u16| {
        lot(&format!(
            "13; 12.5 1.0 12.5 12.5 / 12.5 2.5 12.5 12.5 / 12.5 12.5 12.5 12.5; 0 {count} 0 0; A"
        ))
    };
    for (count, letter, grade) in [(4, 'B', 1), (5, 'C', 2)] {
        assert_eq!(graded(&script(count)), Ok(letter));
        let expected = Some(LotAnswer { number: 0, grade, offset: 0 });
        let is_it = |lot: &[u8], known| lot == script(count) && known == expected;
        assert!(cases.iter().any(|case| is_it(&case.lot, case.expected)));
    }
    // Each cell decides, at the number and one above.
    let cells = counts.0 .0.iter().filter(|(name, _)| name.contains(" units, AQL "));
    let cells: Vec<(&String, &usize)> = cells.collect();
    assert_eq!(cells.len(), 48);
    for (name, &times) in cells {
        assert!(times > 0, "{name}");
    }
}

/// The defect grade of a lot by other numbers, counts or comparisons: the best of these grades
/// whose number, by sample units and AQL, admits each count of these classes.
fn best(
    lot: &Lot,
    counts: [u32; 4],
    admits: impl Fn(usize, usize, u32, u32) -> bool,
    number: impl Fn(u8, u16) -> u16,
) -> Grade {
    let admits_all = |grade: usize| {
        (0..4).all(|class| {
            let number = number(lot.sample_units, lot.aqls[grade][class]);
            admits(grade, class, counts[class], number.into())
        })
    };
    (0..3).find(|&grade| admits_all(grade)).unwrap_or(3) as Grade
}

/// The programs that grade wrong, and the grade that each gives an accepted lot.
fn wrong_grades(lot: &Lot) -> Vec<(String, Grade)> {
    let number = |units: u8, aql: u16| acceptance_number(units, aql).unwrap_or(0);
    let within = |_: usize, _: usize, count: u32, number: u32| count <= number;
    let counts = lot.class_counts();
    let [critical, severe, major, minor] = lot.counts.map(u32::from);
    let prerequisite = lot.prerequisite;
    let right = best(lot, counts, within, number);
    let worse = |grade: Grade| grade.max(prerequisite);
    let mut programs: Vec<(String, Grade)> = Vec::new();
    let mut add = |name: &str, grade: Grade| programs.push((name.to_string(), grade));
    // Prerequisite.
    add("leaves out the prerequisite", right);
    add("takes the better of both", right.min(prerequisite));
    add("takes the prerequisite alone", prerequisite);
    // Counts.
    for (name, total) in [
        ("total without critical", severe + major + minor),
        ("total without severe", critical + major + minor),
        ("total without major", critical + severe + minor),
        ("total without minor", critical + severe + major),
        ("total as minor alone", minor),
        ("total cut to a byte", counts[3] % 256),
    ] {
        add(name, worse(best(lot, [critical, severe, major, total], within, number)));
    }
    let low = lot.counts.map(|count| u32::from(count % 256));
    let low_total = low.iter().sum();
    add(
        "low bytes of counts",
        worse(best(lot, [low[0], low[1], low[2], low_total], within, number)),
    );
    let turned = [minor, major, severe, counts[3]];
    add("minor first", worse(best(lot, turned, within, number)));
    add("counts in tenths", worse(best(lot, counts.map(|count| 10 * count), within, number)));
    // Admission.
    add("at the number is not admitted", {
        worse(best(lot, counts, |_, _, count, number| count < number, number))
    });
    add("one above is admitted", {
        worse(best(lot, counts, |_, _, count, number| count <= number + 1, number))
    });
    for class in 0..4 {
        let but =
            |_: usize, other: usize, count: u32, number: u32| other == class || count <= number;
        add(&format!("class {class} not looked at"), worse(best(lot, counts, but, number)));
    }
    for grade in 0..3 {
        let but =
            |other: usize, _: usize, count: u32, number: u32| other != grade && count <= number;
        add(&format!("grade {grade} left out"), worse(best(lot, counts, but, number)));
    }
    let any_class = (0..3).find(|&grade| {
        (0..4).any(|class| counts[class] <= number(lot.sample_units, lot.aqls[grade][class]).into())
    });
    add("one class is enough", worse(any_class.unwrap_or(3) as Grade));
    let worst = (0..3).rev().find(|&grade| {
        (0..4).all(|class| counts[class] <= number(lot.sample_units, lot.aqls[grade][class]).into())
    });
    add("takes the worst that admits", worse(worst.unwrap_or(3) as Grade));
    // AQLs.
    let flat: Vec<u16> = lot.aqls.concat();
    let mut other = *lot;
    other.aqls = [0, 1, 2].map(|grade| [0, 1, 2, 3].map(|class| flat[3 * class + grade]));
    add("AQLs by classes, then grades", worse(best(&other, counts, within, number)));
    other.aqls = lot.aqls.map(|[critical, severe, major, total]| [total, major, severe, critical]);
    add("total first", worse(best(&other, counts, within, number)));
    other.aqls = [lot.aqls[2], lot.aqls[1], lot.aqls[0]];
    add("C first", worse(best(&other, counts, within, number)));
    // The table.
    for units in SAMPLE_UNITS {
        for wrong in SAMPLE_UNITS.into_iter().filter(|&wrong| wrong != units) {
            let column = |given: u8, aql| number(if given == units { wrong } else { given }, aql);
            let name = format!("column {wrong} for {units}");
            add(&name, worse(best(lot, counts, within, column)));
        }
        for cell in AQLS {
            for (name, less) in [("more", 0), ("less", 2)] {
                let changed = |given: u8, aql: u16| {
                    let is_it = given == units && aql == cell;
                    number(given, aql) + u16::from(is_it) - if is_it { less } else { 0 }
                };
                let name = format!("{units} units, AQL {cell}: one {name}");
                add(&name, worse(best(lot, counts, within, changed)));
            }
        }
    }
    programs
}

/// The programs that refuse wrong, and the number that each gives a lot of any bytes. What they
/// grade is not looked at: it is 0 where they find no ground.
fn wrong_numbers(lot: &[u8]) -> Vec<(String, u32)> {
    let all = grounds(lot);
    let right = all.first().copied().unwrap_or(0);
    let without = |left_out: u32| all.iter().copied().find(|&n| n != left_out).unwrap_or(0);
    let mut programs = Vec::new();
    let mut add = |name: String, number: u32| programs.push((name, number));
    for (place, first) in NUMBERS.into_iter().enumerate() {
        add(format!("does not look for {first}"), without(first));
        for &second in &NUMBERS[place + 1..] {
            let other = if right == first && all.contains(&second) { second } else { right };
            add(format!("{second} before {first}"), other);
        }
    }
    add("a short lot is 7".into(), if lot.len() < 2 { 7 } else { right });
    add("a short lot is 6".into(), if lot.len() < LOT_SIZE { 6 } else { right });
    let seven = if lot.len() > LOT_SIZE { without(7) } else { right };
    add("takes a longer lot".into(), seven);
    let in_a_byte = lot.len() % 256 == LOT_SIZE;
    add("length in a byte".into(), if in_a_byte { without(7) } else { right });
    let in_two_bytes = lot.len() % 65_536 == LOT_SIZE;
    add("length in two bytes".into(), if in_two_bytes { without(7) } else { right });
    let mark = lot.get(..2).unwrap_or(&[0, 0]);
    let [first, second] = [mark[0] == 0x4C, mark[1] == 0x54];
    add("first byte of the mark alone".into(), if first { without(6) } else { right });
    add("second byte of the mark alone".into(), if second { without(6) } else { right });
    add("mark exchanged".into(), if mark == [0x54, 0x4C] { without(6) } else { right });
    let Ok(lot) = read(lot) else { return programs };
    let three = lot.sample_units == 3;
    add("takes 3 sample units".into(), if three { without(20) } else { right });
    let (least, most) = (lot.sample_units >= 6, lot.sample_units <= 29);
    add("takes 6 to 29 sample units".into(), if least && most { without(20) } else { right });
    // AQLs.
    let listed = |aql: u16| AQLS.contains(&aql);
    let unlisted: Vec<(usize, u16)> =
        (0..).zip(lot.aqls.concat()).filter(|x| !listed(x.1)).collect();
    for place in 0..12 {
        let only = matches!(unlisted[..], [(at, _)] if at == place);
        add(format!("AQL {place} not looked at"), if only { without(21) } else { right });
    }
    for (name, takes) in [
        ("takes AQLs of document 003", &[65, 85, 100, 150, 200, 250, 330, 400, 500][..]),
        ("takes AQLs in whole percent", &[1, 4, 5]),
        ("takes AQLs in hundredths", &[100, 150, 250, 400, 500, 1_250]),
        ("takes AQL 0", &[0]),
        ("low byte of an AQL", &[266, 271, 281, 296, 306, 381]),
        ("AQLs with the low byte first", &[2_560, 3_840, 6_400, 10_240, 12_800, 32_000]),
    ] {
        let all_taken = unlisted.iter().all(|(_, aql)| takes.contains(aql));
        add(name.into(), if all_taken { without(21) } else { right });
    }
    // Falls, where 22 is the first ground.
    let of_class = |class: usize| lot.aqls.map(|grade| grade[class]);
    type Falls = fn([u16; 3]) -> bool;
    let wrong: [(&str, Falls); 5] = [
        ("falls from A to B alone", |[a, b, _]| b < a),
        ("falls from B to C alone", |[_, b, c]| c < b),
        ("falls from A to C", |[a, _, c]| c < a),
        ("an equal AQL falls", |[a, b, c]| b <= a || c <= b),
        ("falls twice", |[a, b, c]| b < a && c < b),
    ];
    for (name, falls) in wrong {
        let found = (0..4).any(|class| falls(of_class(class)));
        let other = match right {
            22 if !found => without(22),
            0 | 8 | 9 if found => 22,
            _ => right,
        };
        add(name.into(), other);
    }
    for class in 0..4 {
        let others = (0..4).filter(|&other| other != class);
        let rises = others.into_iter().all(|other| of_class(other).is_sorted());
        let other = if right == 22 && rises { without(22) } else { right };
        add(format!("falls of class {class} not looked at"), other);
    }
    // Counts and prerequisite.
    let early = |applies: bool, number: u32| match right {
        0 | 9 if applies => number,
        _ => right,
    };
    add("2,000 is too many".into(), early(lot.counts.contains(&2_000), 8));
    add("total above 2,000 is too many".into(), early(lot.class_counts()[3] > 2_000, 8));
    let too_many: Vec<usize> = (0..4).filter(|&place| lot.counts[place] > 2_000).collect();
    for place in 0..4 {
        let only = right == 8 && too_many == [place];
        add(format!("count {place} not looked at"), if only { without(8) } else { right });
    }
    let one_more = right == 8 && lot.counts.iter().all(|&count| count <= 2_001);
    add("takes 2,001".into(), if one_more { without(8) } else { right });
    let four = right == 9 && lot.prerequisite == 4;
    add("takes prerequisite 4".into(), if four { 0 } else { right });
    let substandard = right == 0 && lot.prerequisite == 3;
    add("refuses prerequisite 3".into(), if substandard { 9 } else { right });
    programs
}

#[test]
fn wrong_programs_are_caught() {
    let mut caught: BTreeMap<String, usize> = BTreeMap::new();
    for seed in 0..6_000 {
        let case = lot_case(seed);
        let LotAnswer { number, grade, .. } = grade_lot(&case.lot);
        for (wrong, other) in wrong_numbers(&case.lot) {
            *caught.entry(wrong).or_default() += usize::from(other != number);
        }
        if let (0, Ok(lot)) = (number, read(&case.lot)) {
            for (wrong, other) in wrong_grades(&lot) {
                *caught.entry(wrong).or_default() += usize::from(other != grade);
            }
        }
    }
    println!("{} wrong programs: {caught:#?}", caught.len());
    for (wrong, times) in caught {
        assert!(times >= 5, "{wrong}: {times}");
    }
    // The cells alone tell every wrong cell.
    let mut caught: BTreeMap<String, usize> = BTreeMap::new();
    for case in table_cases() {
        let grade = grade_lot(&case.lot).grade;
        for (wrong, other) in wrong_grades(&read(&case.lot).unwrap()) {
            *caught.entry(wrong).or_default() += usize::from(other != grade);
        }
    }
    for (wrong, times) in caught.into_iter().filter(|(wrong, _)| wrong.contains(": one ")) {
        assert!(times > 0, "{wrong}");
    }
}

#[test]
fn random_lots() {
    let mut known = 0;
    for seed in 0..20_000 {
        let case = lot_case(seed);
        let answer = grade_lot(&case.lot);
        if let Some(expected) = case.expected {
            assert_eq!(answer, expected, "seed {seed}");
            known += 1;
        }
        assert_eq!(grade_lot_by_class(&case.lot), answer, "seed {seed}");
        if let Made::OneGround(number) = case.made {
            assert_eq!(answer.number, number, "seed {seed}");
        }
        // The same seed makes the same lot.
        if seed % 100 == 0 {
            assert_eq!(lot_case(seed).lot, case.lot);
        }
    }
    println!("{known} answers known from the making");
    assert!(known > 16_000);
}

#[test]
fn counts_of_random_lots() {
    let counts = lot_counts(20_000);
    println!("{counts}");
    counts.check();
}

#[test]
fn random_pairs() {
    let mut other_grades = 0;
    for seed in 0..20_000 {
        let pair = lot_pair(seed);
        let [first, second] = [&pair.first, &pair.second].map(|lot| read(lot).unwrap());
        // "two accepted lots alike except that no count in the first exceeds its fellow in the
        // second"
        assert_eq!(Lot { counts: second.counts, ..first }, second, "seed {seed}");
        assert!((0..4).all(|place| first.counts[place] <= second.counts[place]), "seed {seed}");
        let [first, second] = [&pair.first, &pair.second].map(|lot| check_lot(lot));
        assert_eq!([first.number, second.number], [0, 0], "seed {seed}");
        // "the first never grades lower"; "lower means a larger grade code" (paper 01).
        assert!(first.grade <= second.grade, "seed {seed}");
        other_grades += usize::from(first.grade < second.grade);
    }
    println!("{other_grades} pairs of different grades");
    assert!(other_grades > 5_000);
}
