//! Mold sheets (A.2 of paper 02): the manual's examples, every level row by hand, boundaries, every
//! refusal and which of two is returned, the 'largest of' form, and random sheets.

use crate::generate::Counts;
use crate::generate_mold::{mold_case, mold_sheet, MOST_ROOM};
use crate::mold::{self, cusums_twice, grade, grade_traced, largest_of, Unit, RESULT_SIZE};
use crate::sheet::Numbers;
use crate::Answer;

/// Number, units and offset, with a buffer of `room` bytes, of which no other byte changes.
fn answer(sheet: &[u8], room: usize) -> (u32, usize, usize) {
    let mut results = vec![0xA5; room];
    let Answer { number, units, offset } = grade(sheet, &mut results);
    assert!(results[RESULT_SIZE * units..].iter().all(|&byte| byte == 0xA5));
    (number, units, offset)
}

/// Of each unit the letter and the CuSum, as printed, without a space. Graded with the self check.
fn standings(level_row: u8, fields: &[u8]) -> String {
    let printed = mold::print_checked(&mold_sheet(level_row, fields).bytes(), true);
    let short = |line: &str| line.split(' ').skip(2).collect::<String>();
    printed.lines().map(short).collect::<Vec<_>>().join(" ")
}

#[test]
fn example_of_the_manual() {
    // "DEFECT ACTION LEVEL: 12%", S 0, T 3: "TOTAL POS. FIELDS 3 3 2 6 3", CuSums 0, 0, 0, 2, 2,
    // "MEETS MEETS MEETS FAILS MEETS".
    let sheet = mold_sheet(2, &[3, 3, 2, 6, 3]).bytes();
    let lines = "1 1 m 0.0\n2 2 m 0.0\n3 3 m 0.0\n4 4 f 2.0\n5 5 m 2.0\n";
    assert_eq!(mold::print_checked(&sheet, true), lines);
    let mut results = [0xA5; 26];
    assert_eq!(grade(&sheet, &mut results), Answer { number: 0, units: 5, offset: 28 });
    assert_eq!(results[..15], [[0x4D, 0x52, 1, 0, 0]; 3].concat());
    assert_eq!(results[15..25], [0x4D, 0x52, 0, 0, 20, 0x4D, 0x52, 1, 0, 20]);
    assert_eq!(results[25], 0xA5);
    // Appendix 5, level 40, which is no row of A.2: S 1, T 10, L 4, "1+14-10=5" fails, "4+8-10=2"
    // meets.
    let level_40 = Numbers { s: 10, t: 100, l: 40 };
    assert_eq!(largest_of(level_40, &[14, 8]), [(false, 40), (true, 20)]);
}

#[test]
fn every_level_row() {
    // For each row S, T, L in whole fields; then units: T-S+1, which comes to 1; T, which stays
    // there; T+L-1, which comes to L and meets; T+1, which is one field over L; T, which stays at L;
    // none.
    #[rustfmt::skip]
    let rows: [(u8, [i64; 3], [u8; 6], &str); 6] = [
        (0, [0, 1, 1], [2, 1, 1, 2, 1, 0], "m1.0 m1.0 m1.0 f1.0 m1.0 m0.0"),
        (1, [1, 2, 3], [2, 2, 4, 3, 2, 0], "m1.0 m1.0 m3.0 f3.0 m3.0 m1.0"),
        (2, [0, 3, 2], [4, 3, 4, 4, 3, 0], "m1.0 m1.0 m2.0 f2.0 m2.0 m0.0"),
        (3, [1, 3, 3], [3, 3, 5, 4, 3, 0], "m1.0 m1.0 m3.0 f3.0 m3.0 m0.0"),
        (4, [0, 5, 2], [6, 5, 6, 6, 5, 0], "m1.0 m1.0 m2.0 f2.0 m2.0 m0.0"),
        (5, [1, 6, 3], [6, 6, 8, 7, 6, 0], "m1.0 m1.0 m3.0 f3.0 m3.0 m0.0"),
    ];
    for (row, stl, fields, expected) in rows {
        let Numbers { s, t, l } = mold::numbers(row);
        assert_eq!([s, t, l], stl.map(|whole| 10 * whole), "row {row}");
        assert_eq!(standings(row, &fields), expected, "row {row}");
    }
    assert_eq!(mold::LEVELS, [5, 10, 12, 15, 20, 25]);
}

#[test]
fn failures_start_nothing() {
    // Level 25, 1/6/3: each 25 takes the CuSum to L, also the second and third in a row, and the 6
    // stays there: from S it would come to 1.
    assert_eq!(standings(5, &[25, 25, 25, 6, 0]), "f3.0 f3.0 f3.0 m3.0 m0.0");
    // Level 10, 1/2/3: below zero is zero, from which 5 comes to L; and one field more fails.
    assert_eq!(standings(1, &[0, 0, 5]), "m0.0 m0.0 m3.0");
    assert_eq!(standings(1, &[0, 0, 6]), "m0.0 m0.0 f3.0");
    // Qualifying units, as they would be in step 3, recover nothing.
    assert_eq!(standings(2, &[9, 9, 0, 0, 0, 4]), "f2.0 f2.0 m0.0 m0.0 m0.0 m1.0");
}

#[test]
fn boundaries() {
    // 2 and 3 bytes: the mark alone is number 1.
    assert_eq!(answer(&[], 5), (1, 0, 0));
    assert_eq!(answer(&[0x4D], 5), (1, 0, 0));
    assert_eq!(answer(&[0x4D, 0x44], 5), (1, 0, 0));
    assert_eq!(answer(&[0x4D, 0x44, 0], 0), (0, 0, 3));
    assert_eq!(mold::print(&[0x4D, 0x44, 0]), "");
    // Rows 5 and 6.
    assert_eq!(answer(&[0x4D, 0x44, 5], 0), (0, 0, 3));
    assert_eq!(answer(&[0x4D, 0x44, 6], 0), (16, 0, 0));
    assert_eq!(answer(&[0x4D, 0x44, 255], 0), (16, 0, 0));
    // 25 and 26 fields; 4 and 5 result bytes for a unit.
    let one = mold_sheet(0, &[25]).bytes();
    assert_eq!(answer(&one, 5), (0, 1, 8));
    assert_eq!(answer(&one, 6), (0, 1, 8));
    assert_eq!(answer(&one, 4), (13, 0, 8));
    assert_eq!(answer(&one, 0), (13, 0, 8));
    assert_eq!(answer(&mold_sheet(0, &[26]).bytes(), 5), (17, 0, 3));
    assert_eq!(answer(&mold_sheet(0, &[255]).bytes(), 5), (17, 0, 3));
    // 1,000 and 1,001 units.
    let many = mold_sheet(3, &[4; 1_000]).bytes();
    assert_eq!(answer(&many, MOST_ROOM), (0, 1_000, 5_003));
    assert_eq!(answer(&many, MOST_ROOM - 1), (13, 0, 5_003));
    assert_eq!(answer(&mold_sheet(3, &[4; 1_001]).bytes(), 5_005), (12, 0, 5_003));
    // Every code is allowed, adjoining or not; none stands in the result.
    let [mut first, mut second] = [mold_sheet(0, &[1, 1]), mold_sheet(0, &[1, 1])];
    first.units[0].code = 0;
    second.units = vec![Unit { code: 65_535, fields: 1 }; 2];
    let results = [first, second].map(|sheet| {
        let mut results = [0xA5; 10];
        assert_eq!(grade(&sheet.bytes(), &mut results).number, 0);
        results
    });
    assert_eq!(results[0], results[1]);
    assert_eq!(results[0], [0x4D, 0x52, 1, 0, 0, 0x4D, 0x52, 1, 0, 0]);
    assert_eq!(mold::print(&[0x4D, 0x44, 0, 0x4D, 0x55, 255, 254, 2]), "1 65534 m 1.0\n");
    // Printing.
    assert_eq!(mold::print(&[0; 65_537]), "refused 15 65536\n");
    assert_eq!(mold::print(&[0; 65_536]), "refused 1 0\n");
    assert_eq!(mold::print(&one[..7]), "refused 7 3\n");
}

#[test]
fn every_refusal_with_its_offset() {
    let sheet = mold_sheet(1, &[2, 3, 0, 25]).bytes();
    assert_eq!(answer(&sheet, 20), (0, 4, 23));
    // Bytes put at an offset, and the refusal's number and offset.
    #[rustfmt::skip]
    let cases: [(usize, &[u8], u32, usize); 27] = [
        (0, &[0x4C], 1, 0), (1, &[0x55], 1, 0), (0, &[0x50, 0x4C], 1, 0), (0, &[0x44, 0x4D], 1, 0),
        (2, &[6], 16, 0), (2, &[12], 16, 0), (2, &[255], 16, 0),
        (3, &[0x53, 0x55], 6, 3), (3, &[0x4D, 0x44], 6, 3), (3, &[0x4D, 0x52], 6, 3),
        (8, &[0x42, 0x4B], 6, 8), (13, &[0x52, 0x44], 6, 13), (18, &[0x55, 0x4D], 6, 18),
        (18, &[0x6D], 6, 18), (19, &[0x75], 6, 18),
        (7, &[26], 17, 3), (12, &[255], 17, 8), (17, &[128], 17, 13), (22, &[26], 17, 18),
        // The first that applies: 1 before 16, 16 before 6 and 17, 6 before 17 in a record.
        (1, &[0x45, 6], 1, 0), (2, &[6, 0x53], 16, 0), (2, &[9, 0x4D, 0x55, 0, 1, 26], 16, 0),
        (3, &[0x53, 0x55, 0, 1, 26], 6, 3),
        // The first record met: 17 before 6 and 6 before 17; 17 twice.
        (7, &[26, 0], 17, 3), (3, &[0, 0x55, 0, 1, 2, 0x4D, 0x55, 0, 2, 26], 6, 3),
        (12, &[26, 0x4D, 0x55, 0, 3, 26], 17, 8), (7, &[26, 0x4D, 0x55, 0, 2, 27], 17, 3),
    ];
    for (at, bytes, number, offset) in cases {
        let mut damaged = sheet.clone();
        damaged[at..at + bytes.len()].copy_from_slice(bytes);
        for room in [0, 19, 20, 100] {
            assert_eq!(answer(&damaged, room), (number, 0, offset), "{bytes:02X?} at {at}");
        }
    }
    // 6 with one byte left, 7 from the mark alone to all but the last byte.
    for (length, number, offset) in
        [(4, 6, 3), (9, 6, 8), (19, 6, 18), (5, 7, 3), (7, 7, 3), (12, 7, 8), (22, 7, 18)]
    {
        assert_eq!(answer(&sheet[..length], 20), (number, 0, offset), "length {length}");
    }
    // 7 and 17 cannot be in one record, as the fields are its last byte: a unit without that byte is
    // cut short, whatever its code. A 17 stands in a record before the one that is cut short.
    assert_eq!(answer(&[0x4D, 0x44, 1, 0x4D, 0x55, 26, 26], 20), (7, 0, 3));
    let [mut both, mut lost] = [sheet.clone(), sheet.clone()];
    both[7] = 26;
    assert_eq!(answer(&both[..22], 20), (17, 0, 3));
    // With a byte of the code lost, the next mark's 4D is read as 77 fields.
    lost.remove(6);
    assert_eq!(answer(&lost, 20), (17, 0, 3));
    // 7 before 12, 12 before 17, 6 before 12; 17 in the 1,000th before 12.
    let full = mold_sheet(0, &[1; 1_000]).bytes();
    let with = |more: &[u8]| answer(&[&full[..], more].concat(), 0);
    assert_eq!(with(&[0x4D]), (6, 0, 5_003));
    assert_eq!(with(&[0x4D, 0x44, 0, 0, 26]), (6, 0, 5_003));
    assert_eq!(with(&[0x4D, 0x55, 0, 0]), (7, 0, 5_003));
    assert_eq!(with(&[0x4D, 0x55, 0, 0, 26]), (12, 0, 5_003));
    let mut both = [&full[..], &[0x4D, 0x55, 0, 0, 0]].concat();
    both[5_002] = 26;
    assert_eq!(answer(&both, 0), (17, 0, 4_998));
}

#[test]
fn wrong_cusums_are_noticed() {
    // Level 12: 0, 0, 0, 2 (fails), 2, and 1. One CuSum or standing another.
    let sheet = mold_sheet(2, &[3, 3, 2, 6, 3, 2]).bytes();
    let graded = grade_traced(&sheet, &mut [0; MOST_ROOM], true).1.unwrap();
    let noticed = |unit: usize, meets: bool, cusum: i64| {
        let mut changed = graded.clone();
        (changed.rows[unit].meets, changed.rows[unit].cusum) = (meets, cusum);
        std::panic::catch_unwind(|| cusums_twice(&changed)).is_err()
    };
    for (unit, row) in graded.rows.iter().enumerate() {
        assert!(!noticed(unit, row.meets, row.cusum), "unit {}", unit + 1);
        assert!(noticed(unit, row.meets, row.cusum + 1), "unit {}", unit + 1);
        assert!(noticed(unit, row.meets, row.cusum - 1), "unit {}", unit + 1);
        assert!(noticed(unit, !row.meets, row.cusum), "unit {}", unit + 1);
    }
    // The raw value of unit 4, and what would come of carrying it on.
    assert!(noticed(3, false, 30) && noticed(4, true, 30));
}

#[test]
fn random_mold_sheets() {
    let mut counts = Counts::default();
    for seed in 0..20_000 {
        let case = mold_case(seed);
        let mut results = vec![0xA5; case.room];
        let (answer, graded) = grade_traced(&case.sheet, &mut results, true);
        if let Some(expected) = case.expected {
            assert_eq!((answer.number, answer.offset), expected, "seed {seed}");
        }
        let behind = &results[RESULT_SIZE * answer.units..];
        assert!(behind.iter().all(|&byte| byte == 0xA5), "seed {seed}");
        counts.note_mold(&case.sheet, answer, graded.as_ref());
        counts.note_mold_room(&case.sheet, case.room, answer);
    }
    println!("{counts}");
    assert_eq!(counts.missing().next(), None);
}
