//! Every refusal from 1 to 12, at several places and offsets, and which of two is returned.

use crate::small::unit;
use crate::Cases;
use grader::generate::counted;
use grader::peach::peach;
use grader::sheet::{Record, Sheet, Unit};

/// Bytes put over a sheet at a place, and the number and offset of the refusal.
type Edit = (usize, &'static [u8], u32, usize);

/// The peach plan and these records, at the offsets 75, 89, 91, 94, 108, 122, 125, 127; 141 bytes.
fn undamaged() -> Sheet {
    let (to_b, to_a) = (Record::Redesignation(1), Record::Redesignation(0));
    peach(vec![unit(1), Record::Break, to_b, unit(2), unit(3), to_a, Record::Break, unit(4)])
}

/// The offset in the plan of the S of a class (0 to 3) at a grade (0 to 2); T and L follow.
const fn place(grade: usize, class: usize) -> usize {
    3 + 24 * grade + 6 * class
}

#[rustfmt::skip]
const EDITS: &[Edit] = &[
    // 1: the first mark is another one.
    (0, &[0x51], 1, 0), (1, &[0x4D], 1, 0), (0, &[0x4C, 0x50], 1, 0), (0, &[0x53, 0x55], 1, 0),
    (0, &[0, 0], 1, 0),
    // 2: the designated grade.
    (2, &[3], 2, 0), (2, &[4], 2, 0), (2, &[255], 2, 0),
    // 3: 10,000 as the first S, T and L; as the last; 65,535 in the middle.
    (3, &[0x27, 0x10], 3, 0), (5, &[0x27, 0x10], 3, 0), (7, &[0x27, 0x10], 3, 0),
    (69, &[0x27, 0x10], 3, 0), (71, &[0x27, 0x10], 3, 0), (73, &[0x27, 0x10], 3, 0),
    (place(1, 2), &[0xFF, 0xFF], 3, 0), (place(0, 3) + 2, &[0xFF, 0xFF], 3, 0),
    // 4: S a tenth above its L, at the first place, in the middle and at the last; and 9,999.
    (place(0, 0), &[0, 6], 4, 0), (place(0, 3), &[0, 41], 4, 0), (place(1, 1), &[0, 31], 4, 0),
    (place(2, 0), &[0, 21], 4, 0), (place(2, 3), &[0, 71], 4, 0), (place(1, 2), &[0x27, 0x0F], 4, 0),
    // 5: T at B a tenth smaller than at A, with T+L not smaller, class by class.
    (place(1, 0) + 2, &[0, 4, 0, 20], 5, 0), (place(1, 1) + 2, &[0, 14, 0, 50], 5, 0),
    (place(1, 2) + 2, &[0, 29, 0, 60], 5, 0), (place(1, 3) + 2, &[0, 59, 0, 120], 5, 0),
    // 5: T+L at B a tenth smaller than at A, with T not smaller.
    (place(1, 0) + 2, &[0, 5, 0, 4], 5, 0), (place(1, 1) + 2, &[0, 15, 0, 19], 5, 0),
    (place(1, 2) + 2, &[0, 49, 0, 10], 5, 0), (place(1, 3) + 2, &[0, 79, 0, 20], 5, 0),
    // 5: T at C a tenth smaller than at B, with T+L not smaller.
    (place(2, 0) + 2, &[0, 9, 0, 30], 5, 0), (place(2, 1) + 2, &[0, 29, 0, 50], 5, 0),
    (place(2, 2) + 2, &[0, 49, 0, 60], 5, 0), (place(2, 3) + 2, &[0, 119, 0, 70], 5, 0),
    // 5: T+L at C a tenth smaller than at B, with T not smaller.
    (place(2, 0), &[0, 0, 0, 10, 0, 9], 5, 0), (place(2, 1), &[0, 0, 0, 50, 0, 9], 5, 0),
    (place(2, 2), &[0, 0, 0, 60, 0, 19], 5, 0), (place(2, 3), &[0, 0, 0, 120, 0, 49], 5, 0),
    // 6: a mark of a plan, of a result, of mixed letters, of none.
    (75, &[0x50, 0x4C], 6, 75), (75, &[0x47, 0x52], 6, 75), (89, &[0x42, 0x4C], 6, 89),
    (91, &[0x53, 0x44], 6, 91), (94, &[0x52, 0x55], 6, 94), (108, &[0x55, 0x53], 6, 108),
    (125, &[0x00, 0x00], 6, 125), (127, &[0x73, 0x75], 6, 127),
    // 8: 2,001, 32,768 and 65,535, in each count and in each unit.
    (79, &[0x07, 0xD1], 8, 75), (81, &[0x80, 0x00], 8, 75), (83, &[0xFF, 0xFF], 8, 75),
    (85, &[0x07, 0xD1], 8, 75), (98, &[0x07, 0xD1], 8, 94), (104, &[0xFF, 0xFF], 8, 94),
    (114, &[0x07, 0xD1], 8, 108), (131, &[0x08, 0x00], 8, 127), (137, &[0x07, 0xD1], 8, 127),
    // 9: prerequisite 4 and 255, recoverable 2 and 255.
    (87, &[4], 9, 75), (88, &[2], 9, 75), (106, &[255], 9, 94), (107, &[255], 9, 94),
    (120, &[4], 9, 108), (139, &[4], 9, 127), (140, &[2], 9, 127),
    // 10: a new grade of 3, 4 and 255.
    (93, &[3], 10, 91), (93, &[255], 10, 91), (124, &[3], 10, 122), (124, &[4], 10, 122),
    // 11: the grade designated just before, at first and later.
    (93, &[0], 11, 91), (124, &[1], 11, 122),
    // The first row met: 1 before 2, 2 before 3, 3 before 4, 3 at the end before 4 at the start, 4
    // before 5, 8 before 9.
    (1, &[0x4D, 3], 1, 0), (2, &[3, 0x27, 0x10], 2, 0), (3, &[0, 6, 0x27, 0x10], 3, 0),
    (3, &[0, 6, 0, 11], 4, 0), (place(1, 0), &[0, 21, 0, 4, 0, 20], 4, 0),
    (79, &[0x07, 0xD1, 0, 0, 0, 0, 0, 0, 9], 8, 75),
    // The first record met: 9 before 6, 8 before 11, 11 before 8.
    (87, &[4, 1, 0, 0], 9, 75),
    (79, &[0x07, 0xD1, 0, 0, 0, 1, 0, 2, 0, 1, 0x42, 0x4B, 0x52, 0x44, 0], 8, 75),
    (93, &[0, 0x53, 0x55, 0, 2, 0x07, 0xD1], 11, 91),
];

/// What is left of the sheet's bytes, and the number and offset.
#[rustfmt::skip]
const CUTS: [(usize, u32, usize); 22] = [
    // 1: shorter than 75 bytes.
    (1, 1, 0), (2, 1, 0), (3, 1, 0), (40, 1, 0), (73, 1, 0),
    // 6: one byte of a unit, a break and a redesignation left.
    (76, 6, 75), (90, 6, 89), (92, 6, 91), (95, 6, 94), (126, 6, 125), (128, 6, 127),
    // 7: units and redesignations cut short, from the mark alone to all but the last byte.
    (77, 7, 75), (78, 7, 75), (82, 7, 75), (88, 7, 75), (93, 7, 91), (96, 7, 94), (107, 7, 94),
    (110, 7, 108), (121, 7, 108), (124, 7, 122), (140, 7, 127),
];

pub fn add(cases: &mut Cases) {
    // The sheet that is damaged below is accepted as it is.
    let base = undamaged().bytes();
    assert_eq!(base.len(), 141);
    assert!(grader::print(&base).lines().count() == 4);
    cases.add("the sheet for the refusals", base.clone());
    for &(at, bytes, number, offset) in EDITS {
        let mut sheet = base.clone();
        sheet[at..at + bytes.len()].copy_from_slice(bytes);
        cases.refused(
            &format!("number {number}, bytes {bytes:02X?} at {at}"),
            sheet,
            number,
            offset,
        );
    }
    for (length, number, offset) in CUTS {
        let name = format!("number {number}, cut to {length} bytes");
        cases.refused(&name, base[..length].to_vec(), number, offset);
    }
    // 3 at the last place before 4 at the first.
    let mut both = base.clone();
    both[3..5].copy_from_slice(&[0, 6]);
    both[73..75].copy_from_slice(&[0x27, 0x10]);
    cases.refused("3 before 4", both, 3, 0);
    // 6: one byte behind the last record, also where it is the first of a mark.
    for byte in [0x53, 0x52, 0x42, 0x50, 0x00, 0x0A] {
        let sheet = [&base[..], &[byte]].concat();
        cases.refused(&format!("number 6, a last byte {byte:02X}"), sheet, 6, 141);
    }
    // 10 and 11 in the first record and behind others; 11 goes by the grade designated just before,
    // also with no unit between, so that going there and back is not refused.
    for (name, grades, refused) in [
        ("10 at once", &[3][..], Some((10, 75))),
        ("11 at once", &[0], Some((11, 75))),
        ("11 at the second", &[1, 1], Some((11, 78))),
        ("11 at the third", &[1, 0, 0], Some((11, 81))),
        ("10 at the third", &[1, 0, 9], Some((10, 81))),
        ("there and back", &[1, 0, 2, 0], None),
    ] {
        let mut sheet = peach(grades.iter().map(|&grade| Record::Redesignation(grade)).collect());
        sheet.records.push(unit(1));
        match refused {
            Some((number, offset)) => cases.refused(name, sheet.bytes(), number, offset),
            None => cases.add(name, sheet.bytes()),
        }
    }
    // 11 goes by the grade designated and not by the plan in force: in step 3 at B a redesignation to
    // B is accepted, and one to A is refused.
    let fails = |code| counted(code, [0, 0, 0, 12]);
    let in_step_3 =
        |new| peach(vec![fails(1), fails(2), unit(3), Record::Redesignation(new), unit(4)]).bytes();
    assert!(grader::print(&in_step_3(1)).contains("\n3 3 B B u B "));
    cases.add("no 11 in step 3", in_step_3(1));
    cases.refused("11 in step 3", in_step_3(0), 11, 117);
    // 12 with other records among the 1,000 units, so that it stands elsewhere; before 8 and 9; 7
    // before 12.
    let mut full = undamaged();
    full.fill(1_000);
    let length = full.bytes().len();
    let with = |records: &[Record]| {
        let more: Vec<u8> = records.iter().flat_map(Record::bytes).collect();
        [full.bytes(), more].concat()
    };
    let many = counted(1, [2_001, 0, 0, 0]);
    let bad = Record::Unit(Unit { code: 1, counts: [0; 4], prerequisite: 9, recoverable: true });
    cases.refused("12 behind a break", with(&[Record::Break, unit(1)]), 12, length + 2);
    let redesignated = with(&[Record::Redesignation(1), many, unit(2)]);
    cases.refused("12 before 8", redesignated, 12, length + 3);
    cases.refused("12 before 9", with(&[bad]), 12, length);
    cases.refused("7 before 12", with(&[unit(1)])[..length + 13].to_vec(), 7, length);
}
