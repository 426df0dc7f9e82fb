//! Prints `crates/lots_demands/specs/ComputedLots.antt`: warehouse lots in bytes (A.8 of paper 02), with
//! the numbers and grades that the independent grader gives for them, to be proved of the definitions
//! by computation. What stands with each by hand, from the papers, holds the grader to what the lot is
//! to show: its grade, or every ground on which it is refused.

// What is particular to the grading of sheets is not used.
#[allow(dead_code)]
#[path = "../antt.rs"]
mod antt;

use antt::{definition, field_of_definition, shows};
use grader::lot::{acceptance_number, check_lot, grade_lot, grounds};
use grader::lot::{Lot, LotAnswer, AQLS, LOT_SIZE, MARK, MOST_DEFECTS, SAMPLE_UNITS};

/// Where the fields of a lot begin: mark with sample units, the AQLs of A, B and C, the counts, the
/// prerequisite; and where it ends.
const FIELDS: [usize; 7] = [0, 3, 11, 19, 27, 35, LOT_SIZE];
const LETTERS: [&str; 4] = ["A", "B", "C", "S"];
const CLASSES: [&str; 4] = ["critical", "severe", "major", "total"];
const KINDS: [&str; 4] = ["critical", "severe", "major", "minor"];
/// Classes, and kinds of counts, by their places.
const CRITICAL: usize = 0;
const SEVERE: usize = 1;
const MAJOR: usize = 2;
const TOTAL: usize = 3;
const MINOR: usize = 3;
/// Grades.
const A: usize = 0;
const B: usize = 1;
const C: usize = 2;
const S: usize = 3;

/// What is known by hand.
enum Expected {
    Graded(usize),
    /// All grounds of refusal, the one that is returned first.
    Refused(&'static [u32]),
}

struct Case {
    name: String,
    /// The comment at the lot.
    shows: String,
    lot: Vec<u8>,
    expected: Expected,
}

fn graded(grade: usize, name: &str, shows: &str, lot: Lot) -> Case {
    let (name, shows) = (name.to_string(), shows.to_string());
    Case { name, shows, lot: lot.bytes(), expected: Expected::Graded(grade) }
}

fn refused(grounds: &'static [u32], name: &str, shows: &str, lot: Vec<u8>) -> Case {
    let shows = format!("{}: {shows}", grounds[0]);
    Case { name: name.to_string(), shows, lot, expected: Expected::Refused(grounds) }
}

// ---- lots

/// No defect, prerequisite A, at 13 sample units. Every AQL rises from A to B and from B to C, and so
/// does its acceptance number: critical 2, 3, 4; severe 3, 4, 6; major 4, 6, 7; total 6, 7, 15.
const LOT: Lot = Lot {
    sample_units: 13,
    aqls: [[10, 15, 25, 40], [15, 25, 40, 50], [25, 40, 50, 125]],
    counts: [0; 4],
    prerequisite: 0,
};

/// With these counts.
fn counted(counts: [u16; 4]) -> Lot {
    Lot { counts, ..LOT }
}

/// With so many of one kind.
fn of_kind(kind: usize, count: u16) -> Lot {
    let mut lot = LOT;
    lot.counts[kind] = count;
    lot
}

/// With these AQLs of a class at A, B and C.
fn with_class(mut lot: Lot, class: usize, aqls: [u16; 3]) -> Lot {
    for (grade, aql) in aqls.into_iter().enumerate() {
        lot.aqls[grade][class] = aql;
    }
    lot
}

/// With this AQL at one grade of a class.
fn with_aql(mut lot: Lot, grade: usize, class: usize, aql: u16) -> Lot {
    lot.aqls[grade][class] = aql;
    lot
}

/// With these bytes from the first on.
fn opened(lot: Lot, bytes: &[u8]) -> Vec<u8> {
    let mut lot = lot.bytes();
    lot[..bytes.len()].copy_from_slice(bytes);
    lot
}

/// The first bytes.
fn cut(lot: Lot, length: usize) -> Vec<u8> {
    lot.bytes()[..length].to_vec()
}

/// An AQL in tenths, as it is written.
fn decimal(aql: u16) -> String {
    format!("{}.{}", aql / 10, aql % 10)
}

fn cases() -> Vec<Case> {
    [
        examples(),
        table(),
        defect_grades(),
        prerequisites(),
        accepted(),
        wrong_openings(),
        wrong_sample_units(),
        unlisted(),
        falling(),
        wrong_counts_and_prerequisites(),
        order(),
    ]
    .into_iter()
    .flatten()
    .collect()
}

/// The examples of document 003 that show AQLs, and a tally of defects.
fn examples() -> Vec<Case> {
    vec![
        refused(
            &[21],
            "example 17",
            "document 003, example 17, whose AQLs 6.5, 10.0, 20.0 and 25.0 are not listed. The rest is filled in.",
            Lot {
                sample_units: 6,
                aqls: [[10, 15, 40, 125], [15, 40, 65, 200], [25, 65, 100, 250]],
                counts: [0; 4],
                prerequisite: 0,
            }
            .bytes(),
        ),
        graded(
            A,
            "example 19",
            "Document 003, example 19: grade A. It lists the AQLs of A alone; those of B and C are filled in, the same.",
            Lot {
                sample_units: 6,
                aqls: [[10, 15, 40, 125]; 3],
                counts: [1, 1, 3, 2],
                prerequisite: 0,
            },
        ),
    ]
}

// ---- the acceptance numbers

/// Where the AQL of a cell stands in its class, with which neighbours.
#[derive(Clone, Copy)]
enum Way {
    /// At A, B and C: above the number the lot is Substandard.
    Throughout,
    /// At A, before the next AQL with a larger number: above it the lot is B.
    AtA,
    /// At B, between both neighbours: at the number the lot is B, above it C.
    AtB,
    /// At C, behind the AQL before it with a smaller number: at the number C, above it Substandard.
    AtC,
}

/// The ways of the cells: a row for each AQL, a column for each number of sample units. There is no
/// smaller number than that of AQL 1.0, nor than that of 1.5 at 6 units, and no larger one than that
/// of 12.5.
#[rustfmt::skip]
const WAYS: [[Way; 4]; 6] = {
    use Way::{AtA, AtB, AtC, Throughout};
    [
        [AtA, Throughout, AtA, AtA],
        [AtA, AtB, AtC, AtB],
        [AtB, AtC, AtC, AtC],
        [AtC, AtA, AtB, Throughout],
        [AtB, AtC, AtC, AtB],
        [Throughout, AtB, AtC, Throughout],
    ]
};

/// The AQL before or behind this one, as listed so, that has another number.
fn neighbour(units: u8, aql: u16, mut listed: impl Iterator<Item = u16>) -> u16 {
    let number = |aql: u16| acceptance_number(units, aql).expect("listed");
    let mut behind = listed.by_ref().skip_while(|&other| other != aql);
    behind.find(|&other| number(other) != number(aql)).expect("a neighbour")
}

/// The AQLs at A, B and C around a cell, and the grades at its number and one above.
fn around(way: Way, units: u8, aql: u16) -> ([u16; 3], [usize; 2]) {
    let smaller = || neighbour(units, aql, AQLS.into_iter().rev());
    let larger = || neighbour(units, aql, AQLS.into_iter());
    match way {
        Way::Throughout => ([aql; 3], [A, S]),
        Way::AtA => ([aql, larger(), larger()], [A, B]),
        Way::AtB if aql == AQLS[5] => ([smaller(), aql, aql], [B, S]),
        Way::AtB => ([smaller(), aql, larger()], [B, C]),
        Way::AtC => ([AQLS[0], smaller(), aql], [C, S]),
    }
}

/// So many defects in a class: of total by minor alone, or by all four kinds, as equal as can be.
fn counts_of(class: usize, count: u16, by_all: bool) -> [u16; 4] {
    let mut counts = [0; 4];
    if by_all {
        let each = count / 4;
        counts = [each, each, each, count - 3 * each];
    } else {
        counts[class] = count;
    }
    counts
}

/// For each acceptance number a lot with a class at it and one with the class one above it; in the
/// other classes every AQL is 12.5, so that they are admitted. The classes change from cell to cell.
/// That of AQL 12.5 is total, as no class could be above its number alone.
fn table() -> Vec<Case> {
    let mut cases = Vec::new();
    for (column, units) in SAMPLE_UNITS.into_iter().enumerate() {
        for (row, aql) in AQLS.into_iter().enumerate() {
            let class = if row == 5 { TOTAL } else { (column + row) % 4 };
            let by_all = class == TOTAL && column % 2 == 1;
            let number = acceptance_number(units, aql).expect("listed");
            let (aqls, grades) = around(WAYS[row][column], units, aql);
            let places = [("at", number), ("above", number + 1)];
            for ((place, count), grade) in places.into_iter().zip(grades) {
                let name = format!("{place} the number at {units} units AQL {aql}");
                let (letter, aql) = (LETTERS[grade], decimal(aql));
                let counted = match (class, by_all) {
                    (TOTAL, false) => format!("a total of {count} by minor alone"),
                    (TOTAL, true) => format!("a total of {count} by all four kinds"),
                    _ => format!("{count} {}", CLASSES[class]),
                };
                let shows =
                    format!("AQL {aql} at {units} units, number {number}; {counted}: {letter}.");
                let plain = Lot { sample_units: units, aqls: [[AQLS[5]; 4]; 3], ..LOT };
                let counts = counts_of(class, count, by_all);
                let lot = Lot { counts, ..with_class(plain, class, aqls) };
                cases.push(graded(grade, &name, &shows, lot));
            }
        }
    }
    cases
}

// ---- grades

/// "The defect grade is the best that admits all classes, and Substandard exactly if none does"
fn defect_grades() -> Vec<Case> {
    let mut cases = vec![
        graded(
            A,
            "no defect",
            "No defect, prerequisite A; each AQL rises from A to B and from B to C.",
            LOT,
        ),
        graded(A, "some of each kind", "Every class is admitted at A.", counted([1, 1, 1, 1])),
    ];
    // The counts that B, C and no grade admits.
    for (class, counts) in
        [(CRITICAL, [3, 4, 5]), (SEVERE, [4, 5, 7]), (MAJOR, [5, 7, 8]), (TOTAL, [7, 8, 16])]
    {
        for (grade, count) in (B..).zip(counts) {
            let (letter, class_name) = (LETTERS[grade], CLASSES[class]);
            let admitted = match grade {
                B => "not at A, and at B",
                C => "not at A nor at B, and at C",
                _ => "at no grade",
            };
            let name = format!("grade {letter} by {class_name}");
            let shows = format!("The count of {class_name} is admitted {admitted}.");
            cases.push(graded(grade, &name, &shows, of_kind(class, count)));
        }
    }
    // AQL 12.5 for total at every grade: the other classes decide.
    let apart = |counts: [u16; 4]| with_class(counted(counts), TOTAL, [125; 3]);
    cases.extend([
        graded(
            C,
            "critical B and severe C",
            "B admits critical and C severe: the first grade that admits both is C.",
            apart([3, 5, 0, 0]),
        ),
        graded(
            C,
            "critical C and severe B",
            "C admits critical and B severe.",
            apart([4, 4, 0, 0]),
        ),
        graded(
            S,
            "critical B and major S",
            "B admits critical, and no grade major.",
            apart([3, 0, 8, 0]),
        ),
        graded(
            A,
            "minor alone",
            "15 minor are above every number of critical, severe and major; minor is no class.",
            apart([0, 0, 0, 15]),
        ),
        graded(
            S,
            "total of all kinds",
            "16 in total, where no kind is above 15 and every class but total is admitted at A.",
            apart([2, 3, 4, 7]),
        ),
    ]);
    cases
}

/// "the lot grade is the worse of it and the prerequisite"
fn prerequisites() -> Vec<Case> {
    let lot = |critical: u16, prerequisite: u8| Lot { prerequisite, ..of_kind(CRITICAL, critical) };
    vec![
        graded(B, "prerequisite B", "No defect, prerequisite B.", lot(0, 1)),
        graded(C, "prerequisite C", "No defect, prerequisite C.", lot(0, 2)),
        graded(S, "prerequisite S", "No defect, prerequisite 3: accepted, as S.", lot(0, 3)),
        graded(B, "both B", "Defect grade and prerequisite are B.", lot(3, 1)),
        graded(C, "prerequisite better", "Defect grade C, prerequisite B.", lot(4, 1)),
        graded(C, "prerequisite worse", "Defect grade B, prerequisite C.", lot(3, 2)),
        graded(S, "prerequisite C and defects S", "Defect grade S, prerequisite C.", lot(5, 2)),
        graded(S, "prerequisite S and defects C", "Defect grade C, prerequisite S.", lot(4, 3)),
    ]
}

/// The largest counts, and AQLs that do not rise.
fn accepted() -> Vec<Case> {
    let mut cases = Vec::new();
    for (kind, word) in KINDS.into_iter().enumerate() {
        let name = format!("the most {word}");
        let shows = format!("2,000 {word} are no ground of refusal: S.");
        cases.push(graded(S, &name, &shows, of_kind(kind, MOST_DEFECTS)));
    }
    let shows = "8,000 in total are no ground of refusal: S.";
    cases.push(graded(S, "the most of each kind", shows, counted([MOST_DEFECTS; 4])));
    for kind in [CRITICAL, MINOR] {
        let name = format!("{} 256", KINDS[kind]);
        let shows = format!("256 {}, of which the low byte is 0: S.", KINDS[kind]);
        cases.push(graded(S, &name, &shows, of_kind(kind, 256)));
    }
    let equal = |counts: [u16; 4]| Lot { aqls: [[25, 25, 25, 125]; 3], ..counted(counts) };
    cases.extend([
        graded(
            A,
            "equal AQLs",
            "AQLs that are the same at A, B and C do not fall.",
            equal([4, 4, 4, 3]),
        ),
        graded(
            S,
            "equal AQLs above the number",
            "The same AQLs at A, B and C: admitted at A or not at all.",
            equal([0, 0, 5, 0]),
        ),
        graded(
            B,
            "rising AQLs at B alone",
            "Each AQL rises from A to B, and is the same at B and C.",
            Lot { aqls: [LOT.aqls[0], LOT.aqls[1], LOT.aqls[1]], ..of_kind(SEVERE, 4) },
        ),
        graded(
            C,
            "rising AQLs at C alone",
            "Each AQL is the same at A and B, and rises from B to C.",
            Lot { aqls: [LOT.aqls[0], LOT.aqls[0], LOT.aqls[1]], ..of_kind(SEVERE, 4) },
        ),
    ]);
    cases
}

// ---- refusals

/// "6 (under 2 bytes or a wrong mark) and 7 (length not 36)"
fn wrong_openings() -> Vec<Case> {
    let with_byte = [&LOT.bytes(), &MARK[..1]].concat();
    let twice = LOT.bytes().repeat(2);
    vec![
        refused(&[6, 7], "no byte", "no byte.", Vec::new()),
        refused(&[6, 7], "one byte", "the first byte of the mark.", cut(LOT, 1)),
        refused(&[6], "mark 4C 55", "another second byte of the mark.", opened(LOT, &[0x4C, 0x55])),
        refused(&[6], "mark 4D 54", "another first byte of the mark.", opened(LOT, &[0x4D, 0x54])),
        refused(&[6], "mark 54 4C", "the bytes of the mark exchanged.", opened(LOT, &[0x54, 0x4C])),
        refused(&[7], "the mark alone", "2 bytes.", cut(LOT, MARK.len())),
        refused(
            &[7],
            "one byte less",
            "35 bytes, without the prerequisite.",
            cut(LOT, LOT_SIZE - 1),
        ),
        refused(&[7], "one byte more", "37 bytes, a lot and the first byte of another.", with_byte),
        refused(&[7], "two lots", "72 bytes, two lots one behind the other.", twice),
    ]
}

/// "20, sample units not one of the four"
fn wrong_sample_units() -> Vec<Case> {
    let case = |units: u8| {
        let lot = Lot { sample_units: units, ..LOT };
        let (name, shows) = (format!("sample units {units}"), format!("{units} sample units."));
        refused(&[20], &name, &shows, lot.bytes())
    };
    [0, 3, 5, 7, 14, 30].into_iter().map(case).collect()
}

/// "21, an AQL not listed": one in each place; none of them makes an AQL fall.
fn unlisted() -> Vec<Case> {
    [
        (A, CRITICAL, 9, "one less than a listed one, at the first place"),
        (A, SEVERE, 0, "the least"),
        (A, MAJOR, 24, "one less than a listed one"),
        (A, TOTAL, 39, "one less than a listed one"),
        (B, CRITICAL, 11, "one more than a listed one"),
        (B, SEVERE, 26, "one more than a listed one"),
        (B, MAJOR, 41, "one more than a listed one"),
        (B, TOTAL, 100, "10.0, and not the 1.0 that is listed"),
        (C, CRITICAL, 0x0A00, "10 with its bytes exchanged"),
        (C, SEVERE, 0x0128, "40 with another high byte"),
        (C, MAJOR, 65, "an AQL of document 003 that is not in the table"),
        (C, TOTAL, u16::MAX, "the greatest, at the last place"),
    ]
    .into_iter()
    .map(|(grade, class, aql, shows)| {
        let name = format!("unlisted {} {}", LETTERS[grade], CLASSES[class]);
        let shows = format!("{aql} tenths, {shows}.");
        refused(&[21], &name, &shows, with_aql(LOT, grade, class, aql).bytes())
    })
    .collect()
}

/// "22, an AQL falling from A to B or B to C": in one class each, while from A to C it does not fall.
fn falling() -> Vec<Case> {
    [
        (CRITICAL, "A to B", [25, 15, 25], "critical falls from A to B; at C it is as at A"),
        (SEVERE, "A to B", [25, 15, 40], "severe falls from A to B; at C it is above A"),
        (MAJOR, "A to B", [50, 40, 50], "major falls from A to B; at C it is as at A"),
        (TOTAL, "A to B", [50, 40, 125], "total falls from A to B; at C it is above A"),
        (CRITICAL, "B to C", [10, 25, 15], "critical falls from B to C, and not below A"),
        (SEVERE, "B to C", [15, 40, 15], "severe falls from B to C, to what it is at A"),
        (MAJOR, "B to C", [25, 50, 40], "major falls from B to C, and not below A"),
        (TOTAL, "B to C", [50, 125, 50], "total falls from B to C, to what it is at A"),
    ]
    .into_iter()
    .map(|(class, fall, aqls, shows)| {
        let name = format!("{} falls from {fall}", CLASSES[class]);
        refused(&[22], &name, &format!("{shows}."), with_class(LOT, class, aqls).bytes())
    })
    .collect()
}

/// 8, "a count above 2,000", and 9, "prerequisite above 3" (paper 01)
fn wrong_counts_and_prerequisites() -> Vec<Case> {
    let mut cases = Vec::new();
    for (kind, word) in KINDS.into_iter().enumerate() {
        let (name, shows) = (format!("too many {word}"), format!("2,001 {word}."));
        cases.push(refused(&[8], &name, &shows, of_kind(kind, MOST_DEFECTS + 1).bytes()));
    }
    let lot = of_kind(MAJOR, u16::MAX);
    cases.push(refused(&[8], "the greatest count", "65,535 major.", lot.bytes()));
    for prerequisite in [4, 255] {
        let (name, shows) =
            (format!("prerequisite {prerequisite}"), format!("prerequisite {prerequisite}."));
        let lot = Lot { prerequisite, ..LOT };
        cases.push(refused(&[9], &name, &shows, lot.bytes()));
    }
    cases
}

/// Lots with several grounds: "they come in that order after 6 (under 2 bytes or a wrong mark) and 7
/// (length not 36), and before 8 and 9 (prerequisite)".
fn order() -> Vec<Case> {
    let wrong_units = Lot { sample_units: 7, ..LOT };
    let falls = with_class(LOT, CRITICAL, [25, 15, 25]);
    let too_many = of_kind(MINOR, MOST_DEFECTS + 1);
    let unlisted_last = |lot: Lot| with_aql(lot, C, TOTAL, 126);
    let all =
        Lot { sample_units: 7, counts: too_many.counts, prerequisite: 4, ..unlisted_last(falls) };
    let wrong_mark = opened(LOT, &[0x4C, 0x55]);
    vec![
        refused(
            &[6, 7],
            "mark before length",
            "a wrong mark and 35 bytes.",
            wrong_mark[..LOT_SIZE - 1].to_vec(),
        ),
        refused(
            &[7, 20],
            "length before sample units",
            "35 bytes and 7 sample units.",
            cut(wrong_units, LOT_SIZE - 1),
        ),
        refused(
            &[20, 21],
            "sample units before unlisted AQL",
            "7 sample units and an AQL of 12.6.",
            unlisted_last(wrong_units).bytes(),
        ),
        refused(
            &[21, 22],
            "unlisted AQL before a fall",
            "the first class falls from A to B, and the AQL at the last place is 12.6.",
            unlisted_last(falls).bytes(),
        ),
        refused(
            &[21, 22],
            "unlisted AQL that falls",
            "an AQL of 12.6 falls from A to B.",
            with_aql(LOT, A, TOTAL, 126).bytes(),
        ),
        refused(
            &[22, 8],
            "a fall before a count",
            "the first class falls from A to B, and 2,001 minor.",
            Lot { counts: too_many.counts, ..falls }.bytes(),
        ),
        refused(
            &[8, 9],
            "a count before the prerequisite",
            "2,001 minor and prerequisite 4.",
            Lot { prerequisite: 4, ..too_many }.bytes(),
        ),
        refused(
            &[20, 21, 22, 8, 9],
            "all grounds of the fields",
            "7 sample units, an AQL of 12.6, a fall, 2,001 minor and prerequisite 4.",
            all.bytes(),
        ),
        refused(
            &[6, 7, 20, 21, 22, 8, 9],
            "all grounds",
            "the same with a wrong mark and a byte behind it.",
            [&opened(all, &[0x4C, 0x55]), &MARK[..1]].concat(),
        ),
    ]
}

// ---- the file

/// Sees that the grader does as is known by hand, in both of its readings. Answers what it does.
fn answered(case: &Case) -> LotAnswer {
    let (lot, name) = (&case.lot[..], &case.name);
    check_lot(lot);
    let answer = grade_lot(lot);
    let (by_hand, all_grounds): (_, &[u32]) = match case.expected {
        Expected::Graded(grade) => (LotAnswer::accepted(grade as u8), &[]),
        Expected::Refused(grounds) => (LotAnswer::refused(grounds[0]), grounds),
    };
    assert_eq!(answer, by_hand, "{name}");
    assert_eq!(grounds(lot), all_grounds, "{name}");
    answer
}

/// What to say of a field, by its place and its bytes; nothing if it is not whole.
fn comment(place: usize, bytes: &[u8]) -> String {
    if bytes.len() != FIELDS[place + 1] - FIELDS[place] {
        return String::new();
    }
    let numbers = || bytes.chunks(2).map(|two| u16::from_be_bytes([two[0], two[1]]));
    let said = match place {
        0 => format!("{} sample units", bytes[2]),
        1..=3 => {
            let aqls: Vec<_> = numbers().map(decimal).collect();
            format!("{}: {}", LETTERS[place - 1], aqls.join(" "))
        }
        4 => {
            let counts = KINDS.iter().zip(numbers());
            counts.map(|(kind, count)| format!("{kind} {count}")).collect::<Vec<_>>().join(", ")
        }
        _ => match LETTERS.get(usize::from(bytes[0])) {
            Some(letter) => format!("prerequisite {letter}"),
            None => "prerequisite".to_string(),
        },
    };
    format!("  -- {said}")
}

/// The list of a lot's bytes, behind "=": a line for each field, the mark in hexadecimal. What stands
/// behind the last field is written as another lot.
fn list(lot: &[u8]) -> String {
    let mut lines = Vec::new();
    for lot in lot.chunks(LOT_SIZE) {
        for (place, ends) in FIELDS.windows(2).enumerate() {
            let bytes = &lot[ends[0].min(lot.len())..ends[1].min(lot.len())];
            let element = |(at, byte): (usize, &u8)| match (place, at) {
                (0, 0 | 1) => format!("0x{byte:02X}"),
                _ => byte.to_string(),
            };
            let elements: Vec<_> = bytes.iter().enumerate().map(element).collect();
            if !elements.is_empty() {
                lines.push(format!("{}{}", elements.join(" ∷ "), comment(place, bytes)));
            }
        }
    }
    let gap = if lines.is_empty() { " " } else { "\n    " };
    lines.push("[]".to_string());
    format!("{gap}{}", lines.join("\n    ∷ "))
}

/// The bytes of a lot; and the field that says what it comes to.
fn lines(case: &Case) -> (String, String) {
    let LotAnswer { number, grade, .. } = answered(case);
    let name = definition(&case.name);
    let text = format!(
        "\n{}unfoldable pub {name} : List ℕ\n{name} ={}\n",
        shows(&case.shows),
        list(&case.lot)
    );
    let said = match number {
        0 => format!("GradedLot {name} {grade}"),
        _ => format!("RefusedLot {name} {number}"),
    };
    (text, format!("  pub {} : {said}\n", field_of_definition(&case.name)))
}

const HEAD: &str = "\
-- Lots in bytes, as one group: the record at the end. Each is held to the number and the grade that the independent grader gives for it
-- (tests/grader, written from the papers alone), so that a rule which is wrong on one of them alike in a definition and in the code that
-- meets it is refused here. This file is printed by tests/cases/src/bin/computed_lots.rs.
use Rattle.std.specs.Prelude.{ℕ, List, [], ◌∷◌}
use Rattle.lots_demands.specs.HeldLots.{GradedLot, RefusedLot}

-- AQLs of critical, severe, major and total stand behind the bytes of each grade; in the names of lots they are in tenths.
";

const FOOT: &str = "
-- all of them: of an accepted lot the grade, of a refused one the number
pub record ComputedLots : Type 0 where
";

fn main() {
    let (text, fields): (Vec<_>, Vec<_>) = cases().iter().map(lines).unzip();
    print!("{}", [HEAD, &text.concat(), FOOT, &fields.concat()].concat());
}
