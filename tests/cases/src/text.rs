//! A tally sheet as text, laid out as in the manual, and what is printed there of its grading.
//!
//! ```text
//! designated   A
//! plan major   1/3/3  1/6/4  1/9/4     S/T/L at A, B, C; "=" for one filled in as the one before it
//! major        8  3  2  1  12          the counts of a class, unit by unit
//! cusum        3  3  2  0  3           the CuSums of the class above
//! force        A  A  A  A  A           the row in which they stand: the grade of the plan in force
//! standing     f  m  m  m  f
//! grade        B  A  A  A  C           the portion grades
//! production   B  A  A  A  C           the code grades
//! ```
//!
//! The last five rows are checked against the grader; "-" where the manual has nothing that can be
//! read. A class without a plan is so wide (0/999.9/0) that it neither fails nor hinders. Rows that
//! say how a sheet goes on, with what is taken if they are missing: `code` (1, 2, ...),
//! `prerequisite` (A), `recoverable` (0), `minor` (what total needs, else 0), and `before`, which
//! lists what stands before each unit: "." nothing, a letter a redesignation, "|" a break.
//!
//! A regrading has the second plan as well, in rows `buyer`, and the last five rows are those of the
//! regrading:
//!
//! ```text
//! buyer        B                       its designated grade
//! buyer major  1/2/2  1/4/3  2/6/6     as in a row of `plan`
//! ```

use grader::sheet::{Grade, Numbers, Record, Sheet, Table, Unit};

/// The classes as rows; minor is a count and no class.
const CLASSES: [&str; 4] = ["critical", "severe", "major", "total"];
/// The rows that are compared and their fields in a printed line; "cusum" has four.
const COMPARED: [(&str, usize); 4] =
    [("grade", 2), ("production", 3), ("standing", 4), ("force", 5)];
const FIRST_CUSUM: usize = 6;
/// The other rows.
const OTHERS: [&str; 5] = ["minor", "code", "prerequisite", "recoverable", "before"];

/// Makes the sheet and the second plan (no byte where there is none) and panics if they are not
/// printed as the text has it.
pub fn sheet(
    name: &str,
    text: &str,
    print: impl FnOnce(&[u8], &[u8]) -> String,
) -> (Vec<u8>, Vec<u8>) {
    let (sheet, second, wanted) = read(text);
    let (bytes, second) = (sheet.bytes(), second.map_or(Vec::new(), |second| second.bytes()));
    let printed = print(&bytes, &second);
    let lines: Vec<Vec<&str>> = printed.lines().map(|line| line.split(' ').collect()).collect();
    assert_eq!(lines.len(), sheet.units(), "{name}: {printed}");
    for (unit, field, value) in wanted {
        let place = format!("{name}: field {} of unit {}", field + 1, unit + 1);
        assert_eq!(lines[unit][field], value, "{place}, the grader on the left");
    }
    (bytes, second)
}

/// S/T/L of a class at A, B and C into a table, from the cells behind a row's name.
fn read_numbers(table: &mut Table, cells: &[&str]) {
    assert_eq!(cells.len(), 4, "{cells:?}");
    let class = CLASSES.iter().position(|&name| name == cells[0]).expect("a class");
    let mut numbers = table[0][class];
    for (grade, cell) in cells[1..].iter().enumerate() {
        if *cell != "=" {
            let [s, t, l] = [0, 1, 2].map(|part| tenths(cell.split('/').nth(part).unwrap()));
            numbers = Numbers { s, t, l };
        }
        table[grade][class] = numbers;
    }
}

/// The sheet, the second plan as a sheet without records, and the values that are expected: unit (from
/// 0), field, text.
fn read(text: &str) -> (Sheet, Option<Sheet>, Vec<(usize, usize, String)>) {
    let wide = [[Numbers { s: 0, t: 9_999, l: 0 }; 4]; 3];
    let mut sheet = Sheet { designated: 0, table: wide, records: vec![] };
    let mut second = None;
    let mut rows = std::collections::BTreeMap::new();
    let (mut wanted, mut lengths) = (Vec::new(), Vec::new());
    let mut class = None;
    for line in text.lines() {
        let words: Vec<&str> = line.split_whitespace().collect();
        let Some((&row, cells)) = words.split_first() else { continue };
        let mut want = |field: usize, text: &dyn Fn(&str) -> String| {
            lengths.push((line, cells.len()));
            let cells = cells.iter().enumerate().filter(|(_, &cell)| cell != "-");
            wanted.extend(cells.map(|(unit, cell)| (unit, field, text(cell))));
        };
        if row == "designated" {
            sheet.designated = letter(cells[0]);
        } else if row == "plan" {
            read_numbers(&mut sheet.table, cells);
        } else if row == "buyer" {
            let empty = Sheet { designated: 0, table: wide, records: vec![] };
            let second = second.get_or_insert(empty);
            match cells {
                [designated] => second.designated = letter(designated),
                _ => read_numbers(&mut second.table, cells),
            }
        } else if row == "cusum" {
            let class: usize = class.expect("a class above");
            want(FIRST_CUSUM + class, &|cell| {
                format!("{}.{}", tenths(cell) / 10, tenths(cell) % 10)
            });
        } else if let Some((_, field)) = COMPARED.iter().find(|(name, _)| *name == row) {
            want(*field, &str::to_string);
        } else {
            class = CLASSES.iter().position(|&name| name == row);
            assert!(class.is_some() || OTHERS.contains(&row), "what is {line}?");
            lengths.push((line, cells.len()));
            assert!(rows.insert(row, cells.to_vec()).is_none(), "a row twice: {line}");
        }
    }
    let units = CLASSES.iter().find_map(|&class| rows.get(class)).expect("counts").len();
    for (line, length) in lengths {
        assert_eq!(length, units, "{line}");
    }
    for unit in 0..units {
        let cell = |row: &str| rows.get(row).map(|cells| cells[unit]);
        let number = |row: &str| cell(row).map(|cell| cell.parse::<i64>().expect("a number"));
        for change in cell("before").unwrap_or(".").split("").filter(|&c| !c.is_empty() && c != ".")
        {
            let new =
                if change == "|" { Record::Break } else { Record::Redesignation(letter(change)) };
            sheet.records.push(new);
        }
        let [critical, severe, major] = [0, 1, 2].map(|class| number(CLASSES[class]).unwrap_or(0));
        let others = critical + severe + major;
        let minor = number("minor").or(number("total").map(|total| total - others)).unwrap_or(0);
        assert!(number("total").is_none_or(|total| total == others + minor), "total of {text}");
        sheet.records.push(Record::Unit(Unit {
            code: number("code").map_or(unit as u16 + 1, |code| code as u16),
            counts: [critical, severe, major, minor],
            prerequisite: cell("prerequisite").map_or(0, letter),
            recoverable: number("recoverable") == Some(1),
        }));
    }
    (sheet, second, wanted)
}

/// A, B, C or S.
fn letter(word: &str) -> Grade {
    assert_eq!(word.len(), 1, "{word}");
    "ABCS".find(word).expect("a grade") as Grade
}

/// "2", "0.5" or "12.0" in tenths.
pub fn tenths(word: &str) -> i64 {
    let (whole, tenth) = word.split_once('.').unwrap_or((word, "0"));
    assert_eq!(tenth.len(), 1, "{word}");
    10 * whole.parse::<i64>().expect("a number") + tenth.parse::<i64>().expect("a digit")
}
