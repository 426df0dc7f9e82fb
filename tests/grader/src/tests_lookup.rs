//! Look-ups of one code (A.6 of paper 02): results by hand for each sentence, results of gradings and
//! regradings, wrong programs, and random look-ups in two ways.

use crate::generate::{any_case, Counts, MOST_ROOM};
use crate::generate_lookup::{lookup_case, LookupCase};
use crate::generate_regrade::regrade_case;
use crate::lookup::{code_of, find, find_ended, part, portion_grade, print, records_read, Part};
use crate::peach::{p10, peach};
use crate::regrade::{regrade, regrade_traced};
use crate::rules::{Graded, Row};
use crate::{grade, grade_traced, RESULT_SIZE};
use std::collections::BTreeSet;

/// Records by code and portion grade byte, and the code grade byte, or 1; the other bytes tell the
/// place of the record.
fn results(script: &str) -> Vec<u8> {
    let mut results = Vec::new();
    for (place, word) in script.split_whitespace().enumerate() {
        let fields: Vec<u16> = word.split(':').map(|field| field.parse().unwrap()).collect();
        let [high, low] = fields[0].to_be_bytes();
        let [portion, code_grade] = [Some(&fields[1]), fields.get(2)]
            .map(|byte| u8::try_from(*byte.unwrap_or(&1)).unwrap());
        results.extend([0x47, 0x52, high, low, portion, code_grade]);
        results.extend([place as u8 + 101; RESULT_SIZE - 6]);
    }
    results
}

/// The place of the record that is found, counted from 0, or else the number. Every way to ask has the
/// same answer, and so has a reading of no more than the records read.
fn look_up(results: &[u8], code: u16) -> Result<usize, u32> {
    let Part { number, offset, length } = part(results, code);
    let (found_number, found) = find(results, code);
    let (ended_number, ended) = find_ended(results, code);
    assert_eq!([found_number, ended_number], [number; 2]);
    // "as part of those results": the same bytes at the same place.
    let place = results[offset..offset + length].as_ptr_range();
    assert_eq!([found.as_ptr_range(), ended.as_ptr_range()], [place.clone(), place]);
    if number == 19 {
        assert_eq!(records_read(results, code), 0);
    } else {
        let read = &results[..RESULT_SIZE * records_read(results, code)];
        assert_eq!(part(read, code), Part { number, offset, length });
    }
    if number == 0 {
        assert_eq!((offset % RESULT_SIZE, length), (0, RESULT_SIZE));
        return Ok(offset / RESULT_SIZE);
    }
    // "There and after 19 the part handed back is empty".
    assert_eq!((offset, length), (0, 0));
    Err(number)
}

/// As [`look_up`], of records by hand.
fn at(script: &str, code: u16) -> Result<usize, u32> {
    look_up(&results(script), code)
}

#[test]
fn peach_sheet() {
    // P10: code 5 is A at unit 5 and B at unit 6, all others have one unit; nothing is of code 6.
    let mut graded = [0; 7 * 32];
    grade(&p10(), &mut graded);
    for (code, expected) in [
        (1, Ok(0)),
        (2, Ok(1)),
        (3, Ok(2)),
        (4, Ok(3)),
        (5, Ok(5)),
        (7, Ok(6)),
        (6, Err(1)),
        (0, Err(1)),
        (8, Err(1)),
        (256, Err(1)),
        (65_535, Err(1)),
    ] {
        assert_eq!(look_up(&graded, code), expected, "code {code}");
    }
    // "6 5 B B u B 0.0 0.0 0.0 0.0"
    let unit_6 = [&[0x47, 0x52, 0, 5, 1, 1, 1, 2][..], &[0; 24]].concat();
    assert_eq!(find(&graded, 5), (0, &unit_6[..]));
    assert_eq!(find(&graded, 6), (1, &[][..]));
    assert_eq!(part(&graded, 5), Part { number: 0, offset: 160, length: 32 });
    assert_eq!(part(&graded, 6), Part { number: 1, offset: 0, length: 0 });
    assert_eq!(part(&graded[..223], 5), Part { number: 19, offset: 0, length: 0 });
    // "2 2 B B f A 0.0 0.5 1.0 4.0", over by 4 in total.
    let line = "found 32 71 82 0 2 1 1 0 1 0 0 0 5 0 10 0 40 0 0 0 0 0 0 0 0 0 0 0 0 0 0 0 40\n";
    assert_eq!(print(&graded, 2), line);
    assert_eq!(print(&graded, 5), format!("found 160 71 82 0 5 1 1 1 2{}\n", " 0".repeat(24)));
    assert_eq!(print(&graded, 6), "not on this sheet\n");
    assert_eq!(print(&[], 6), "not on this sheet\n");
    assert_eq!(print(&graded[..223], 5), "refused 19 0\n");
    assert_eq!(print(&graded[..1], 6), "refused 19 0\n");
    // Graded again under the peach plan both portions of code 5 are A: the first is found.
    regrade(&p10(), &peach(Vec::new()).bytes(), &mut graded);
    assert_eq!(look_up(&graded, 5), Ok(4));
    assert_eq!(look_up(&graded, 2), Ok(1));
}

#[test]
fn the_first_of_the_worst() {
    // "the first record of that code whose portion grade is the worst the code has"
    assert_eq!(at("7:0", 7), Ok(0));
    assert_eq!(at("7:0 7:0", 7), Ok(0));
    assert_eq!(at("7:0 7:1 7:2 7:1", 7), Ok(2));
    assert_eq!(at("7:2 7:1 7:0", 7), Ok(0));
    assert_eq!(at("7:1 7:2 7:0 7:2 7:2", 7), Ok(1));
    assert_eq!(at("7:1 7:0 7:1", 7), Ok(0));
    assert_eq!(at("7:0 7:1 7:0 7:3", 7), Ok(3));
    // "of that code": whatever the others have, adjoining or not.
    assert_eq!(at("8:3 7:1 9:2 7:2 8:2 7:2", 7), Ok(3));
    assert_eq!(at("8:3 7:1 9:2 7:2 8:2 7:2", 8), Ok(0));
    assert_eq!(at("8:3 7:1 9:2 7:2 8:2 7:2", 9), Ok(2));
    assert_eq!(at("8:0 7:1 8:3 7:0", 7), Ok(1));
}

#[test]
fn substandard_bytes() {
    // "A grade byte of 3 or more is Substandard": of two such the first, whichever is greater; each is
    // worse than C, and is found before better ones and behind them.
    for first in 3..=255 {
        assert_eq!(at(&format!("7:2 7:{first} 8:3"), 7), Ok(1));
        assert_eq!(at(&format!("7:{first} 7:2 7:0"), 7), Ok(0));
        for second in [3, 4, 127, 128, 200, 254, 255] {
            assert_eq!(at(&format!("7:{first} 7:{second}"), 7), Ok(0));
            assert_eq!(at(&format!("8:255 7:1 7:{first} 7:0 7:{second}"), 7), Ok(2));
        }
    }
    assert_eq!(at("7:3 7:200", 7), Ok(0));
    assert_eq!(at("7:200 7:3", 7), Ok(0));
    // 2 is not.
    assert_eq!(at("7:2 7:3", 7), Ok(1));
    assert_eq!(at("7:2 7:2", 7), Ok(0));
}

#[test]
fn reading_ends() {
    // "Reading ends at the first Substandard portion of that code, and the answer equals that of a
    // full reading." The script, the code, the records read and the answer.
    for (script, code, read, expected) in [
        ("7:3", 7, 1, Ok(0)),
        ("7:3 7:3 7:3", 7, 1, Ok(0)),
        ("7:2 7:3 7:0 7:3 8:0", 7, 2, Ok(1)),
        ("7:200 7:3", 7, 1, Ok(0)),
        ("7:0 7:4 7:3 7:255", 7, 2, Ok(1)),
        ("7:0 8:3 7:1 8:0 7:3", 7, 5, Ok(4)),
        ("8:3 9:3 7:2 7:255 7:3", 7, 4, Ok(3)),
        // None of that code: all.
        ("7:2 7:2 7:2", 7, 3, Ok(0)),
        ("8:3 7:0 8:3 7:2 8:3", 7, 5, Ok(3)),
        ("8:3 9:3 8:255", 7, 3, Err(1)),
        ("", 7, 0, Err(1)),
        // Not at a code grade of Substandard, nor at another code.
        ("7:0:3 7:1:3 7:2:3 7:1:3", 7, 4, Ok(2)),
        ("1792:3 7:1 8:3 7:2", 7, 4, Ok(3)),
    ] {
        assert_eq!(records_read(&results(script), code), read, "{script}");
        assert_eq!(at(script, code), expected, "{script}");
    }
    // "before reading"
    assert_eq!(records_read(&results("7:3 7:3")[..63], 7), 0);
    // What is behind the end may be anything.
    let mut behind = results("8:0 7:3 7:3 7:0");
    for byte in 64..128 {
        behind[byte] = 255;
        assert_eq!(look_up(&behind, 7), Ok(1));
    }
}

#[test]
fn not_on_this_sheet() {
    // "A code that isn't there gets 'not on this sheet', and only then": of all codes, in two records.
    let two = results("258:2 65280:0");
    for code in 0..=65_535 {
        let expected = match code {
            0x0102 => Ok(0),
            0xFF00 => Ok(1),
            _ => Err(1),
        };
        assert_eq!(look_up(&two, code), expected, "code {code}");
    }
    // With any grade bytes it is there.
    for byte in 0..=255 {
        assert_eq!(at(&format!("8:0 7:{byte}:{byte}"), 7), Ok(1));
        assert_eq!(at(&format!("8:{byte} 7:0"), 7), Ok(1));
        assert_eq!(at(&format!("8:{byte}:{byte}"), 7), Err(1));
    }
    // Every code is one, 0 and 65,535 too.
    let codes = [0, 1, 255, 256, 65_535];
    for code in codes {
        let all = codes.map(|code| format!("{code}:0 "));
        assert_eq!(at(&all.concat(), code), Ok(codes.iter().position(|&c| c == code).unwrap()));
        let others = codes.iter().filter(|&&other| other != code);
        let others: String = others.map(|other| format!("{other}:3 ")).collect();
        assert_eq!(at(&others, code), Err(1));
        assert_eq!(at(&format!("{others}{code}:0"), code), Ok(4));
    }
    // No record.
    assert_eq!(look_up(&[], 0), Err(1));
    assert_eq!(find(&[], 0), (1, &[][..]));
    // The bytes of the code anywhere else: exchanged, or at any other place of the first of two
    // records, or across both.
    assert_eq!(at("513:3 514:3 257:3 2:3 256:3", 258), Err(1));
    for place in (0..63).filter(|place| ![2, 34].contains(place)) {
        let mut elsewhere = [0x55; 64];
        elsewhere[place..place + 2].copy_from_slice(&[1, 2]);
        assert_eq!(look_up(&elsewhere, 258), Err(1), "byte {place}");
        elsewhere[34..36].copy_from_slice(&[1, 2]);
        assert_eq!(look_up(&elsewhere, 258), Ok(1), "byte {place}");
    }
    // The high byte is first.
    assert_eq!(look_up(&[[0x47, 0x52, 1, 2].repeat(8), vec![0; 32]].concat(), 513), Err(1));
}

#[test]
fn marks_are_not_looked_at() {
    let right = results("8:0 7:1 7:2 7:0");
    for mark in [[0, 0], [0x47, 0x53], [0x52, 0x47], [0x4D, 0x52], [0x53, 0x55], [0, 7], [255; 2]] {
        for place in 0..4 {
            let mut wrong = right.clone();
            wrong[32 * place..32 * place + 2].copy_from_slice(&mark);
            assert_eq!(look_up(&wrong, 7), Ok(2));
            assert_eq!(look_up(&wrong, 8), Ok(0));
            let as_code = if mark == [0, 7] { Ok(2) } else { Err(1) };
            assert_eq!(look_up(&wrong, u16::from_be_bytes(mark)), as_code);
        }
        let all: Vec<u8> =
            right.chunks(32).flat_map(|record| [&mark, &record[2..]].concat()).collect();
        assert_eq!(look_up(&all, 7), Ok(2));
        // It is handed back as it is.
        assert_eq!(find(&all, 7).1[..6], [mark[0], mark[1], 0, 7, 2, 1]);
    }
    // The mark is no code.
    assert_eq!(look_up(&right, 0x4752), Err(1));
    assert_eq!(at("7:0 18258:0", 0x4752), Ok(1));
}

#[test]
fn other_bytes_are_not_looked_at() {
    // The code grade byte, however bad: "whose portion grade is the worst".
    assert_eq!(at("7:0:2 7:1:0 7:0:3", 7), Ok(1));
    assert_eq!(at("7:1:3 7:1:255 7:0:2", 7), Ok(0));
    assert_eq!(at("7:0:255 7:3:0 7:0:3", 7), Ok(1));
    // Every byte but code and portion grade, of every record.
    let right = results("7:0 7:2 8:3 7:1 7:2");
    for place in (0..right.len()).filter(|place| !(2..=4).contains(&(place % 32))) {
        for byte in [0, 3, 7, 255] {
            let mut changed = right.clone();
            changed[place] = byte;
            assert_eq!(look_up(&changed, 7), Ok(1), "byte {place}");
            assert_eq!(look_up(&changed, 8), Ok(2), "byte {place}");
            assert_eq!(look_up(&changed, 0), Err(1), "byte {place}");
        }
    }
}

#[test]
fn wrong_lengths() {
    // "19, results not a multiple of 32 bytes long, [...] before reading": whether the code is there
    // or not, or would be found before the end.
    let long = results("7:3 8:0 7:0 7:2");
    for length in 0..=128 {
        let expected = match length {
            0 => [Err(1); 3],
            32 => [Ok(0), Err(1), Err(1)],
            64 | 96 | 128 => [Ok(0), Ok(1), Err(1)],
            _ => [Err(19); 3],
        };
        for (code, expected) in [7, 8, 9].into_iter().zip(expected) {
            assert_eq!(look_up(&long[..length], code), expected, "{length} bytes, code {code}");
        }
        if length % 32 > 0 {
            assert_eq!(find(&long[..length], 7), (19, &[][..]));
            assert_eq!(print(&long[..length], 7), "refused 19 0\n");
        }
    }
    // 16 bytes, which were a record before A.1, are none.
    assert_eq!(look_up(&[0; 16], 0), Err(19));
    assert_eq!(look_up(&[0; 48], 0), Err(19));
}

#[test]
fn many_records() {
    // "at most 1,000 units" is about sheets: 1,001 records and more are read like any others.
    for records in [999, 1_000, 1_001, 2_048, 2_049, 5_000] {
        let mut many = [0x47, 0x52, 0, 7, 0, 0, 0, 0].repeat(4 * records);
        assert_eq!(look_up(&many, 7), Ok(0), "{records}");
        assert_eq!(look_up(&many, 8), Err(1), "{records}");
        assert_eq!(records_read(&many, 7), records);
        many[32 * records - 28] = 1;
        assert_eq!(look_up(&many, 7), Ok(records - 1), "{records}");
        many[32 * records - 28] = 3;
        assert_eq!(look_up(&many, 7), Ok(records - 1), "{records}");
        many[32 * records - 29] = 8;
        assert_eq!(look_up(&many, 8), Ok(records - 1), "{records}");
        assert_eq!(look_up(&many, 7), Ok(0), "{records}");
        many[32 * 500 + 4] = 128;
        assert_eq!(look_up(&many, 7), Ok(500), "{records}");
        assert_eq!(records_read(&many, 7), 501);
        many.pop();
        assert_eq!(look_up(&many, 7), Err(19), "{records}");
    }
}

/// What holds of the results of an accepted grading or regrading. "the code grade: the worst portion
/// grade among all units of the sheet with that code" (paper 01): so the record found of a code has
/// the same byte for both, and is the first of the code that has. A code that no unit has, and no
/// other, is not there. With `every`, of all codes, else of those of the sheet and some near them.
fn related(results: &[u8], graded: &Graded, every: bool) {
    let rows = &graded.rows;
    assert_eq!(results.len(), RESULT_SIZE * rows.len());
    let there: BTreeSet<u16> = rows.iter().map(|row| row.unit.code).collect();
    let near = there.iter().flat_map(|&code| {
        [code, code.swap_bytes(), code ^ 1, code ^ 256, code.wrapping_add(1), code.wrapping_sub(1)]
    });
    let some = near.chain([0, 1, 255, 256, 0x4752, u16::MAX]);
    let codes: BTreeSet<u16> = if every { (0..=u16::MAX).collect() } else { some.collect() };
    for code in codes {
        let as_bad = |row: &Row| row.unit.code == code && row.portion_grade == row.code_grade;
        let place = look_up(results, code);
        assert_eq!(place.is_ok(), there.contains(&code), "code {code}");
        assert_eq!(place, rows.iter().position(as_bad).ok_or(1), "code {code}");
        if let (0, found) = find(results, code) {
            assert_eq!(code_of(found), code);
            assert_eq!(found[4], found[5], "code {code}");
        }
    }
}

#[test]
fn results_of_gradings_and_regradings() {
    let (mut gradings, mut regradings) = (0, 0);
    for seed in 0..4_000 {
        let mut results = vec![0; MOST_ROOM];
        let sheet = any_case(seed).sheet;
        if let (answer, Some(graded)) = grade_traced(&sheet, &mut results, false) {
            gradings += 1;
            related(&results[..RESULT_SIZE * answer.units], &graded, gradings % 100 == 0);
        }
        let case = regrade_case(seed);
        if let (answer, Some(graded)) = regrade_traced(&case.sheet, &case.plan, &mut results, false)
        {
            regradings += 1;
            related(&results[..RESULT_SIZE * answer.units], &graded, regradings % 100 == 0);
        }
    }
    println!("{gradings} gradings, {regradings} regradings");
    assert!(gradings > 2_000 && regradings > 2_000);
}

/// The first of these records for which this holds and whose grade is the greatest.
fn worst(records: &[&[u8]], is: impl Fn(&[u8]) -> bool, grade: impl Fn(&[u8]) -> u8) -> Part {
    let mut worst: Option<usize> = None;
    for (place, record) in records.iter().enumerate() {
        if is(record) && worst.is_none_or(|worst| grade(record) > grade(records[worst])) {
            worst = Some(place);
        }
    }
    worst.map_or(Part::empty(1), Part::record)
}

/// The programs that are wrong, and what each answers.
fn wrong_programs(results: &[u8], code: u16) -> [(&'static str, Part); 20] {
    let records: Vec<&[u8]> = results.chunks_exact(RESULT_SIZE).collect();
    let is = |record: &[u8]| code_of(record) == code;
    let up_to = |end: &dyn Fn(&[u8]) -> bool| {
        let end = records.iter().position(|record| end(record));
        &records[..end.map_or(records.len(), |place| place + 1)]
    };
    let right = worst(&records, is, portion_grade);
    let backwards = |grade: fn(&[u8]) -> u8| {
        let reversed: Vec<&[u8]> = records.iter().rev().copied().collect();
        let Part { number, offset, .. } = worst(&reversed, is, grade);
        if number == 0 {
            Part::record(records.len() - 1 - offset / RESULT_SIZE)
        } else {
            Part::empty(1)
        }
    };
    let marked = |record: &[u8]| record[..2] == [0x47, 0x52];
    let substandard = |record: &[u8]| portion_grade(record) == 3;
    let other_than_3 = |record: &[u8]| if record[4] > 3 { 0 } else { record[4] };
    let of_all = worst(&records, |_| true, portion_grade);
    let anywhere = results.windows(2).any(|two| two == code.to_be_bytes());
    let programs = [
        ("takes the last of equals", backwards(portion_grade)),
        ("takes the first of the code", worst(&records, is, |_| 0)),
        ("takes the last of the code", backwards(|_| 0)),
        ("takes the best of the code", worst(&records, is, |record| 3 - portion_grade(record))),
        ("takes the greatest byte", worst(&records, is, |record| record[4])),
        ("takes 3 alone for Substandard", worst(&records, is, other_than_3)),
        ("takes 128 and more for negative", worst(&records, is, |record| record[4] ^ 128)),
        ("goes by the code grade", worst(&records, is, |record| record[5].min(3))),
        ("goes by the plan's grade", worst(&records, is, |record| record[6].min(3))),
        ("takes the worst of all codes", if right.number == 0 { of_all } else { right }),
        (
            "exchanges the bytes of the code",
            worst(&records, |r| code_of(r) == code.swap_bytes(), portion_grade),
        ),
        ("goes by the low byte", worst(&records, |r| r[3] == code as u8, portion_grade)),
        (
            "goes by the high byte",
            worst(&records, |r| u16::from(r[2]) == code / 256, portion_grade),
        ),
        ("finds the bytes anywhere", if anywhere { Part { number: 0, ..right } } else { right }),
        ("passes over wrong marks", worst(&records, |r| is(r) && marked(r), portion_grade)),
        ("ends at a wrong mark", worst(up_to(&|r| !marked(r)), is, portion_grade)),
        ("ends at the first C", worst(up_to(&|r| is(r) && r[4] >= 2), is, portion_grade)),
        ("ends at any Substandard", worst(up_to(&substandard), is, portion_grade)),
        ("ends at the first of the code", worst(up_to(&is), is, portion_grade)),
        ("ends at 1,000 records", worst(&records[..records.len().min(1_000)], is, portion_grade)),
    ];
    // They refuse what is to be refused.
    let refuses = !results.len().is_multiple_of(RESULT_SIZE);
    programs.map(|(name, part)| (name, if refuses { Part::empty(19) } else { part }))
}

#[test]
fn wrong_programs_are_caught() {
    let mut caught = std::collections::BTreeMap::new();
    for seed in 0..5_000 {
        let case = lookup_case(seed);
        let right = part(&case.results, case.code);
        for (wrong, part) in wrong_programs(&case.results, case.code) {
            *caught.entry(wrong).or_insert(0) += usize::from(part != right);
        }
        // Those that refuse otherwise.
        let LookupCase { results, code, .. } = case;
        let records: Vec<&[u8]> = results.chunks_exact(RESULT_SIZE).collect();
        let whole = worst(&records, |record| code_of(record) == code, portion_grade);
        let ends = whole.number == 0 && results[whole.offset + 4] >= 3;
        let refuses = right.number == 19;
        for (wrong, part) in [
            ("reads whole records", whole),
            ("refuses after reading", if refuses && ends { whole } else { right }),
            ("refuses no byte", if results.is_empty() { Part::empty(19) } else { right }),
            ("finds nothing in bytes left over", if refuses { Part::empty(1) } else { right }),
        ] {
            *caught.entry(wrong).or_insert(0) += usize::from(part != right);
        }
    }
    println!("{caught:#?}");
    for (wrong, times) in caught {
        let least = if wrong == "ends at 1,000 records" { 10 } else { 100 };
        assert!(times >= least, "{wrong}: {times}");
    }
}

#[test]
fn random_lookups() {
    let mut counts = Counts::default();
    for seed in 0..20_000 {
        let case = lookup_case(seed);
        let (results, code) = (&case.results, case.code);
        let answer = part(results, code);
        if let Some(expected) = case.expected {
            assert_eq!(answer, expected, "seed {seed}");
        }
        // "the answer equals that of a full reading"
        assert_eq!(find_ended(results, code), find(results, code), "seed {seed}");
        let found = (answer.number == 0).then_some(answer.offset / RESULT_SIZE);
        assert_eq!(look_up(results, code), found.ok_or(answer.number), "seed {seed}");
        counts.note_lookup(&case, answer);
    }
    println!("{counts}");
    assert_eq!(counts.missing().next(), None);
}
