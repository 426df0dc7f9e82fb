//! What the programs share that print sheets in bytes with the answers and the result bytes of the
//! independent grader, to be proved of the definitions by computation. Sizes and bytes are the
//! grader's. What stands with each sheet by hand, from the papers, holds the grader to what the sheet
//! is to show.

use grader::sheet::MOST_UNITS;
use grader::Answer;

/// At most so many bytes of a record in a line: the overshoots of a result have one of their own.
const LINE: usize = 16;

/// A kind of sheet.
pub trait Kind: Sized {
    /// What is known by hand of an accepted sheet.
    type ByHand;
    const RESULT_SIZE: usize;

    /// Grades with the self check.
    fn grade(sheet: &[u8], results: &mut [u8]) -> Answer;

    fn print(sheet: &[u8]) -> String;

    /// Panics if an accepted sheet is graded otherwise than is known by hand.
    fn hold(name: &str, by_hand: &Self::ByHand, results: &[u8], printed: &str);

    /// Says what is particular in what stands before the parts.
    fn comment(_opening: &[u8]) -> String {
        String::new()
    }

    /// The list of the sheet's bytes, behind "=".
    fn list(case: &Case<Self>) -> String;
}

/// A record or what is left of one, and what to say of it.
pub struct Part {
    pub bytes: Vec<u8>,
    pub comment: String,
}

impl Part {
    /// The first bytes of it.
    pub fn cut(mut self, length: usize) -> Part {
        self.bytes.truncate(length);
        Part { bytes: self.bytes, comment: format!("{length} bytes of {}", self.comment) }
    }
}

pub fn raw(bytes: &[u8], comment: &str) -> Part {
    Part { bytes: bytes.to_vec(), comment: comment.to_string() }
}

/// What is known of the answer by hand.
pub enum Expected<ByHand> {
    Accepted(ByHand),
    /// Refused, whatever the buffer; the number, and the offset if that is known by hand too.
    Number(u32, Option<usize>),
    /// Refused in a buffer without room for the result records.
    WithoutRoom(u32, Option<usize>),
}

pub struct Case<K: Kind> {
    pub name: &'static str,
    /// The comment at the sheet.
    pub shows: &'static str,
    /// What stands before the parts, if it is no part.
    pub opening: Vec<u8>,
    pub parts: Vec<Part>,
    /// The first part stands there as often as there may be units, instead of once.
    pub full: bool,
    pub expected: Expected<K::ByHand>,
}

impl<K: Kind> Case<K> {
    pub fn bytes(&self) -> Vec<u8> {
        let mut bytes = self.opening.clone();
        for (place, part) in self.parts.iter().enumerate() {
            let times = if self.full && place == 0 { MOST_UNITS } else { 1 };
            bytes.extend(part.bytes.repeat(times));
        }
        bytes
    }

    pub fn definition(&self) -> String {
        definition(self.name)
    }

    pub fn field(&self) -> String {
        field_of_definition(self.name)
    }
}

fn words(name: &str) -> impl Iterator<Item = &str> {
    name.split(' ').filter(|word| !["a", "the"].contains(word))
}

/// "a break in a run" as `break_in_run`. A word that begins with a digit stands right behind the one
/// before it, and the last of several capitals begins a word: "AQLs at 6 units" is `aq_ls_at6_units`.
pub fn definition(name: &str) -> String {
    let capital = |word: &str| word[..1].to_uppercase() + &word[1..];
    let letters: Vec<char> = words(name).map(capital).collect::<String>().chars().collect();
    let mut text = String::new();
    for (at, letter) in letters.iter().enumerate() {
        let before = at.checked_sub(1).map_or('_', |before| letters[before]);
        let word_behind = letters.get(at + 1).is_some_and(char::is_ascii_lowercase);
        let begins = before.is_ascii_lowercase()
            || before.is_ascii_digit()
            || before.is_ascii_uppercase() && word_behind;
        if letter.is_ascii_uppercase() && begins {
            text.push('_');
        }
        text.push(letter.to_ascii_lowercase());
    }
    text
}

/// "a break in a run" as `break_in_run`, "AQLs at 6 units" as `aqls_at_6_units`.
pub fn field(name: &str) -> String {
    words(name).map(str::to_lowercase).collect::<Vec<_>>().join("_")
}

/// The field that says what the definition of this name comes to: `break_in_run_holds`, since the
/// definition is `break_in_run`. A name of one word has no ending.
pub fn field_of_definition(name: &str) -> String {
    let text = field(name);
    let ending = if text.contains('_') && text == definition(name) { "_holds" } else { "" };
    text + ending
}

/// What is graded: a sheet, and what is given with it.
pub trait Given {
    type Kind: Kind;

    fn case(&self) -> &Case<Self::Kind>;

    /// Grades with the self check.
    fn grade(&self, results: &mut [u8]) -> Answer;

    fn print(&self) -> String;

    /// What is given with the sheet, as it stands in a statement, with a space behind it.
    fn with(&self) -> String {
        String::new()
    }
}

/// A sheet alone.
impl<K: Kind> Given for Case<K> {
    type Kind = K;

    fn case(&self) -> &Case<K> {
        self
    }

    fn grade(&self, results: &mut [u8]) -> Answer {
        K::grade(&self.bytes(), results)
    }

    fn print(&self) -> String {
        K::print(&self.bytes())
    }
}

pub struct GroupOf<G: Given> {
    /// The name of its record type, and of the field of the whole.
    pub name: &'static str,
    pub field: &'static str,
    pub title: &'static str,
    pub cases: Vec<G>,
}

/// Of sheets alone; regradings have none.
#[allow(dead_code)]
pub type Group<K> = GroupOf<Case<K>>;

/// What the grader answers, with the result records and the line printed for each.
pub struct Graded {
    pub answer: Answer,
    pub records: Vec<(Vec<u8>, String)>,
}

/// Grades a sheet, and sees that the grader does as is known by hand and keeps what it has to keep.
pub fn graded<G: Given>(given: &G) -> Graded {
    let (case, size) = (given.case(), G::Kind::RESULT_SIZE);
    let name = case.name;
    let mut buffer = vec![0xEE; 4_096];
    let answer = given.grade(&mut buffer);
    let (results, rest) = buffer.split_at(size * answer.units);
    assert!(rest.iter().all(|&byte| byte == 0xEE), "{name}: bytes behind the records");
    let hold_offset = |found: usize, by_hand: Option<usize>| {
        assert_eq!(found, by_hand.unwrap_or(found), "{name}: the offset");
    };
    match &case.expected {
        Expected::Accepted(by_hand) => {
            assert_eq!(answer.number, 0, "{name}");
            let printed = given.print();
            G::Kind::hold(name, by_hand, results, &printed);
            let lines = printed.lines().map(str::to_string);
            let records = results.chunks(size).map(<[u8]>::to_vec).zip(lines).collect();
            Graded { answer, records }
        }
        Expected::Number(number, offset) => {
            assert_eq!(answer.number, *number, "{name}");
            hold_offset(answer.offset, *offset);
            assert_eq!(given.grade(&mut []), answer, "{name}: without a buffer");
            Graded { answer, records: Vec::new() }
        }
        Expected::WithoutRoom(number, offset) => {
            assert_eq!(answer.number, 0, "{name}");
            let mut short = vec![0xEE; size * answer.units - 1];
            let refused = given.grade(&mut short);
            assert_eq!(refused.number, *number, "{name}");
            hold_offset(refused.offset, *offset);
            assert_eq!(given.grade(&mut []), refused, "{name}: without a buffer");
            assert!(short.iter().all(|&byte| byte == 0xEE), "{name}: the buffer");
            // The units, for which there is no room.
            Graded { answer: Answer { units: answer.units, ..refused }, records: Vec::new() }
        }
    }
}

// ---- the file

/// What is stated of sheets, by the name of what their grading comes to. The words stand in
/// `crates/outcome/specs/Held.antt`.
pub fn abbreviations(outcome: &str) -> String {
    let mut text = String::new();
    for (name, form, word, size) in [
        ("Graded", "List ℕ → ℕ → ℕ → List ℕ", "GradedBy", " result_size"),
        ("RefusedWith", "ℕ → List ℕ → ℕ", "RefusedBy", ""),
        ("WithoutRoom", "ℕ → List ℕ → ℕ → ℕ", "WithoutRoomBy", " result_size"),
    ] {
        text += &format!("\nabbrev pub {name} : {form} → Type 0\n");
        text += &format!("{name} = {word} {outcome}{size}\n");
    }
    text
}

/// Bytes as elements of a list, the mark in hexadecimal.
pub fn elements(bytes: &[u8], comment: &str) -> String {
    let element = |(at, byte): (usize, &u8)| match at {
        0 | 1 => format!("0x{byte:02X}"),
        _ => byte.to_string(),
    };
    let elements: Vec<_> = bytes.iter().enumerate().map(element).collect();
    let (first, overshoots) = elements.split_at(elements.len().min(LINE));
    let mut text = format!("{}{comment}", first.join(" ∷ "));
    if !overshoots.is_empty() {
        text += &format!("\n    ∷ {}", overshoots.join(" ∷ "));
    }
    text
}

/// A list of records, each with its comment, with no bracket before or behind it.
pub fn lines<'a>(records: impl Iterator<Item = (&'a [u8], &'a str)>) -> String {
    let line = |(bytes, comment): (&[u8], &str)| {
        format!("{}\n    ∷ ", elements(bytes, &format!("  -- {comment}")))
    };
    records.map(line).collect::<String>() + "[]"
}

/// The parts of a sheet as [`lines`].
pub fn part_lines(parts: &[Part]) -> String {
    lines(parts.iter().map(|part| (&part.bytes[..], part.comment.as_str())))
}

/// The comment at a sheet.
pub fn shows(comment: &str) -> String {
    comment.lines().map(|line| format!("-- {line}\n")).collect()
}

/// A sheet's bytes and its result bytes.
fn definitions<K: Kind>(case: &Case<K>, graded: &Graded) -> String {
    let (name, list) = (case.definition(), K::list(case));
    let (shows, comment) = (shows(case.shows), K::comment(&case.opening));
    let mut text = format!("\n{shows}{comment}unfoldable pub {name} : List ℕ\n{name} ={list}\n");
    if let Expected::Accepted(_) = case.expected {
        text += &format!("\n{}", results(case, graded));
    }
    text
}

/// A sheet's result bytes.
pub fn results<K: Kind>(case: &Case<K>, graded: &Graded) -> String {
    let name = case.definition();
    let records = graded.records.iter().map(|(bytes, line)| (&bytes[..], line.as_str()));
    let gap = if graded.records.is_empty() { " " } else { "\n    " };
    format!("unfoldable pub {name}_results : List ℕ\n{name}_results ={gap}{}\n", lines(records))
}

/// The field that says what a sheet comes to.
fn statement<G: Given>(given: &G, graded: &Graded) -> String {
    let (case, with) = (given.case(), given.with());
    let (field, name) = (case.field(), case.definition());
    let Answer { number, units, offset } = graded.answer;
    let said = match case.expected {
        Expected::Accepted(_) => format!("Graded {with}{name} {units} {offset} {name}_results"),
        Expected::Number(..) => format!("RefusedWith {with}{number} {name} {offset}"),
        Expected::WithoutRoom(..) => format!("WithoutRoom {with}{number} {name} {units} {offset}"),
    };
    format!("  pub {field} : {said}\n")
}

/// The sheets of all groups, each group with its record; and the fields of the record of all groups.
pub fn sheets<G: Given>(groups: &[GroupOf<G>]) -> (String, String) {
    let (mut text, mut fields) = (String::new(), String::new());
    for GroupOf { name, field, title, cases } in groups {
        text += &format!("\n-- ---- {title}\n");
        let mut record = format!("\npub record {name} : Type 0 where\n");
        for given in cases {
            let graded = graded(given);
            text += &definitions(given.case(), &graded);
            record += &statement(given, &graded);
        }
        text += &record;
        fields += &format!("  pub {field} : {name}\n");
    }
    (text, fields)
}
