//! Writes sheets one after the other into a file, and the lines that the independent grader prints
//! for them into another, for a test of the proved program.
//!
//! `cases FOLDER` writes FOLDER/stdin (each sheet behind its kind in one byte and its length in four,
//! high byte first; of a regrading the second plan stands behind the sheet, its length before it) and
//! FOLDER/stdout (for each a line "case NUMBER" and then what is printed). Of a look-up the results
//! stand in place of a sheet, and the code behind them, in two bytes; a lot stands there alone.
//! `cases --sheet NUMBER` writes one sheet to standard output and says on standard error which it is,
//! `cases --plan NUMBER` its second plan; `cases --code NUMBER` prints the code of a look-up.

mod lookup;
mod lot;
mod lower_plans;
mod manual;
mod mold;
mod refusals;
mod regrade;
mod small;
mod text;

use grader::generate::{self, Counts, MOST_ROOM};
use grader::generate_lookup::{lookup_case, LookupCase, Made};
use grader::generate_lot::{self, lot_case, LotCase, LotCounts};
use grader::generate_mold;
use grader::generate_regrade::{self, RegradeCase};
use std::io::Write;

/// Seeds of the random sheets.
const FIRST_SEED: u64 = 19_780_801;
const RANDOM: u64 = 340;
const RANDOM_LOWER_PLANS: u64 = 40;
const RANDOM_MOLD: u64 = 60;
const RANDOM_REGRADINGS: u64 = 60;
const RANDOM_LOOKUPS: usize = 60;
const RANDOM_LOTS: usize = 100;
/// The program has room for one byte more than is taken for a sheet.
const ROOM: usize = 65_537;
/// The bytes of all cases stay below this.
const MOST_BYTES: usize = 1_100_000;

/// Kinds of cases: what is printed of a sheet.
#[derive(Clone, Copy)]
pub enum Kind {
    Tally,
    Mold,
    /// A tally sheet graded again under a second plan.
    Regrading,
    /// Results, in place of a sheet, in which this code is looked up.
    Lookup(u16),
    /// A warehouse lot, in place of a sheet.
    Lot,
}

impl Kind {
    /// What stands before the length of a sheet.
    fn byte(self) -> u8 {
        match self {
            Kind::Tally => 0,
            Kind::Mold => 1,
            Kind::Regrading => 2,
            Kind::Lookup(_) => 3,
            Kind::Lot => 4,
        }
    }

    /// What the grader prints for a sheet, every CuSum computed twice.
    fn print(self, sheet: &[u8], plan: &[u8]) -> String {
        match self {
            Kind::Tally => grader::print_checked(sheet, true),
            Kind::Mold => grader::mold::print_checked(sheet, true),
            Kind::Regrading => grader::regrade::print_checked(sheet, plan, true),
            Kind::Lookup(code) => grader::lookup::print(sheet, code),
            Kind::Lot => {
                grader::lot::check_lot(sheet);
                grader::lot::print(sheet)
            }
        }
    }

    /// What must be printed if the answer has this number and offset; of an accepted sheet that is not
    /// known.
    fn answer(self, sheet: &[u8], number: u32, offset: usize) -> Option<String> {
        match (self, number) {
            (Kind::Lookup(_), 0) => Some(lookup::found(sheet, offset)),
            (Kind::Lookup(_), 1) => Some("not on this sheet\n".to_string()),
            // Number 13 is about a short result buffer, which printing does not have.
            (_, 0 | 13) => None,
            _ => Some(format!("refused {number} {offset}\n")),
        }
    }

    /// The random case of a seed: its kind, its sheet, and its second plan.
    fn random(self, seed: u64) -> (Kind, generate::Case, Vec<u8>) {
        match self {
            Kind::Tally => (self, generate::case(seed), Vec::new()),
            Kind::Mold => (self, generate_mold::mold_case(seed), Vec::new()),
            Kind::Regrading => {
                let made = generate_regrade::regrade_case(seed);
                let RegradeCase { sheet, plan, room, expected } = made;
                (self, generate::Case { sheet, room, expected }, plan)
            }
            Kind::Lookup(_) => {
                let LookupCase { results, code, expected, .. } = lookup_case(seed);
                let expected = expected.map(|part| (part.number, part.offset));
                let made = generate::Case { sheet: results, room: 0, expected };
                (Kind::Lookup(code), made, Vec::new())
            }
            Kind::Lot => {
                let LotCase { lot, expected, .. } = lot_case(seed);
                if let Some(answer) = expected {
                    assert_eq!(grader::lot::grade_lot(&lot), answer, "lot, seed {seed}");
                }
                let expected = expected.map(|answer| (answer.number, answer.offset));
                (self, generate::Case { sheet: lot, room: 0, expected }, Vec::new())
            }
        }
    }

    /// Takes in what happens in a sheet.
    fn note(self, sheet: &[u8], plan: &[u8], counts: &mut Counts) {
        match self {
            Kind::Tally => {
                let (answer, graded) = grader::grade_traced(sheet, &mut [0; MOST_ROOM], false);
                counts.note(answer.number, graded.as_ref());
            }
            Kind::Mold => {
                let room = &mut [0; generate_mold::MOST_ROOM];
                let (answer, graded) = grader::mold::grade_traced(sheet, room, false);
                counts.note_mold(sheet, answer, graded.as_ref());
            }
            Kind::Regrading => {
                let room = &mut [0; MOST_ROOM];
                let (answer, graded) = grader::regrade::regrade_traced(sheet, plan, room, false);
                let (sheet, plan) = (sheet.to_vec(), plan.to_vec());
                let case = RegradeCase { sheet, plan, room: MOST_ROOM, expected: None };
                counts.note_regrade(&case, answer, graded.as_ref());
            }
            Kind::Lookup(code) => {
                let part = grader::lookup::part(sheet, code);
                let (results, made) = (sheet.to_vec(), Made::MadeUp);
                counts.note_lookup(&LookupCase { results, code, expected: None, made }, part);
            }
            Kind::Lot => {
                let (lot, made) = (sheet.to_vec(), generate_lot::Made::Table);
                let answer = grader::lot::grade_lot(sheet);
                let mut lots = LotCounts(std::mem::take(counts));
                lots.add(&LotCase { lot, expected: None, made }, answer);
                *counts = lots.0;
            }
        }
    }

    /// A random sheet in a name, and the names of the groups: valid, damaged, messy.
    fn names(self) -> (&'static str, [&'static str; 3]) {
        match self {
            Kind::Tally => (
                "random sheet",
                ["random sheets, valid", "random sheets, damaged", "random sheets, messy"],
            ),
            Kind::Mold => (
                "random mold sheet",
                [
                    "random mold sheets, valid",
                    "random mold sheets, damaged",
                    "random mold sheets, messy",
                ],
            ),
            Kind::Regrading => (
                "random regrading",
                [
                    "random regradings, valid",
                    "random regradings, damaged",
                    "random regradings, messy",
                ],
            ),
            Kind::Lookup(_) => (
                "random look-up",
                [
                    "random look-ups, found",
                    "random look-ups, not there or refused",
                    "random look-ups, messy",
                ],
            ),
            Kind::Lot => (
                "random lot",
                ["random lots, accepted", "random lots, refused", "random lots, messy"],
            ),
        }
    }
}

struct Case {
    kind: Kind,
    name: String,
    sheet: Vec<u8>,
    /// The second plan of a regrading; of another kind no byte.
    plan: Vec<u8>,
}

/// Sheets with their names.
pub struct Cases {
    /// The kind of those that are added from here on, and the second plan if they are regradings.
    kind: Kind,
    plan: Vec<u8>,
    cases: Vec<Case>,
}

impl Cases {
    fn push(&mut self, name: &str, sheet: Vec<u8>) {
        let plan = self.plan.clone();
        assert!(plan.is_empty() || matches!(self.kind, Kind::Regrading), "{name}: a second plan");
        self.cases.push(Case { kind: self.kind, name: name.into(), sheet, plan });
    }

    /// A sheet that is accepted.
    pub fn add(&mut self, name: &str, sheet: Vec<u8>) {
        let printed = self.kind.print(&sheet, &self.plan);
        assert!(!printed.starts_with("refused"), "{name}: {printed}");
        self.push(name, sheet);
    }

    /// A tally sheet from its text, and its second plan, graded as it says there.
    pub fn text(&mut self, name: &str, text: &str) {
        let kind = self.kind;
        let (sheet, plan) = text::sheet(name, text, |sheet, plan| kind.print(sheet, plan));
        self.plan = plan;
        self.add(name, sheet);
    }

    /// A sheet of which all that is printed is known by this number and offset.
    pub fn answered(&mut self, name: &str, sheet: Vec<u8>, number: u32, offset: usize) {
        let printed = self.kind.print(&sheet, &self.plan);
        assert_eq!(Some(printed), self.kind.answer(&sheet, number, offset), "{name}");
        self.push(name, sheet);
    }

    /// A sheet that is refused with this number and offset.
    pub fn refused(&mut self, name: &str, sheet: Vec<u8>, number: u32, offset: usize) {
        self.answered(name, sheet, number, offset);
    }

    /// The random sheet of this seed; returns the group to which it belongs.
    fn random(&mut self, seed: u64) -> &'static str {
        let (what, [valid, damaged, messy]) = self.kind.names();
        let (kind, made, plan) = self.kind.random(seed);
        (self.kind, self.plan) = (kind, plan);
        match self.made(&format!("{what}, seed {seed}"), made) {
            Some((0 | 13, _)) => valid,
            Some(_) => damaged,
            None => messy,
        }
    }

    /// A random sheet; returns what is expected of it.
    fn made(&mut self, name: &str, made: generate::Case) -> Option<(u32, usize)> {
        let printed = self.kind.print(&made.sheet, &self.plan);
        let known = |(number, offset)| self.kind.answer(&made.sheet, number, offset);
        if let Some(expected) = made.expected.and_then(known) {
            assert_eq!(printed, expected, "{name}");
        }
        self.push(name, made.sheet);
        made.expected
    }
}

/// All cases, and how many there are of each group.
fn all() -> (Cases, Vec<(&'static str, usize)>) {
    let mut cases = Cases { kind: Kind::Tally, plan: Vec::new(), cases: Vec::new() };
    let mut groups: Vec<(&str, usize)> = Vec::new();
    let mut count = |group, cases: &Cases| {
        let new = cases.cases.len() - groups.iter().map(|(_, number)| number).sum::<usize>();
        match groups.iter_mut().find(|(known, _)| *known == group) {
            Some((_, number)) => *number += new,
            None => groups.push((group, new)),
        }
    };
    small::add(&mut cases);
    count("small sheets by hand", &cases);
    lower_plans::add(&mut cases);
    count("falls by hand", &cases);
    small::add_demands(&mut cases);
    count("sheets of the demands", &cases);
    for (name, text) in manual::EXAMPLES {
        cases.text(name, text);
    }
    count("examples of the manual", &cases);
    refusals::add(&mut cases);
    count("refusals by hand and sheets beside them", &cases);
    cases.refused("no byte at all", Vec::new(), 1, 0);
    count("empty sheet", &cases);
    for seed in FIRST_SEED..FIRST_SEED + RANDOM {
        let group = cases.random(seed);
        count(group, &cases);
    }
    for seed in FIRST_SEED..FIRST_SEED + RANDOM_LOWER_PLANS {
        let name = format!("random sheet made for falls, seed {seed}");
        cases.made(&name, generate::case_with_lower_plans(seed));
        count("random sheets made for falls", &cases);
    }
    cases.kind = Kind::Mold;
    mold::add(&mut cases);
    count("mold sheets by hand", &cases);
    mold::add_refusals(&mut cases);
    count("refusals of mold sheets by hand and sheets beside them", &cases);
    for seed in FIRST_SEED..FIRST_SEED + RANDOM_MOLD {
        let group = cases.random(seed);
        count(group, &cases);
    }
    cases.kind = Kind::Regrading;
    regrade::add(&mut cases);
    count("regradings by hand", &cases);
    regrade::add_refusals(&mut cases);
    count("refusals of regradings by hand and regradings beside them", &cases);
    for seed in FIRST_SEED..FIRST_SEED + RANDOM_REGRADINGS {
        let group = cases.random(seed);
        count(group, &cases);
    }
    cases.plan = Vec::new();
    lookup::add(&mut cases);
    count("look-ups by hand", &cases);
    lookup::add_refusals(&mut cases);
    count("refusals of look-ups by hand", &cases);
    let fits = |seed: &u64| lookup_case(*seed).results.len() <= ROOM;
    for seed in (FIRST_SEED..).filter(fits).take(RANDOM_LOOKUPS) {
        let group = cases.random(seed);
        count(group, &cases);
    }
    cases.kind = Kind::Lot;
    lot::add(&mut cases);
    count("lots by hand", &cases);
    lot::add_table(&mut cases);
    count("lots of the table", &cases);
    lot::add_refusals(&mut cases);
    count("refusals of lots by hand", &cases);
    let fits = |seed: &u64| lot_case(*seed).lot.len() <= ROOM;
    for seed in (FIRST_SEED..).filter(fits).take(RANDOM_LOTS) {
        let group = cases.random(seed);
        count(group, &cases);
    }
    (cases, groups)
}

/// What is counted of how a lot is made.
const MADE: [&str; 4] = [
    "lot: accepted lot,",
    "lot: lot with several grounds,",
    "lot: changed lot,",
    "lot: lot of any bytes,",
];

/// What happens in the cases; panics if something never does.
fn covered(cases: &Cases) -> Counts {
    let mut counts = Counts::default();
    for Case { kind, sheet, plan, .. } in &cases.cases {
        kind.note(sheet, plan, &mut counts);
    }
    // Number 13 and other lengths of the result buffer, which printing does not have, overshoots, which
    // are not printed, and results of a look-up and lots that are too large for the program are left to
    // the differential test. So is where results and lots come from, which is not noted here.
    let elsewhere = |name: &str| {
        name.ends_with("number 13")
            || name.contains("buffer")
            || name == "lookup: more than 65,536 bytes"
            || name.starts_with("lookup:") && name.contains("results")
            || name.starts_with("lot:") && name.ends_with("65572 bytes")
            || MADE.iter().any(|made| name.starts_with(made))
    };
    let missing: Vec<&str> = counts.missing().filter(|name| !elsewhere(name)).collect();
    assert!(missing.is_empty(), "no case has this: {missing:#?}");
    counts
}

fn main() {
    let arguments: Vec<String> = std::env::args().skip(1).collect();
    let (cases, groups) = all();
    match &arguments[..] {
        [option, number] if ["--sheet", "--plan", "--code"].contains(&&option[..]) => {
            let place = number.parse::<usize>().ok().and_then(|number| number.checked_sub(1));
            let Some(Case { kind, name, sheet, plan }) =
                place.and_then(|place| cases.cases.get(place))
            else {
                eprintln!("cases: the cases are numbered from 1 to {}", cases.cases.len());
                std::process::exit(2);
            };
            let code =
                if let Kind::Lookup(code) = kind { format!("{code}\n") } else { String::new() };
            let bytes = match &option[..] {
                "--sheet" => sheet,
                "--plan" => plan,
                _ => code.as_bytes(),
            };
            eprintln!("case {number}: {name}, {} bytes", bytes.len());
            std::io::stdout().write_all(bytes).expect("cannot write the bytes");
        }
        [folder] => {
            let counts = covered(&cases);
            let (mut stdin, mut stdout) = (Vec::new(), String::new());
            for (place, Case { kind, name, sheet, plan }) in cases.cases.iter().enumerate() {
                assert!(sheet.len().max(plan.len()) <= ROOM, "{name}");
                stdin.push(kind.byte());
                stdin.extend((sheet.len() as u32).to_be_bytes());
                stdin.extend(sheet);
                match kind {
                    Kind::Tally | Kind::Mold | Kind::Lot => {}
                    Kind::Regrading => {
                        stdin.extend((plan.len() as u32).to_be_bytes());
                        stdin.extend(plan);
                    }
                    Kind::Lookup(code) => stdin.extend(code.to_be_bytes()),
                }
                stdout += &format!("case {}\n{}", place + 1, kind.print(sheet, plan));
            }
            assert!(stdin.len() < MOST_BYTES, "{} bytes of sheets", stdin.len());
            for (name, content) in [("stdin", &stdin[..]), ("stdout", stdout.as_bytes())] {
                let file = std::path::Path::new(folder).join(name);
                std::fs::write(&file, content)
                    .unwrap_or_else(|error| panic!("{}: {error}", file.display()));
            }
            for (group, number) in groups {
                eprintln!("{number:>6}  {group}");
            }
            let accepted = |kind: &str| counts.0[&format!("{kind}number 00")];
            let found = accepted("lookup: ");
            let accepted = ["", "mold: ", "regrading: ", "lot: "].map(accepted);
            let accepted: usize = accepted.iter().sum();
            eprintln!(
                "cases: {} cases, {accepted} accepted, {found} found, {} bytes of sheets, {} lines \
                 expected",
                cases.cases.len(),
                stdin.len(),
                stdout.lines().count()
            );
        }
        _ => {
            eprintln!("usage: cases FOLDER, or cases --sheet NUMBER, or --plan, or --code");
            std::process::exit(2);
        }
    }
}
