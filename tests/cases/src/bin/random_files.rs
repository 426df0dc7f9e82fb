//! Random files through a printing program, against the independent grader.
//!
//! `random_files PROGRAM [FILES [SEED]]` makes files of up to 70,000 bytes, runs PROGRAM with each on
//! standard input, and compares what it prints with what the grader prints. A signal, an exit status
//! other than 0 or a difference fails: the file is written and named, with the commands to see both.

use grader::failure;
use grader::generate::{self, seed_of, Counts, Dice};
use grader::sheet::Record;
use std::io::Write;
use std::process::{Command, Output, Stdio};
use std::sync::atomic::{AtomicU64, Ordering::Relaxed};

/// "Input above 65,536 bytes is number 15".
const MOST: usize = 65_536;
const LONGEST: usize = 70_000;
const BREAK: [u8; 2] = [0x42, 0x4B];

fn random_bytes(dice: &mut Dice) -> Vec<u8> {
    let most = dice.pick(&[100, 200, 5_000, LONGEST]);
    (0..dice.below(most + 1)).map(|_| dice.below(256) as u8).collect()
}

/// A valid sheet of exactly this length: breaks at one place between records, and a redesignation at
/// the end if breaks alone do not make it.
fn stretched(dice: &mut Dice, length: usize) -> Vec<u8> {
    let mut draft = generate::draft(dice, true, false);
    draft.fill(1);
    if (length - draft.bytes().len()) % 2 == 1 {
        let designated = draft.designated_before(draft.records.len());
        draft.records.push(Record::Redesignation((designated + 1) % 3));
    }
    let mut sheet = draft.bytes();
    let at = draft.offset(dice.below(draft.records.len() + 1));
    let breaks = (length - sheet.len()) / 2;
    sheet.splice(at..at, BREAK.repeat(breaks));
    sheet
}

/// The file of this seed and its kind.
fn file(seed: u64) -> (&'static str, Vec<u8>) {
    let dice = &mut Dice(seed);
    match dice.below(100) {
        0..=14 => ("random bytes", random_bytes(dice)),
        15..=19 => {
            let plan = generate::expecting(dice, 0).sheet[..75].to_vec();
            ("a plan and random bytes", [plan, random_bytes(dice)].concat())
        }
        20..=49 => ("valid", generate::expecting(dice, 0).sheet),
        50..=69 => {
            let number = dice.between(1, 12) as u32;
            ("damaged", generate::expecting(dice, number).sheet)
        }
        70..=81 => ("several damages", generate::messy(dice).sheet),
        82..=84 => {
            // Refused at a record that stands far behind.
            let number = dice.between(6, 12) as u32;
            let mut sheet = generate::expecting(dice, number).sheet;
            let breaks = (MOST + 20 - sheet.len()) / 2 - dice.below(40);
            sheet.splice(75..75, BREAK.repeat(breaks));
            ("damaged, with breaks up to about 65,536 bytes", sheet)
        }
        85..=90 => {
            let length = dice.between(60_000, LONGEST as i64) as usize;
            ("valid, with breaks up to 60,000 to 70,000 bytes", stretched(dice, length))
        }
        91..=93 => {
            let mut sheet = stretched(dice, MOST);
            let at = sheet.len() - 1 - dice.below(40);
            sheet[at] = dice.below(256) as u8;
            ("65,536 bytes, one of the last 40 changed", sheet)
        }
        _ => match dice.below(3) {
            0 => ("exactly 65,535 bytes", stretched(dice, MOST - 1)),
            1 => ("exactly 65,536 bytes", stretched(dice, MOST)),
            _ => ("exactly 65,537 bytes", stretched(dice, MOST + 1)),
        },
    }
}

/// Runs the program with the file on standard input, through pipes.
fn run(program: &str, file: &[u8]) -> Output {
    let mut command = Command::new(program);
    command.stdin(Stdio::piped()).stdout(Stdio::piped()).stderr(Stdio::piped());
    let mut child = command.spawn().unwrap_or_else(|error| {
        println!("random_files: cannot run {program}: {error}");
        std::process::exit(2);
    });
    let mut stdin = child.stdin.take().expect("a pipe");
    std::thread::scope(|scope| {
        // A program may end before it has read all; that is judged by what it printed.
        scope.spawn(move || drop(stdin.write_all(file)));
        child.wait_with_output().expect("cannot read what the program prints")
    })
}

/// What is wrong with the output, if anything.
fn fault(output: &Output, expected: &str) -> Option<String> {
    if !output.status.success() {
        let complaint = String::from_utf8_lossy(&output.stderr);
        return Some(format!("ended with {}: {}", output.status, complaint.trim_end()));
    }
    if output.stdout == expected.as_bytes() {
        return None;
    }
    // Split and not lines, so that a missing newline at the end shows.
    let printed = String::from_utf8_lossy(&output.stdout);
    let pairs = printed.split('\n').zip(expected.split('\n'));
    let same = pairs.take_while(|(ours, theirs)| ours == theirs).count();
    let line = |text: &str| {
        text.split('\n').nth(same).map_or("no line".into(), |line| format!("{line:?}"))
    };
    Some(format!("line {} differs: {}, grader {}", same + 1, line(&printed), line(expected)))
}

/// Zero for each kind of file and each answer that must come up.
fn names() -> Counts {
    let numbers = (0..=12).chain([15]).map(|number| format!("number {number:02}"));
    let kinds = ["65,536 bytes accepted", "refused at an offset above 65,000", "1,000 lines"];
    Counts(numbers.chain(kinds.map(String::from)).map(|name| (name, 0)).collect())
}

fn note(counts: &mut Counts, kind: &str, file: &[u8], expected: &str) {
    let mut add = |name: &str| counts.add(name, 1);
    add(&format!("file: {kind}"));
    let refusal: Option<Vec<usize>> = expected.strip_prefix("refused ").map(|words| {
        words.split_whitespace().map(|word| word.parse().expect("a number")).collect()
    });
    add(&format!("number {:02}", refusal.as_ref().map_or(0, |refusal| refusal[0])));
    match refusal {
        Some(refusal) if (65_001..MOST).contains(&refusal[1]) => {
            add("refused at an offset above 65,000");
        }
        None if file.len() == MOST => add("65,536 bytes accepted"),
        None if expected.lines().count() == 1_000 => add("1,000 lines"),
        _ => {}
    }
}

fn main() {
    let arguments: Vec<String> = std::env::args().skip(1).collect();
    let Some(program) = arguments.first() else {
        eprintln!("usage: random_files PROGRAM [FILES [SEED]]");
        std::process::exit(2);
    };
    let number = |place: usize, otherwise: u64| {
        arguments.get(place).map_or(otherwise, |word| word.parse().expect("a number"))
    };
    let (files, seed) = (number(1, 10_000), number(2, 19_780_801));
    let start = std::time::Instant::now();
    // The first file at fault, so that all workers stop there.
    let first_fault = AtomicU64::new(files);
    let workers = std::thread::available_parallelism().map_or(1, usize::from) as u64;
    let work = |worker: u64| {
        let (mut counts, mut bytes) = (names(), 0);
        for index in (worker..files).step_by(workers as usize) {
            if index >= first_fault.load(Relaxed) {
                break;
            }
            let (kind, file) = file(seed_of(seed, index));
            let expected = grader::print(&file);
            note(&mut counts, kind, &file, &expected);
            bytes += file.len();
            if fault(&run(program, &file), &expected).is_some() {
                first_fault.fetch_min(index, Relaxed);
            }
        }
        (counts, bytes)
    };
    let (mut counts, mut bytes) = (names(), 0);
    std::thread::scope(|scope| {
        let threads: Vec<_> =
            (0..workers).map(|worker| scope.spawn(move || work(worker))).collect();
        for thread in threads {
            let (more, more_bytes) = thread.join().expect("a worker");
            more.0.iter().for_each(|(name, &times)| counts.add(name, times));
            bytes += more_bytes;
        }
    });
    let at_fault = first_fault.into_inner();
    if at_fault < files {
        report(program, seed_of(seed, at_fault));
    }
    print!("{counts}");
    // A short run need not have everything.
    if let Some(name) = counts.missing().find(|_| files >= 10_000) {
        println!("random_files: no file has: {name}");
        std::process::exit(1);
    }
    let seconds = start.elapsed().as_secs_f64();
    println!("random_files: {files} files of {bytes} bytes agree, seed {seed}, {seconds:.1} s");
}

/// Runs the program once more on the file of this seed, writes the file and says what is wrong.
fn report(program: &str, seed: u64) -> ! {
    let (kind, file) = file(seed);
    let what = fault(&run(program, &file), &grader::print(&file))
        .unwrap_or("was at fault at first, and not when run once more".into());
    let what = format!("random_files: {program} {what}\n  {kind}, {} bytes", file.len());
    failure::end(&what, &format!("hatmuyon-random-{seed}.sheet"), &file, program)
}
