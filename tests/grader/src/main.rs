//! Reads a sheet from standard input and prints its lines. `grader --check` also computes every
//! CuSum by the formula of demand 3, every overshoot by sums like those, finds every start of a lower
//! plan by the failures in a row, and panics if one differs. `grader --mold` takes a mold sheet, and
//! `grader --regrade PLANFILE` regrades the sheet under the plan record in that file; both also with
//! `--check`. `grader --find CODE`, the code in decimal, reads results from standard input and prints
//! what became of it. `grader --lot` reads a warehouse lot from standard input and prints its line;
//! with `--check` its answer is found in two ways.

use std::io::{Read, Write};

fn main() -> std::io::Result<()> {
    let arguments: Vec<String> = std::env::args().skip(1).collect();
    let place = |option: &str| arguments.iter().position(|argument| argument == option);
    let check = place("--check").is_some();
    let mut sheet = Vec::new();
    std::io::stdin().read_to_end(&mut sheet)?;
    let lines = if let Some(place) = place("--find") {
        let code = arguments.get(place + 1).and_then(|code| code.parse().ok());
        grader::lookup::print(&sheet, code.expect("--find needs a code from 0 to 65535"))
    } else if let Some(place) = place("--regrade") {
        let file = arguments.get(place + 1).expect("--regrade needs the file of a plan");
        grader::regrade::print_checked(&sheet, &std::fs::read(file)?, check)
    } else if place("--lot").is_some() {
        if check {
            grader::lot::check_lot(&sheet);
        }
        grader::lot::print(&sheet)
    } else if place("--mold").is_some() {
        grader::mold::print_checked(&sheet, check)
    } else {
        grader::print_checked(&sheet, check)
    };
    std::io::stdout().write_all(lines.as_bytes())
}
