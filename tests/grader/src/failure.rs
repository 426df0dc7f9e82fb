//! How a test program ends that found a fault.

/// Says what is wrong, writes the sheet to a file and says how to see what a printing program and the
/// grader print for it.
pub fn end(what: &str, file: &str, sheet: &[u8], program: &str) -> ! {
    let path = write(what, file, sheet);
    println!("  see both: {program} < {path}");
    println!("            {} < {path}", grader());
    std::process::exit(1);
}

/// As [`end`], for a mold sheet: says how to see what the grader prints for it.
pub fn end_mold(what: &str, file: &str, sheet: &[u8]) -> ! {
    let path = write(what, file, sheet);
    println!("  see it: {} -- --mold < {path}", grader());
    std::process::exit(1);
}

fn write(what: &str, file: &str, sheet: &[u8]) -> String {
    let path = std::env::temp_dir().join(file);
    std::fs::write(&path, sheet).expect("cannot write the sheet");
    println!("{what}\n  the sheet: {}", path.display());
    path.display().to_string()
}

fn grader() -> String {
    let manifest = concat!(env!("CARGO_MANIFEST_DIR"), "/Cargo.toml");
    format!("cargo run -q --release --offline --manifest-path {manifest}")
}
