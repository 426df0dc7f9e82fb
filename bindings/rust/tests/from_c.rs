//! The boundary as programs in C and C++ see it: each in this folder is compiled against
//! include/hatmuyon.h, linked with the archive and run.

use hatmuyon::ffi::{self, Answer, LotAnswer, Part};
use hatmuyon::{Grade, Ground, LookupGround, LotGround, MoldGround, Standing};
use std::collections::{BTreeMap, BTreeSet};
use std::mem::{align_of, offset_of, size_of};
use std::path::Path;
use std::process::Command;

const HEADER: &str = include_str!("../../../include/hatmuyon.h");
const LAYOUT: &str = include_str!("layout.c");
const FFI: &str = include_str!("../src/ffi.rs");

/// What a program of this folder prints, compiled by a compiler with this standard of its language.
fn printed_by(source: &str, compiler: &str, standard: &str, arguments: &[String]) -> String {
    let manifest = Path::new(env!("CARGO_MANIFEST_DIR"));
    let program = Path::new(env!("CARGO_TARGET_TMPDIR")).join(format!("{source}.{standard}"));
    let language = if compiler == "c++" { "c++" } else { "c" };
    let compiled = Command::new(compiler)
        .arg(format!("-std={standard}"))
        .args(["-Wall", "-Wextra", "-Werror", "-pedantic", "-pthread", "-I"])
        .arg(manifest.join("../../include"))
        .args(["-x", language])
        .arg(manifest.join("tests").join(source))
        .args(["-x", "none", env!("HATMUYON_ARCHIVE"), "-o"])
        .arg(&program)
        .status()
        .unwrap_or_else(|error| panic!("cannot run {compiler}: {error}"));
    assert!(compiled.success(), "{compiler} refuses {source}");
    let output = Command::new(&program)
        .args(arguments)
        .current_dir(manifest)
        .output()
        .unwrap_or_else(|error| panic!("cannot run {}: {error}", program.display()));
    let text = String::from_utf8(output.stdout).expect("not text");
    assert!(output.status.success(), "{source} as {standard}: {}, {text}", output.status);
    text
}

/// The structs, the numbers and the version of this crate are those of the header, of which layout.c
/// prints names and values.
#[test]
fn same_as_in_c() {
    let mut here: BTreeMap<String, String> = [
        ("version major", env!("CARGO_PKG_VERSION_MAJOR")),
        ("version minor", env!("CARGO_PKG_VERSION_MINOR")),
        ("version patch", env!("CARGO_PKG_VERSION_PATCH")),
        ("version", hatmuyon::VERSION),
    ]
    .map(|(name, value)| (name.to_string(), value.to_string()))
    .into();
    let mut put = |name: &str, value: usize| here.insert(name.to_string(), value.to_string());
    put("answer size", size_of::<Answer>());
    put("answer alignment", align_of::<Answer>());
    put("number offset", offset_of!(Answer, number));
    put("number size", size_of::<u32>());
    put("units offset", offset_of!(Answer, units));
    put("units size", size_of::<usize>());
    put("offset offset", offset_of!(Answer, offset));
    put("offset size", size_of::<usize>());
    put("part size", size_of::<Part>());
    put("part alignment", align_of::<Part>());
    put("part number offset", offset_of!(Part, number));
    put("part number size", size_of::<u32>());
    put("part offset offset", offset_of!(Part, offset));
    put("part offset size", size_of::<usize>());
    put("part length offset", offset_of!(Part, length));
    put("part length size", size_of::<usize>());
    put("lot answer size", size_of::<LotAnswer>());
    put("lot answer alignment", align_of::<LotAnswer>());
    put("lot number offset", offset_of!(LotAnswer, number));
    put("lot number size", size_of::<u32>());
    put("lot grade offset", offset_of!(LotAnswer, grade));
    put("lot grade size", size_of::<u8>());
    put("lot offset offset", offset_of!(LotAnswer, offset));
    put("lot offset size", size_of::<usize>());
    put("plan mark", hatmuyon::PLAN_MARK.into());
    put("unit mark", hatmuyon::UNIT_MARK.into());
    put("redesignation mark", hatmuyon::REDESIGNATION_MARK.into());
    put("break mark", hatmuyon::BREAK_MARK.into());
    put("result mark", hatmuyon::RESULT_MARK.into());
    put("plan size", hatmuyon::PLAN_SIZE);
    put("unit size", hatmuyon::UNIT_SIZE);
    put("redesignation size", hatmuyon::REDESIGNATION_SIZE);
    put("break size", hatmuyon::BREAK_SIZE);
    put("result size", hatmuyon::RESULT_SIZE);
    put("mold sheet mark", hatmuyon::MOLD_SHEET_MARK.into());
    put("mold unit mark", hatmuyon::MOLD_UNIT_MARK.into());
    put("mold result mark", hatmuyon::MOLD_RESULT_MARK.into());
    put("mold opening size", hatmuyon::MOLD_OPENING_SIZE);
    put("mold unit size", hatmuyon::MOLD_UNIT_SIZE);
    put("mold result size", hatmuyon::MOLD_RESULT_SIZE);
    put("lot mark", hatmuyon::LOT_MARK.into());
    put("lot size", hatmuyon::LOT_SIZE);
    put("most units", hatmuyon::MOST_UNITS);
    put("largest count", hatmuyon::LARGEST_COUNT.into());
    put("largest plan number", hatmuyon::LARGEST_PLAN_NUMBER.into());
    put("mold levels", hatmuyon::MOLD_LEVELS.into());
    put("most positive fields", hatmuyon::MOST_POSITIVE_FIELDS.into());
    put("stack size", ffi::STACK_SIZE);
    put("code at", ffi::RESULT_CODE);
    put("portion grade at", ffi::RESULT_PORTION_GRADE);
    put("code grade at", ffi::RESULT_CODE_GRADE);
    put("plan grade at", ffi::RESULT_PLAN_GRADE);
    put("standing at", ffi::RESULT_STANDING);
    put("critical at", ffi::RESULT_CRITICAL);
    put("severe at", ffi::RESULT_SEVERE);
    put("major at", ffi::RESULT_MAJOR);
    put("total at", ffi::RESULT_TOTAL);
    put("critical overshoot at", ffi::RESULT_CRITICAL_OVERSHOOT);
    put("severe overshoot at", ffi::RESULT_SEVERE_OVERSHOOT);
    put("major overshoot at", ffi::RESULT_MAJOR_OVERSHOOT);
    put("total overshoot at", ffi::RESULT_TOTAL_OVERSHOOT);
    put("mold met at", ffi::MOLD_RESULT_MET);
    put("mold cusum at", ffi::MOLD_RESULT_CUSUM);
    for grade in [Grade::A, Grade::B, Grade::C, Grade::Substandard] {
        put(&format!("{grade:?}"), grade as usize);
    }
    for standing in [Standing::Met, Standing::Failed, Standing::InStepThree, Standing::Recovered] {
        put(&format!("{standing:?}"), standing as usize);
    }
    put("accepted", 0);
    for ground in Ground::ALL {
        put(&format!("{ground:?}"), ground.number() as usize);
    }
    for ground in MoldGround::ALL {
        put(&format!("mold {ground:?}"), ground.number() as usize);
    }
    put("found", ffi::FOUND as usize);
    put("not on this sheet", ffi::NOT_ON_THIS_SHEET as usize);
    for ground in LookupGround::ALL {
        put(&format!("look-up {ground:?}"), ground.number() as usize);
    }
    for ground in LotGround::ALL {
        put(&format!("lot {ground:?}"), ground.number() as usize);
    }

    let text = printed_by("layout.c", "cc", "c99", &[]);
    let in_c: BTreeMap<String, String> = text
        .lines()
        .map(|line| line.rsplit_once(' ').expect("no value"))
        .map(|(name, value)| (name.to_string(), value.to_string()))
        .collect();
    assert_eq!(in_c, here);
}

/// No name of the header is left out of the comparison.
#[test]
fn every_name_is_compared() {
    fn names(text: &str) -> BTreeSet<&str> {
        text.split(|c: char| !(c.is_ascii_alphanumeric() || c == '_'))
            .filter(|word| word.starts_with("HATMUYON_") && *word != "HATMUYON_H")
            .collect()
    }
    assert_eq!(names(LAYOUT), names(HEADER));
}

/// Functions and their parameters, each with its type, by the words between two marks of a
/// declaration. `read` takes a parameter apart.
fn declarations<'t>(
    text: &'t str,
    (before, after): (&str, &str),
    read: impl Fn(&'t str) -> (&'t str, &'t str),
) -> BTreeMap<&'t str, Vec<(&'t str, &'t str)>> {
    text.split(before)
        .skip(1)
        .filter_map(|rest| rest.split_once(after))
        .filter_map(|(declaration, _)| declaration.split_once('('))
        // Not the definition of a struct, and what comes behind it.
        .filter(|(name, _)| !name.contains(' '))
        .map(|(name, parameters)| {
            let parameters = parameters.split(',').map(str::trim).filter(|word| !word.is_empty());
            (name, parameters.map(&read).collect())
        })
        .collect()
}

/// The functions are declared here as in the header.
#[test]
fn same_declarations_as_in_c() {
    let same = |in_c: &str, here: &str, expected: &[&str]| {
        let in_c = declarations(HEADER, (in_c, ");"), |parameter| {
            let at = parameter.rfind([' ', '*']).expect("no type") + 1;
            let (c_type, name) = parameter.split_at(at);
            let rust_type = match c_type.trim_end() {
                "const uint8_t *" => "*const u8",
                "uint8_t *" => "*mut u8",
                "size_t" => "usize",
                "uint16_t" => "u16",
                other => panic!("the type {other}"),
            };
            (name, rust_type)
        });
        let here = declarations(FFI, ("\n    pub fn ", here), |parameter| {
            parameter.split_once(": ").expect("no type")
        });
        assert_eq!(in_c, here);
        let names: Vec<&str> = in_c.into_keys().collect();
        assert_eq!(names, expected);
    };
    same(
        "\nstruct hatmuyon_answer ",
        ") -> Answer;",
        &["hatmuyon_grade", "hatmuyon_grade_mold", "hatmuyon_regrade"],
    );
    same("\nstruct hatmuyon_part ", ") -> Part;", &["hatmuyon_find_code"]);
    same("\nstruct hatmuyon_lot_answer ", ") -> LotAnswer;", &["hatmuyon_grade_lot"]);
}

#[test]
fn null_pointers_in_c() {
    assert_eq!(printed_by("nullable.c", "cc", "c99", &[]), "");
}

#[test]
fn empty_vectors_in_cpp() {
    assert_eq!(printed_by("nullable.c", "c++", "c++11", &[]), "");
}

/// A look-up and the grading of a lot read no byte too many, and write none.
#[test]
fn reading_in_c() {
    assert_eq!(printed_by("reading.c", "cc", "c99", &[]), "");
}

#[test]
fn stack_at_most_that_of_the_header() {
    let [plan, sheets @ ..] = [
        "buyer.plan",
        "buyer.sheet",
        "peach.sheet",
        "pea.sheet",
        "damaged.sheet",
        "tomato.mold",
        "warehouse.lot",
    ]
    .map(|name| format!("../../examples/{name}"));
    let text = printed_by("stack.c", "cc", "c99", &[vec![plan], sheets.to_vec()].concat());
    let used: Vec<usize> = text.lines().map(|line| line.parse().expect("not a number")).collect();
    assert_eq!(used.len(), 5 * sheets.len());
    assert!(used.iter().all(|&used| used <= ffi::STACK_SIZE), "{used:?} bytes of stack");
}
