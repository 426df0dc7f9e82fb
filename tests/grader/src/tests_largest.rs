//! The overfull CuSum (A.7 of paper 02): sheets with the largest CuSums by hand and at random, no CuSum
//! above its L whatever the counts, no number 14, and the other generators as they were before it.

use crate::generate::{self, any_case, counted, pair, table, Case, Counts, Dice, MOST_ROOM};
use crate::generate_largest::{largest_case, largest_plan, largest_regrade_case, LARGEST};
use crate::generate_largest::{note_largest, note_largest_case};
use crate::generate_largest::{note_largest_regrade_case, note_largest_regrading};
use crate::generate_lookup::lookup_case;
use crate::generate_mold::mold_case;
use crate::generate_regrade::{regrade_case, regrade_pair};
use crate::regrade::{read_second_plan, regrade, regrade_sheet, regrade_traced};
use crate::rules::{self, step, Graded, Row, Step, IN_STEP_3};
use crate::sheet::{Numbers, Record, Sheet, Table, Unit};
use crate::tests::{majors_sheet, recorded_overshoots, shorten};
use crate::{grade, grade_traced, lookup, mold, print_checked, RESULT_SIZE};

/// The CuSums of each unit, from the bytes recorded for them: "four CuSums (2 each, tenths"; "Numbers of
/// two bytes have the high byte first."
fn recorded_cusums(results: &[u8]) -> Vec<[i64; 4]> {
    let of_record = |record: &[u8]| {
        [8, 10, 12, 14].map(|at| u16::from_be_bytes([record[at], record[at + 1]]).into())
    };
    results.chunks_exact(RESULT_SIZE).map(of_record).collect()
}

/// Grades recoverable units of major defects, with the self check. Returns for each unit "portion code
/// standing plan", without spaces, and the CuSum.
fn majors(grades: [[i64; 3]; 3], script: &str) -> String {
    shorten(&print_checked(&majors_sheet(0, grades, script), true))
}

#[test]
fn largest_by_hand() {
    // S and L of 9,999, and nothing tolerated. No defect: every CuSum stays at L and meets. 2,000 of
    // each: raw values of 9,999 + 20,000 and of 9,999 + 80,000 in total, above two bytes; the CuSums
    // become L, 27 0F, and the unit is Substandard.
    let largest = table([[[LARGEST, 0, LARGEST]; 4]; 3]);
    let records = vec![counted(1, [0; 4]), counted(2, [2_000; 4])];
    let sheet = Sheet { designated: 0, table: largest, records }.bytes();
    let mut results = [0xA5; 2 * RESULT_SIZE];
    let (answer, _) = grade_traced(&sheet, &mut results, true);
    assert_eq!((answer.number, answer.units, answer.offset), (0, 2, 75 + 2 * 14));
    assert_eq!(results[8..16], [0x27, 0x0F, 0x27, 0x0F, 0x27, 0x0F, 0x27, 0x0F]);
    assert_eq!(recorded_cusums(&results), [[LARGEST; 4]; 2]);
    assert_eq!(recorded_overshoots(&results), [[0; 4], [20_000, 20_000, 20_000, 80_000]]);
    let lines = "1 1 A A m A 999.9 999.9 999.9 999.9\n2 2 S S f A 999.9 999.9 999.9 999.9\n";
    assert_eq!(print_checked(&sheet, true), lines);
    // The same regraded.
    let mut regraded = [0xA5; 2 * RESULT_SIZE];
    assert_eq!(regrade(&sheet, &sheet[..75], &mut regraded), answer);
    assert_eq!(regraded, results);
    // 31 bytes for the second unit.
    assert_eq!(grade(&sheet, &mut results[..63]).number, 13);
    // A T of one defect: 1 stays at L, 0 goes down by one, 1 stays there, 2 comes to exactly L, and one
    // more fails.
    let whole = [[LARGEST, 10, LARGEST]; 3];
    let met = "AAmA 999.9, AAmA 998.9, AAmA 998.9, AAmA 999.9";
    assert_eq!(majors(whole, "1 0 1 2"), met);
    assert_eq!(majors(whole, "1 0 1 3"), "AAmA 999.9, AAmA 998.9, AAmA 998.9, BBfA 999.9");
    // A tenth below L, and a tenth above it: 9,999 + 0 - 1 and 9,999 + 10 - 9.
    assert_eq!(majors([[LARGEST, 1, LARGEST]; 3], "0 0"), "AAmA 999.8, AAmA 999.7");
    assert_eq!(majors([[LARGEST, 9, LARGEST]; 3], "1"), "BBfA 999.9");
    // Into step 3 at B, where 2 stays at L and the 3s fail; further down to C, and out of step 3.
    let grades = [[LARGEST, 10, LARGEST], [LARGEST, 20, LARGEST], [0, 9_000, LARGEST]];
    let at_b = "BBfA 999.9, BBfA 999.9, BBuB 999.9, CCuB 999.9, CCuB 999.9";
    let at_c = "CCuC 99.0, AArC 0.0, AArC 0.0, AArC 0.0, AAmA 999.9";
    assert_eq!(majors(grades, "2 2 2 3 3 999 0 0 0 1"), format!("{at_b}, {at_c}"));
}

#[test]
fn cusums_are_not_cut() {
    let (table, records) = (accepted_plan(&mut Dice(0)), vec![counted(1, [0; 4])]);
    let row = rules::grade_sheet(&Sheet { designated: 0, table, records }).rows[0];
    let recorded = |class: usize, cusum: i64| {
        let mut changed = row;
        changed.cusums[class] = cusum;
        std::panic::catch_unwind(|| recorded_cusums(&changed.result())[0][class]).ok()
    };
    let unit = mold::Unit { code: 1, fields: 0 };
    let of_mold = |cusum: i64| {
        let row = mold::Row { unit, meets: true, cusum };
        std::panic::catch_unwind(|| row.result()[3..].to_vec()).ok()
    };
    for class in 0..4 {
        assert_eq!(recorded(class, 65_535), Some(65_535));
        assert_eq!([65_536, 75_535, -1].map(|cusum| recorded(class, cusum)), [None; 3]);
    }
    assert_eq!(of_mold(65_535), Some(vec![0xFF, 0xFF]));
    assert_eq!([65_536, 65_566, -1].map(of_mold), [None, None, None]);
}

#[test]
fn random_sheets() {
    let mut counts = Counts::default();
    for seed in 0..20_000 {
        let case = largest_case(seed);
        let mut results = vec![0xA5; case.room];
        let (answer, graded) = grade_traced(&case.sheet, &mut results, true);
        assert_eq!(Some((answer.number, answer.offset)), case.expected, "seed {seed}");
        hold(&results, answer.units, graded.as_ref());
        note_largest(&mut counts, answer.number, graded.as_ref());
        note_largest_case(&mut counts, &case, answer.number);
    }
    println!("{counts}");
    assert_eq!(counts.missing().next(), None);
}

#[test]
fn random_regradings() {
    let mut counts = Counts::default();
    for seed in 0..20_000 {
        let case = largest_regrade_case(seed);
        let mut results = vec![0xA5; case.room];
        let (answer, graded) = regrade_traced(&case.sheet, &case.plan, &mut results, true);
        assert_eq!(Some((answer.number, answer.offset)), case.expected, "seed {seed}");
        hold(&results, answer.units, graded.as_ref());
        note_largest_regrading(&mut counts, answer.number, graded.as_ref());
        note_largest_regrade_case(&mut counts, &case, answer.number);
    }
    println!("{counts}");
    assert_eq!(counts.missing().next(), None);
}

/// The result buffer: the CuSums are recorded as they are, none above its L, and no byte behind the
/// records is changed.
fn hold(results: &[u8], units: usize, graded: Option<&Graded>) {
    let (records, behind) = results.split_at(RESULT_SIZE * units);
    assert!(behind.iter().all(|&byte| byte == 0xA5));
    let cusums = graded.map_or(Vec::new(), cusums_within_limits);
    assert_eq!(recorded_cusums(records), cusums);
}

/// The CuSums of each unit, after a look at each: from zero to its L, so that two bytes hold it; zero
/// without a plan.
fn cusums_within_limits(graded: &Graded) -> Vec<[i64; 4]> {
    for (unit, row) in graded.rows.iter().enumerate() {
        for (class, cusum) in row.cusums.into_iter().enumerate() {
            let plan = graded.table.get(usize::from(row.plan));
            let limit = plan.map_or(0, |numbers| numbers[class].l);
            assert!((0..=limit).contains(&cusum), "unit {} class {class}: {cusum}", unit + 1);
            assert!(cusum <= u16::MAX.into(), "unit {} class {class}: {cusum}", unit + 1);
        }
    }
    graded.rows.iter().map(|row| row.cusums).collect()
}

/// Any plan that is accepted: T and T+L by grades no smaller than before, S up to its L.
fn accepted_plan(dice: &mut Dice) -> Table {
    let mut table = table([[[0; 3]; 4]; 3]);
    for class in 0..4 {
        let (mut t, mut limit) = (0, 0);
        for grade in &mut table {
            t = dice.between(t, LARGEST);
            let l = dice.between((limit - t).max(0), LARGEST);
            grade[class] = Numbers { s: dice.between(0, l), t, l };
            limit = t + l;
        }
    }
    table
}

/// A count from none up to far above what a sheet may hold.
fn any_count(dice: &mut Dice) -> i64 {
    let most = dice.pick(&[0, 0, 3, 100, 2_000, 10_000, 65_536, 1_000_000, 1_000_000_000_000]);
    dice.between(0, most)
}

/// "Show that no accepted plan and no counts lead to it": not by bytes, which hold no such counts, but
/// by the rules.
#[test]
fn no_accepted_plan_and_no_counts_lead_to_it() {
    let (mut units, mut failed, mut in_step_3, mut furthest_over) = (0, 0, 0, 0);
    for seed in 0..20_000 {
        let dice = &mut Dice(seed);
        let plans = [accepted_plan, largest_plan, generate::plan, generate::plan_in_steps];
        let [own, second] = [0, 1].map(|_| {
            let (designated, table) = (dice.below(3) as u8, plans[dice.below(4)](dice));
            let plan = Sheet { designated, table, records: Vec::new() };
            assert!(read_second_plan(&plan.bytes()).is_some(), "seed {seed}");
            plan
        });
        let mut sheet = own;
        for _ in 0..dice.between(1, 12) {
            sheet.records.push(Record::Unit(Unit {
                code: dice.below(4) as u16,
                counts: [0; 4].map(|_| any_count(dice)),
                prerequisite: 0,
                recoverable: true,
            }));
            generate::perhaps_parted(dice, &mut sheet, 8, true);
        }
        let regraded = regrade_sheet(&sheet, second.designated, &second.table);
        for graded in [rules::grade_sheet(&sheet), regraded] {
            let recorded: Vec<u8> = graded.rows.iter().flat_map(Row::result).collect();
            assert_eq!(recorded_cusums(&recorded), cusums_within_limits(&graded), "seed {seed}");
            units += graded.rows.len();
            failed += graded.rows.iter().filter(|row| row.fails()).count();
            in_step_3 += graded.rows.iter().filter(|row| row.standing >= IN_STEP_3).count();
            let overshoots = graded.rows.iter().flat_map(|row| row.overshoots);
            furthest_over = overshoots.fold(furthest_over, i64::max);
        }
        // One step, from any CuSum that there may be.
        let numbers = sheet.table[dice.below(3)][dice.below(4)];
        let any = dice.between(0, numbers.l);
        for old in [0, 1.min(numbers.l), numbers.s, any, numbers.l] {
            let Step { cusum, fails, .. } = step(old, 10 * any_count(dice), numbers);
            assert!((0..=numbers.l).contains(&cusum) && numbers.l <= LARGEST);
            assert!(!fails || cusum == numbers.l);
        }
    }
    println!("{units} units, {failed} failed, {in_step_3} in step 3, up to {furthest_over} over");
    assert!(failed > 50_000 && in_step_3 > 10_000 && furthest_over > 1_000_000_000_000);
}

/// Random bytes: any, or behind a right plan, or in a plan.
fn random_bytes(dice: &mut Dice) -> Vec<u8> {
    let most = dice.pick(&[4, 40, 256]);
    let mut bytes: Vec<u8> = (0..dice.below(200)).map(|_| dice.below(most) as u8).collect();
    let plan = Sheet { designated: 0, table: largest_plan(dice), records: Vec::new() }.bytes();
    match dice.below(3) {
        0 => {}
        1 => bytes = [plan, bytes].concat(),
        _ => bytes = [&[0x50, 0x4C, dice.below(3) as u8], &bytes[..]].concat(),
    }
    bytes
}

#[test]
fn number_14_is_not_used_again() {
    let mut numbers = std::collections::BTreeSet::new();
    let mut results = vec![0; MOST_ROOM];
    for seed in 0..4_000 {
        let [bytes, plan] = [seed, !seed].map(|seed| random_bytes(&mut Dice(seed)));
        let (first, second) = pair(seed);
        let mut sheets: Vec<(Vec<u8>, usize)> =
            [bytes.clone(), first, second].map(|sheet| (sheet, MOST_ROOM)).to_vec();
        for Case { sheet, room, .. } in [any_case(seed), largest_case(seed), mold_case(seed)] {
            sheets.push((sheet, room.min(MOST_ROOM)));
        }
        for (sheet, room) in sheets {
            numbers.insert(grade(&sheet, &mut results[..room]).number);
            numbers.insert(regrade(&sheet, &plan, &mut results[..room]).number);
            numbers.insert(mold::grade(&sheet, &mut results[..room]).number);
            numbers.insert(lookup::find(&sheet, seed as u16).0);
        }
        for case in [regrade_case(seed), largest_regrade_case(seed)] {
            let results = &mut results[..case.room.min(MOST_ROOM)];
            numbers.insert(regrade(&case.sheet, &case.plan, results).number);
            numbers.insert(regrade(&bytes, &case.plan, results).number);
        }
        let (first, second, plan) = regrade_pair(seed);
        numbers.insert(regrade(&first, &plan, &mut results).number);
        numbers.insert(regrade(&second, &plan, &mut results).number);
        let case = lookup_case(seed);
        numbers.insert(lookup::find(&case.results, case.code).0);
    }
    // All the others come up, but for 15, which is of printing alone.
    assert_eq!(numbers, (0..=13).chain(16..=19).collect());
}

/// A small hash (FNV-1a) of parts of bytes and of where they end.
struct Hash(u64);

impl Hash {
    fn part(&mut self, bytes: &[u8]) {
        for &byte in bytes.len().to_be_bytes().iter().chain(bytes) {
            self.0 = (self.0 ^ u64::from(byte)).wrapping_mul(0x0000_0100_0000_01B3);
        }
    }

    fn case(&mut self, Case { sheet, room, expected }: &Case) {
        self.part(sheet);
        self.part(format!("{room} {expected:?}").as_bytes());
    }
}

/// The stored cases depend on the generators. The hashes were computed before A.7.
#[test]
fn other_generators_are_as_they_were() {
    let hash = |add: &dyn Fn(&mut Hash, u64)| {
        let mut hash = Hash(0xCBF2_9CE4_8422_2325);
        (0..2_000).for_each(|seed| add(&mut hash, seed));
        hash.0
    };
    let hashes = [
        hash(&|hash, seed| hash.case(&generate::case(seed))),
        hash(&|hash, seed| hash.case(&generate::case_with_overshoots(seed))),
        hash(&|hash, seed| hash.case(&generate::case_with_lower_plans(seed))),
        hash(&|hash, seed| hash.case(&any_case(seed))),
        hash(&|hash, seed| {
            let (first, second) = pair(seed);
            [first, second].iter().for_each(|sheet| hash.part(sheet));
        }),
        hash(&|hash, seed| {
            let case = regrade_case(seed);
            hash.part(&case.plan);
            hash.case(&Case { sheet: case.sheet, room: case.room, expected: case.expected });
        }),
        hash(&|hash, seed| {
            let (first, second, plan) = regrade_pair(seed);
            [first, second, plan].iter().for_each(|sheet| hash.part(sheet));
        }),
        hash(&|hash, seed| hash.case(&mold_case(seed))),
        hash(&|hash, seed| {
            let case = lookup_case(seed);
            hash.part(&case.results);
            hash.part(format!("{} {:?}", case.code, case.expected).as_bytes());
        }),
    ];
    let before = [
        0x2D3B_5600_DE68_6652,
        0x3134_F352_C3D8_47D9,
        0xF4E1_7D2A_0597_8A90,
        0x1CFA_7DD2_70EC_8BF6,
        0x294B_3639_144C_843E,
        0x613A_E7C2_B479_D557,
        0x97AA_D4D3_452E_1224,
        0xF50E_1BAD_E98A_9CFD,
        0x0314_148D_9665_51D4,
    ];
    assert_eq!(hashes, before);
}
