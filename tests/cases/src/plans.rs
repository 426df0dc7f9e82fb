//! What the programs share that print tally sheets and regradings in bytes: plans that are written out.

use grader::generate::table;
use grader::sheet::Sheet;

/// By their places.
pub const GRADES: [&str; 4] = ["A", "B", "C", "S"];

/// S/T/L in tenths of critical, severe, major and total at A, B and C.
pub type Tenths = [[[i64; 3]; 4]; 3];

/// "S, T and L from 0 to 9,999": S and L are the largest, T is the largest that a count can equal.
const LARGEST: Tenths = [[[9_999, 9_990, 9_999]; 4]; 3];

pub fn plan_bytes(designated: u8, tenths: Tenths) -> Vec<u8> {
    Sheet { designated, table: table(tenths), records: Vec::new() }.bytes()
}

/// The plan with the largest S and L, designated A, which is printed as `largest_plan`.
pub fn largest() -> Vec<u8> {
    plan_bytes(0, LARGEST)
}

/// The bytes of a plan by name, a line for each class.
pub fn plan_lines(name: &str, bytes: &[u8]) -> String {
    let mut text = format!("unfoldable pub {name} : List ℕ\n{name} =\n");
    text += &format!("    0x{:02X} ∷ 0x{:02X} ∷ {}\n", bytes[0], bytes[1], bytes[2]);
    for (cell, numbers) in bytes[3..].chunks(6).enumerate() {
        if cell % 4 == 0 {
            text += &format!("    -- {}\n", GRADES[cell / 4]);
        }
        let decimal = |at: usize| {
            let tenths = u16::from_be_bytes([numbers[at], numbers[at + 1]]);
            match (tenths / 10, tenths % 10) {
                (whole, 0) => whole.to_string(),
                (whole, tenths) => format!("{whole}.{tenths}"),
            }
        };
        let elements = numbers.iter().map(u8::to_string).collect::<Vec<_>>().join(" ∷ ");
        text += &format!("    ∷ {elements}  -- {}\n", [0, 2, 4].map(decimal).join("/"));
    }
    text + "    ∷ []\n"
}
