//! The Gear table that the library's program prints: its stored output must be the model's table.

use crate::model::index::TABLE;
use std::fs;

/// Where the stored output is, from the repository's root.
const PRINTED: &str = "crates/gear_table/stdout";

/// Compares the stored output with the table: one entry per line.
pub fn run() -> Result<(), String> {
    let printed = fs::read_to_string(PRINTED).map_err(|fault| format!("{PRINTED}: {fault}"))?;
    let expected: Vec<String> = TABLE.iter().map(|entry| format!("{entry:08X}\n")).collect();
    let lines: Vec<&str> = printed.split_inclusive('\n').collect();
    if lines == expected {
        println!("printed table: {} entries", lines.len());
        return Ok(());
    }
    let same = lines.iter().zip(&expected).take_while(|(a, b)| a == b);
    Err(format!(
        "{PRINTED}: of {} lines the first {} are the table's.",
        lines.len(),
        same.count()
    ))
}
