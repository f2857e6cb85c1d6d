//! Prints the total of the cells under each leaf of each dimension of a member.
//!
//!     cargo run --example totals -- ../../examples/spine_1.bin

use std::env;
use std::error::Error;
use std::fs;

use digarumbi::{read_member, NodeKind, Refusal, Table, Total};

fn main() -> Result<(), Box<dyn Error>> {
    let path = env::args().nth(1).ok_or("usage: totals FILE")?;
    let member = fs::read(path)?;
    let table = read_member(&member)?;
    for dimension in 0..table.dimensions.len() {
        print_dimension(&table, dimension)?;
    }
    Ok(())
}

/// The leaves of a dimension in file order, each with its total.
fn print_dimension(table: &Table, number: usize) -> Result<(), Refusal> {
    println!("dimension {number}: {}", table.dimensions[number].name()?);
    let totals = table.totals(number)?;
    for node in table.categories(number) {
        if let NodeKind::Leaf { index } = node.kind {
            let total = describe(&totals[index as usize]);
            println!("  leaf {index}, {}: {total}", node.name()?);
        }
    }
    Ok(())
}

fn describe(total: &Result<Total, Refusal>) -> String {
    match total {
        Ok(Total { total, numbers, texts, missing, smallest, largest }) => format!(
            "{total} in {numbers} numbers from {smallest} to {largest}, {texts} texts, {missing} missing"
        ),
        Err(refusal) => refusal.to_string(),
    }
}
