//! Prints each category of a member, indented by its depth, and the cells under each leaf.
//!
//!     cargo run --example categories -- ../../examples/spine_18.bin

use std::env;
use std::error::Error;
use std::fs;

use digarumbi::{read_member, Cell, Node, NodeKind, Refusal, Table};

fn main() -> Result<(), Box<dyn Error>> {
    let path = env::args().nth(1).ok_or("usage: categories FILE")?;
    let member = fs::read(path)?;
    let table = read_member(&member)?;
    for dimension in 0..table.dimensions.len() {
        print_dimension(&table, dimension)?;
    }
    Ok(())
}

fn print_dimension(table: &Table, number: usize) -> Result<(), Refusal> {
    let dimension = &table.dimensions[number];
    println!("dimension {number}: {} (n = {})", dimension.name()?, dimension.n);
    table.top(number).try_for_each(|node| print_node(table, &table.nodes[node], 1))
}

fn print_node(table: &Table, node: &Node, depth: usize) -> Result<(), Refusal> {
    let indent = "  ".repeat(depth);
    let name = node.name()?;
    match node.kind {
        NodeKind::Group { children } => {
            println!("{indent}{name} (group of {children})");
            let mut children = table.children(node);
            children.try_for_each(|child| print_node(table, &table.nodes[child], depth + 1))
        }
        NodeKind::Leaf { index } => {
            println!("{indent}{name} (leaf {index} of dimension {})", node.dimension);
            let mut cells = table.cells_under(node.dimension, index);
            cells.try_for_each(|cell| print_cell(table, cell, &indent))
        }
    }
}

fn print_cell(table: &Table, cell: &Cell, indent: &str) -> Result<(), Refusal> {
    let coordinates = table.coordinates(cell);
    println!("{indent}  cell {} at {coordinates:?}: {}", cell.index, cell.value()?);
    Ok(())
}
