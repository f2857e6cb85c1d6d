//! The stored input of `values_main`, or what it prints for it.
//!
//! Usage: values (input|output)

use std::env;
use std::io::{self, Write};

use digarumbi_bench::stored_values::{input, output};

fn main() -> io::Result<()> {
    match env::args().nth(1).as_deref() {
        Some("input") => io::stdout().write_all(&input()),
        Some("output") => io::stdout().write_all(output().as_bytes()),
        _ => panic!("usage: values (input|output)"),
    }
}
