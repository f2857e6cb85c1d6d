//! The stored input of `cases_main`, or what it prints for it.
//!
//! Usage: streams (input|output)

use std::env;
use std::io::{self, Write};

use digarumbi_bench::stored_streams::{input, output};

fn main() -> io::Result<()> {
    match env::args().nth(1).as_deref() {
        Some("input") => io::stdout().write_all(&input()),
        Some("output") => io::stdout().write_all(output().as_bytes()),
        _ => panic!("usage: streams (input|output)"),
    }
}
