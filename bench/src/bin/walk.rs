//! Prints for each file its name and the places after its sections.

use std::{env, fs, path::Path};

use digarumbi_bench::line::section_line;

fn main() -> std::io::Result<()> {
    for path in env::args().skip(1) {
        let member = fs::read(&path)?;
        let name = Path::new(&path).file_name().unwrap_or_default().to_string_lossy();
        println!("{name} {}", section_line(&member));
    }
    Ok(())
}
