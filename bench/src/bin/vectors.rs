//! Writes the small members, their expected lines and the places after their sections.
//! Usage: vectors OUTDIR [--all]; without --all only the small set.

use std::{env, fs, path::Path};

use digarumbi_bench::line::section_line;
use digarumbi_bench::vectors::cases;

fn main() -> std::io::Result<()> {
    let (options, arguments): (Vec<String>, Vec<String>) =
        env::args().skip(1).partition(|argument| argument == "--all");
    let directory = Path::new(arguments.first().expect("usage: vectors OUTDIR [--all]"));
    fs::create_dir_all(directory)?;
    let (mut expected, mut sections) = (String::new(), String::new());
    for case in cases().iter().filter(|case| case.small_set || !options.is_empty()) {
        fs::write(directory.join(&case.name), &case.bytes)?;
        expected.push_str(&format!("{} {}\n", case.name, case.line));
        sections.push_str(&format!("{} {}\n", case.name, section_line(&case.bytes)));
    }
    fs::write(directory.join("expected.txt"), expected)?;
    fs::write(directory.join("sections.txt"), sections)
}
