//! Prints for each file its name and the line of the test program;
//! with --records also the records of each accepted member, with --names the names of its nodes.

use std::{env, fs, path::Path};

use digarumbi_bench::line::{line, name_lines, read, record_lines};

fn main() -> std::io::Result<()> {
    let (options, paths): (Vec<String>, Vec<String>) =
        env::args().skip(1).partition(|argument| argument.starts_with("--"));
    for path in paths {
        let member = fs::read(&path)?;
        let reading = read(&member);
        let name = Path::new(&path).file_name().unwrap_or_default().to_string_lossy();
        println!("{name} {}", line(&reading.answer));
        for option in &options {
            let lines = match option.as_str() {
                "--records" => record_lines(&reading),
                "--names" => name_lines(&member, &reading),
                _ => return Err(std::io::Error::other(format!("no option {option}"))),
            };
            lines.iter().for_each(|line| println!("{line}"));
        }
    }
    Ok(())
}
