//! Prints for each look its name and the version of its file or its refusal; with --rewritten, for one
//! look, the file that it is rewritten as, or its refusal.
//! Usage: look [--rewritten] FILE...

use std::io::{self, Write};
use std::{env, fs, path::Path};

use digarumbi_bench::line::{look_line, rewritten_look};

fn main() -> io::Result<()> {
    let mut paths: Vec<String> = env::args().skip(1).collect();
    if paths.first().is_some_and(|option| option == "--rewritten") {
        let files = paths.drain(1..).map(fs::read).collect::<io::Result<Vec<_>>>()?;
        return files.iter().try_for_each(|file| io::stdout().write_all(&rewritten_look(file)));
    }
    for path in paths {
        let look = fs::read(&path)?;
        let name = Path::new(&path).file_name().unwrap_or_default().to_string_lossy();
        println!("{name} {}", look_line(&look));
    }
    Ok(())
}
