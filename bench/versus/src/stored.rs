//! Stored members and looks: real ones, and those of examples/.

use std::fs;
use std::path::Path;

/// The root of the repository.
const ROOT: &str = concat!(env!("CARGO_MANIFEST_DIR"), "/../..");
/// Folders with members, from the root; one that is not there has none.
const MEMBERS: [&str; 2] = ["examples", "crates/corpus_main/data"];

pub struct Stored {
    pub name: String,
    pub bytes: Vec<u8>,
}

/// The files of a folder with this extension, by name.
fn files(folder: &str, extension: &str) -> Vec<Stored> {
    let Ok(entries) = fs::read_dir(Path::new(ROOT).join(folder)) else { return Vec::new() };
    let mut paths: Vec<_> = entries.flatten().map(|entry| entry.path()).collect();
    paths.retain(|path| path.extension().is_some_and(|found| found == extension));
    paths.sort();
    let name = |path: &Path| path.file_name().unwrap_or_default().to_string_lossy().into_owned();
    let file = |path: &Path| Some(Stored { name: name(path), bytes: fs::read(path).ok()? });
    paths.iter().filter_map(|path| file(path)).collect()
}

/// All stored members, each once.
pub fn members() -> Vec<Stored> {
    let mut members: Vec<Stored> = MEMBERS.iter().flat_map(|folder| files(folder, "bin")).collect();
    members.sort_by(|a, b| (&a.bytes, &a.name).cmp(&(&b.bytes, &b.name)));
    members.dedup_by(|a, b| a.bytes == b.bytes);
    members.sort_by(|a, b| a.name.cmp(&b.name));
    members
}

/// Those members that a statistics package wrote; made ones are named by a letter and a number, or
/// by what was done to a real one.
pub fn real_members() -> Vec<Stored> {
    let numbered = |name: &str| name.as_bytes().get(1).is_some_and(u8::is_ascii_digit);
    let made = |name: &str| numbered(name) || name.ends_with("_repeated.bin");
    members().into_iter().filter(|member| !made(&member.name)).collect()
}

pub fn looks() -> Vec<Stored> {
    ["examples", "crates/looks_main/data"].iter().flat_map(|folder| files(folder, "tlo")).collect()
}
