//! Writes generated inputs and their expected lines.
//! Usage: generate (members|looks) OUTDIR FIRST_SEED COUNT
//! Each seed gives an accepted input and a damaged copy of it.

use std::{env, fs, path::Path};

use digarumbi_bench::damage::damaged;
use digarumbi_bench::generate::{look_bytes, member};
use digarumbi_bench::line::{line, look_line, read};
use digarumbi_bench::random::Random;

const USAGE: &str = "usage: generate (members|looks) OUTDIR FIRST_SEED COUNT";

/// How inputs of one kind are made, and the line expected for them.
struct Kind {
    letter: char,
    extension: &'static str,
    input: fn(&mut Random) -> Vec<u8>,
    line: fn(&[u8]) -> String,
}

const MEMBERS: Kind = Kind {
    letter: 'm',
    extension: "bin",
    input: |random| member(random).bytes,
    line: |bytes| line(&read(bytes).answer),
};

const LOOKS: Kind = Kind { letter: 'l', extension: "tlo", input: look_bytes, line: look_line };

fn main() -> std::io::Result<()> {
    let arguments: Vec<String> = env::args().skip(1).collect();
    let [kind, directory, first_seed, count] = arguments.as_slice() else { panic!("{USAGE}") };
    let kind = match kind.as_str() {
        "members" => MEMBERS,
        "looks" => LOOKS,
        _ => panic!("{USAGE}"),
    };
    let first_seed: u64 = first_seed.parse().expect(USAGE);
    let count: u64 = count.parse().expect(USAGE);
    write_inputs(&kind, Path::new(directory), first_seed..first_seed + count)
}

fn write_inputs(kind: &Kind, directory: &Path, seeds: std::ops::Range<u64>) -> std::io::Result<()> {
    fs::create_dir_all(directory)?;
    let mut expected = String::new();
    for seed in seeds {
        let mut random = Random::new(seed);
        let accepted = (kind.input)(&mut random);
        let damaged = damaged(&accepted, &mut random);
        for (suffix, bytes) in [("accepted", accepted), ("damaged", damaged)] {
            let name = format!("{}{seed:06}_{suffix}.{}", kind.letter, kind.extension);
            fs::write(directory.join(&name), &bytes)?;
            expected.push_str(&format!("{name} {}\n", (kind.line)(&bytes)));
        }
    }
    fs::write(directory.join("expected.txt"), expected)
}
