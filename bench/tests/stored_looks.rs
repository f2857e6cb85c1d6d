//! The stored looks and the stored output of the program over looks.

use std::fs;

use digarumbi_bench::look::{read_look, write_look, Continuation, Look};
use digarumbi_bench::stored_looks::{stored_looks, with_defaults, StoredLook};

/// The root of the repository.
const ROOT: &str = concat!(env!("CARGO_MANIFEST_DIR"), "/..");

fn stored(path: &str) -> Vec<u8> {
    fs::read(format!("{ROOT}/{path}")).expect(path)
}

/// What the writer answers, as it is printed.
fn written(look: &Look, names: &[u8], output: usize) -> String {
    write_look(look, names, &mut vec![0; output])
        .map_or_else(|refusal| refusal.to_string(), |length| length.to_string())
}

/// The file that the writer makes of a look.
fn file_of(look: &Look, names: &[u8]) -> Vec<u8> {
    let mut out = vec![0; 4_000];
    let length = write_look(look, names, &mut out).expect("a look that can be written");
    out.truncate(length);
    out
}

/// How a file is rewritten: the same, or as another file, and how that one is.
fn rewritten(look: &Look, file: &[u8]) -> String {
    let new = file_of(look, file);
    if new == file {
        return "the same".to_string();
    }
    assert_eq!(new, with_defaults(file.to_vec()));
    let read = read_look(&new).expect("a written look");
    assert!(read.same(&new, look, file));
    let again = if file_of(&read, &new) == new { "the same" } else { "differently" };
    format!("as version {:02}, {} bytes, and that {again}", new[17], new.len())
}

/// What is printed for a look: for an accepted one also what the writer answers.
fn found_line(file: &[u8]) -> String {
    let look = match read_look(file) {
        Ok(look) => look,
        Err(refusal) => return refusal.to_string(),
    };
    let changed = |change: fn(&mut Look)| {
        let mut look = look;
        change(&mut look);
        written(&look, file, 4_000)
    };
    [
        format!("accepted, {} bytes, rewritten {}", file.len(), rewritten(&look, file)),
        format!("too short an output: {}", written(&look, file, 712)),
        format!("no names: {}", written(&look, &[], 4_000)),
        format!(
            "the default continuation: {}",
            changed(|look| look.v2.continuation = Continuation::Default)
        ),
        format!("version 00: {}", changed(|look| look.version = 0)),
        format!("version 01: {}", changed(|look| look.version = 1)),
        format!("a name of 256 bytes: {}", changed(|look| look.title_style.font_name.length = 256)),
        format!("a color of 01000000: {}", changed(|look| look.title_color.color10 = 1 << 24)),
    ]
    .join("; ")
}

#[test]
fn the_reader_and_the_writer_give_each_expected_line() {
    for StoredLook { name, bytes, line } in stored_looks() {
        assert_eq!(found_line(&bytes), line, "{name}");
    }
}

#[test]
fn the_stored_files_are_these() {
    let (mut names, mut lines) = (String::new(), String::new());
    for StoredLook { name, bytes, line } in stored_looks() {
        assert!(stored(&format!("crates/looks_main/data/{name}")) == bytes, "{name}");
        names.push_str(&format!("{name}\n"));
        lines.push_str(&format!("{name}: {line}\n"));
        match name.as_str() {
            "shortest_00.tlo" => assert!(stored("examples/look_00.tlo") == bytes),
            "shortest_02.tlo" => assert!(stored("examples/look_02.tlo") == bytes),
            "longest_00.tlo" => {
                assert!(stored("crates/look_main/stdin") == bytes);
                assert!(stored("crates/look_main/stdout") == with_defaults(bytes));
            }
            _ => {}
        }
    }
    assert_eq!(String::from_utf8(stored("crates/looks_main/args")).unwrap(), names);
    assert_eq!(String::from_utf8(stored("crates/looks_main/stdout")).unwrap(), lines);
    let files = fs::read_dir(format!("{ROOT}/crates/looks_main/data")).unwrap().count();
    assert_eq!(files, stored_looks().len());
}
