//! What goes out: a full disk, a reader that has gone, and runs side by side.

mod common;

use std::fs::{File, OpenOptions};
use std::io::Read;
use std::process::Stdio;

use common::{bytes, command, file, folder, root, run};

const COMMANDS: [&[&str]; 8] = [
    &["check", "examples/spine_1.bin"],
    &["table", "examples/spine_1.bin"],
    &["cells", "examples/spine_1.bin"],
    &["totals", "examples/spine_1.bin"],
    &["compare", "examples/hand.tsv", "examples/spine_3.bin"],
    &["why", "examples/spine_3_repeated.bin"],
    &["look", "examples/look_02.tlo"],
    &["--help"],
];

#[test]
fn a_full_disk() {
    for arguments in COMMANDS {
        let full = OpenOptions::new().write(true).open("/dev/full").unwrap();
        let output = command(arguments).stdout(full).output().unwrap();
        let said = String::from_utf8(output.stderr).unwrap();
        assert_eq!(said, "digarumbi: standard output: No space left on device\n", "{arguments:?}");
        assert_eq!(output.status.code(), Some(2), "{arguments:?}");
    }
}

#[test]
fn a_reader_that_has_gone() {
    for arguments in COMMANDS {
        let mut child =
            command(arguments).stdout(Stdio::piped()).stderr(Stdio::piped()).spawn().unwrap();
        drop(child.stdout.take());
        let output = child.wait_with_output().unwrap();
        // it may have written before the reader went
        let status = output.status.code();
        assert!(matches!(status, Some(0..=2)), "{arguments:?}");
        assert_eq!(String::from_utf8(output.stderr).unwrap(), "", "{arguments:?}");
    }
    let many: Vec<&str> = ["cells"].into_iter().chain([COMMANDS[0][1]; 500]).collect();
    let mut child = command(&many).stdout(Stdio::piped()).stderr(Stdio::piped()).spawn().unwrap();
    let mut out = child.stdout.take().unwrap();
    out.read_exact(&mut [0; 10]).unwrap();
    drop(out);
    let output = child.wait_with_output().unwrap();
    assert_eq!((output.status.code(), &output.stderr[..]), (Some(2), &b""[..]));
}

/// Eight runs write to one file, each line whole.
#[test]
fn runs_side_by_side() {
    let path = folder("side_by_side").join("out");
    let arguments: Vec<&str> = ["cells"].into_iter().chain([COMMANDS[0][1]; 50]).collect();
    let out = OpenOptions::new().create(true).append(true).open(&path).unwrap();
    let children: Vec<_> = (0..8)
        .map(|_| command(&arguments).stdout(out.try_clone().unwrap()).spawn().unwrap())
        .collect();
    for mut child in children {
        assert!(child.wait().unwrap().success());
    }
    let one = run(&["cells", COMMANDS[0][1]]);
    let text = std::fs::read_to_string(&path).unwrap();
    let lines: Vec<&str> = one.out.lines().collect();
    assert_eq!(text.lines().count(), 8 * 50 * lines.len());
    assert!(text.lines().all(|line| lines.contains(&line)));
}

/// The same through a pipe.
#[test]
fn runs_into_one_pipe() {
    let (mut reader, writer) = std::io::pipe().unwrap();
    let arguments: Vec<&str> = ["totals"].into_iter().chain([COMMANDS[0][1]; 50]).collect();
    let children: Vec<_> = (0..8)
        .map(|_| command(&arguments).stdout(writer.try_clone().unwrap()).spawn().unwrap())
        .collect();
    drop(writer);
    let mut text = String::new();
    reader.read_to_string(&mut text).unwrap();
    for mut child in children {
        assert_eq!(child.wait().unwrap().code(), Some(1));
    }
    let one = run(&["totals", COMMANDS[0][1]]);
    let lines: Vec<&str> = one.out.lines().collect();
    assert_eq!(text.lines().count(), 8 * 50 * lines.len());
    assert!(text.lines().all(|line| lines.contains(&line)));
}

#[test]
fn a_look_written_back() {
    let folder = folder("look");
    let look = bytes("examples/look_02.tlo");
    let out = folder.join("out.tlo");
    let out = out.to_str().unwrap();
    let run_look = |input: &str, out: &str| run(&["look", input, "-o", out]);
    let written = run_look("examples/look_02.tlo", out);
    assert_eq!((&written.out[..], &written.said[..], written.status), ("", "", 0));
    assert_eq!(std::fs::read(out).unwrap(), look);

    // after a refusal the file is what it was
    let cut = file(&folder, "cut.tlo", &look[..700]);
    let refused = run_look(&cut, out);
    let said = "refused 2 at 697: a field doesn't fit in the input or its region";
    assert_eq!(refused.said, format!("digarumbi: {cut}: {said}\n"));
    assert_eq!((&refused.out[..], refused.status), ("", 1));
    assert_eq!(std::fs::read(out).unwrap(), look);
    let new = folder.join("new.tlo");
    run_look(&cut, new.to_str().unwrap());
    assert!(!new.exists());

    // the file is in its own place, through a link too, and nothing is left beside it
    let link = folder.join("link.tlo");
    std::os::unix::fs::symlink(&cut, &link).unwrap();
    assert_eq!(run_look("examples/look_02.tlo", link.to_str().unwrap()).status, 0);
    assert!(link.is_symlink());
    assert_eq!(std::fs::read(&cut).unwrap(), look);
    assert_eq!(std::fs::read_dir(&folder).unwrap().count(), 3);
    // `rt ci` refuses a checkout with a link in it
    std::fs::remove_file(&link).unwrap();
}

/// It is written as version 02, and that file as it is.
#[test]
fn a_look_of_version_00_written_back() {
    let folder = folder("look_00");
    let new = folder.join("new.tlo");
    let mut input = "examples/look_00.tlo";
    for _ in 0..2 {
        let written = run(&["look", input, "-o", new.to_str().unwrap()]);
        assert_eq!((&written.out[..], &written.said[..], written.status), ("", "", 0));
        assert_eq!(std::fs::read(&new).unwrap(), bytes("crates/looks_main/data/defaults_02.tlo"));
        input = new.to_str().unwrap();
    }
}

/// In the place of a member's own sections they give a member with the same cells.
#[test]
fn sections_of_a_look() {
    let folder = folder("sections");
    let out = folder.join("sections");
    let out = out.to_str().unwrap();
    for look in ["examples/look_02.tlo", "examples/look_00.tlo"] {
        let made = run(&["look", look, "--sections", out]);
        assert_eq!((&made.out[..], &made.said[..], made.status), ("", "", 0));
        let sections = std::fs::read(out).unwrap();
        assert_eq!(sections.len(), 804);
        let printed = command(&["look", look, "--sections", "-"]).output().unwrap();
        assert_eq!(printed.stdout, sections);

        // its own stand from 271 to 1155
        let member = bytes("examples/spine_18.bin");
        let new = [&member[..271], &sections, &member[1155..]].concat();
        let new = file(&folder, "new.bin", &new);
        let cells = |member| run(&["cells", member]).out.replace(member, "member");
        assert_eq!(cells(&new), cells("examples/spine_18.bin"));
    }
}

/// A refusal leaves the file as it was, and what can't be written is said.
#[test]
fn sections_that_are_not_written() {
    let folder = folder("no_sections");
    let out = file(&folder, "sections", b"before");
    let look = "crates/looks_main/data/longest_02.tlo";
    let words =
        "a drawn separator whose style and width have no meaning, or an alignment that has none";
    for place in [&out, "-"] {
        let refused = run(&["look", look, "--sections", place]);
        assert_eq!(refused.said, format!("digarumbi: {look}: refused 29 at 57: {words}\n"));
        assert_eq!((&refused.out[..], refused.status), ("", 1));
    }
    assert_eq!(std::fs::read(&out).unwrap(), b"before");
    let run = run(&["look", "examples/look_02.tlo", "--sections", "/dev/full"]);
    assert_eq!((&run.said[..], run.status), ("digarumbi: /dev/full: No space left on device\n", 2));
}

#[test]
fn a_look_that_cannot_be_written() {
    let places = [
        ("/dev/full", "No space left on device"),
        ("examples", "Is a directory"),
        ("none/out.tlo", "No such file or directory"),
    ];
    for (place, why) in places {
        let run = run(&["look", "examples/look_02.tlo", "-o", place]);
        assert_eq!((run.said, run.status), (format!("digarumbi: {place}: {why}\n"), 2));
    }
    assert!(File::open("/dev/full").is_ok() && root().join("examples").is_dir());
    let run = command(&["look", "examples/look_02.tlo", "-o", "-"]).output().unwrap();
    assert_eq!(run.stdout, bytes("examples/look_02.tlo"));
}
