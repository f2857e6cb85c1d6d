//! What comes in: files that can't be read, that are cut, short or long, and standard input.

mod common;

use common::{bytes, file, folder, run, run_with_input};

const MEMBER: &str = "examples/spine_18.bin";

#[test]
fn standard_input() {
    let run = run_with_input(&["check", "-"], &bytes(MEMBER));
    assert_eq!((&run.out[..], run.status), ("-\taccepted\t2\t9\t10\n", 0));
    let run = run_with_input(&["check", "-"], b"");
    assert!(run.out.starts_with("-\trefused\t2\t0\t"), "{}", run.out);
}

#[test]
fn files_that_cannot_be_read() {
    let unreadable = [
        ("examples", "Is a directory"),
        ("examples/none.bin", "No such file or directory"),
        // it opens, and its first byte can't be read, whoever asks
        ("/proc/self/mem", "Input/output error"),
    ];
    for command in ["check", "table", "cells", "totals", "why", "look"] {
        for (path, why) in unreadable {
            let run = run(&[command, path]);
            assert_eq!(run.said, format!("digarumbi: {path}: {why}\n"), "{command}");
            assert_eq!((&run.out[..], run.status), ("", 2), "{command} {path}");
        }
    }
}

#[test]
fn the_other_files_follow() {
    let run = run(&["check", "examples", MEMBER, "none", "examples/spine_3_repeated.bin"]);
    assert_eq!(run.out.lines().count(), 2);
    assert_eq!(run.said.lines().count(), 2);
    assert_eq!(run.status, 2);
}

/// Every cut of a member is refused at or before the cut, and `why` knows the same place.
#[test]
fn cut_members() {
    let member = bytes(MEMBER);
    let folder = folder("cut_members");
    for length in (0..member.len()).step_by(61) {
        let path = file(&folder, "cut.bin", &member[..length]);
        let check = run(&["check", &path]);
        let fields: Vec<&str> = check.out.trim_end().split('\t').collect();
        let (number, place) = (fields[2], fields[3]);
        assert_eq!((fields[1], number, check.status), ("refused", "2", 1));
        assert!(place.parse::<usize>().unwrap() <= length);
        let why = run(&["why", &path]);
        let first = format!("{path}: refused {number} at {place}: ");
        assert!(why.out.starts_with(&first), "{}", why.out);
        assert!(why.out.contains("\n  path      "), "{}", why.out);
    }
}

/// The library takes 1,048,576 bytes; a member may end in no more than it says.
#[test]
fn long_members() {
    let folder = folder("long_members");
    let mebibyte = 1_048_576;
    let mut long = bytes(MEMBER);
    let end = long.len();
    long.resize(mebibyte, 0);
    let check = |name: &str, bytes: &[u8]| {
        let path = file(&folder, name, bytes);
        let run = run(&["check", &path]);
        run.out.strip_prefix(&path).unwrap().trim().replace('\t', " ")
    };
    assert_eq!(check("1", &long), format!("refused 11 {end} bytes left at the end"));
    long.push(0);
    assert_eq!(check("1+", &long), "refused 1 0 member too long");
    long.resize(2 * mebibyte, 0);
    assert_eq!(check("2", &long), "refused 1 0 member too long");
}

/// A name may be long: 65,536 bytes are no limit.
#[test]
fn an_accepted_member_of_more_than_65536_bytes() {
    use digarumbi_bench::encode::{list, string};
    use digarumbi_bench::parts::{template, Parts, Section};
    let title = [vec![0x58], string(&vec![b'a'; 100_000]), list(&[])].concat();
    let titles = [title, template(), vec![0x31], template(), vec![0x58, 0x58]].concat();
    let member = Parts::shortest_with(Section::Titles, titles).bytes();
    let path = file(&folder("long_name"), "long.bin", &member);
    let run = run(&["check", &path]);
    assert_eq!(run.out, format!("{path}\taccepted\t0\t0\t0\n"));
}

#[test]
fn names_that_are_no_plain_text() {
    let folder = folder("names");
    let path = file(&folder, "tab\tand\nline \\.bin", &bytes(MEMBER));
    let run = run(&["check", &path]);
    assert_eq!(run.out.lines().count(), 1);
    assert!(run.out.contains("tab\\tand\\nline \\\\.bin\taccepted"), "{}", run.out);
}
