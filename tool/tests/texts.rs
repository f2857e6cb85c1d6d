//! Texts in their encodings, and hand counts.

mod common;

use common::{file, folder, run};
use digarumbi_bench::encode::{int32, list, string};
use digarumbi_bench::parts::{formats, template, Parts, Section};

/// A member with this title and locale.
fn member(title: &[u8], locale: &[u8]) -> Vec<u8> {
    let title = [vec![0x03], string(title), vec![0x58], string(b""), string(b""), vec![0]].concat();
    let titles = [template(), template(), vec![0x31], title, vec![0x58, 0x58]].concat();
    let formats = [int32(0), string(locale), formats()[8..].to_vec()].concat();
    Parts::shortest_with(Section::Titles, titles).with(Section::Formats, formats).bytes()
}

/// The title that `table` shows.
fn title(test: &str, title: &[u8], locale: &[u8], options: &[&str]) -> String {
    let path = file(&folder(test), "m.bin", &member(title, locale));
    let run = run(&[&["table", &path], options].concat());
    assert_eq!(run.status, 0, "{}", run.said);
    run.out.lines().next().unwrap().to_string()
}

#[test]
fn the_locale_says_the_encoding() {
    let shown = |locale: &[u8]| title("locale", b"\xa3\xf3d\x9f", locale, &[]);
    assert_eq!(shown(b"pl_PL.windows-1250"), "Łódź");
    assert_eq!(shown(b"ru_RU.windows-1251"), "Јуdџ");
    assert_eq!(shown(b"en_US.windows-1252"), "£ódŸ");
    assert_eq!(shown(b"en_US.ISO_8859-1:1987"), "\\xa3\\xf3d\\x9f");
    assert_eq!(shown(b""), "\\xa3\\xf3d\\x9f");
}

#[test]
fn the_option_says_it_before_the_locale() {
    let shown =
        |encoding: &str| title("option", b"\xa3\x81", b"x.windows-1252", &["--encoding", encoding]);
    assert_eq!(shown("1250"), "Ł\\x81");
    assert_eq!(shown("1251"), "ЈЃ");
    assert_eq!(shown("utf-8"), "\\xa3\\x81");
}

#[test]
fn utf_8() {
    assert_eq!(title("utf_8", "Łódź".as_bytes(), b"pl_PL.UTF-8", &[]), "Łódź");
    assert_eq!(title("utf_8", "Łódź".as_bytes(), b"", &[]), "Łódź");
}

#[test]
fn a_template_with_its_arguments() {
    let text =
        |text: &[u8]| [vec![0x06], string(text), vec![0x58], string(b""), string(b"")].concat();
    let argument =
        |values: &[Vec<u8>]| [int32(values.len() as u32), int32(0), values.concat()].concat();
    let arguments = [argument(&[text(b"a")]), argument(&[text(b"b"), text(b"c")])];
    let title = [vec![0x58], string(b"^1: [%1:, ^1:]2"), list(&arguments)].concat();
    let titles = [template(), template(), vec![0x31], title, vec![0x58, 0x58]].concat();
    let member = Parts::shortest_with(Section::Titles, titles).bytes();
    let path = file(&folder("template"), "m.bin", &member);
    assert_eq!(run(&["table", &path]).out, "a: b, c\nno cells\n");
}

const FREQUENCIES: &str = "crates/corpus_main/data/repairs_06_examine_2.bin";

fn compare(test: &str, hand: &str, files: &[&str]) -> common::Run {
    let hand = file(&folder(test), "hand.tsv", hand.as_bytes());
    run(&[&["compare", &hand], files].concat())
}

#[test]
fn the_same_counts() {
    let hand = "# by hand\r\n\r\nCases\tValid\t430\nCases\t Missing \t0\nCases\t#2\t430\n";
    let run = compare("same", hand, &[FREQUENCIES]);
    assert_eq!((&run.out[..], &run.said[..], run.status), ("", "", 0));
}

#[test]
fn different_counts() {
    let hand = "Cases\tValid\t431\nCases\tNone\t1\nSpine\tC1\t2\nother.bin\tCases\tValid\t3\n";
    let run = compare("different", hand, &[FREQUENCIES]);
    let expected = [
        ["Cases", "None", "1", ".", "not in the member"],
        ["Spine", "C1", "2", ".", "not in the member"],
        ["Cases", "Valid", "431", "430", "differs"],
        ["Cases", "Missing", ".", "0", "not in the hand counts"],
        ["Cases", "Total", ".", "430", "not in the hand counts"],
    ];
    let mut lines: Vec<String> =
        expected.iter().map(|fields| format!("{FREQUENCIES}\t{}", fields.join("\t"))).collect();
    lines.push("other.bin\tCases\tValid\t3\t.\tfile not given".into());
    assert_eq!(run.out, lines.join("\n") + "\n");
    assert_eq!((&run.said[..], run.status), ("", 1));
}

/// The dimension is compared where none of its hand counts has a leaf, too.
#[test]
fn leaves_that_are_misspelt() {
    let run = compare("misspelt", "Cases\tvalid\t430\n", &[FREQUENCIES]);
    let lines = [
        "valid\t430\t.\tnot in the member",
        "Valid\t.\t430\tnot in the hand counts",
        "Missing\t.\t0\tnot in the hand counts",
        "Total\t.\t430\tnot in the hand counts",
    ];
    let expected: String = lines.map(|line| format!("{FREQUENCIES}\tCases\t{line}\n")).concat();
    assert_eq!((run.out, run.status), (expected, 1));
}

#[test]
fn files_by_their_last_part() {
    let hand = "spine_3.bin\tStatistics\tFrequency\t14\n";
    let files = ["examples/spine_3.bin", "examples/spine_18.bin"];
    let run = compare("last_part", hand, &files);
    assert_eq!(run.out, "examples/spine_18.bin\t.\t.\t.\t.\tnot in the hand counts\n");
    let same = ["examples/spine_3.bin", "crates/corpus_main/data/spine_3.bin"];
    let run = compare("last_part", hand, &same);
    assert!(run.said.ends_with("give it as on the command line\n"), "{}", run.said);
    assert_eq!(run.status, 2);
}

#[test]
fn hand_counts_that_cannot_be_read() {
    let wrong = |hand: &str| {
        let run = compare("wrong", hand, &["examples/spine_3.bin"]);
        assert_eq!((&run.out[..], run.status), ("", 2));
        run.said.split_once("hand.tsv: ").unwrap().1.trim_end().to_string()
    };
    assert_eq!(
        wrong("Statistics\tFrequency\t1.5\n"),
        "line 1: the count \"1.5\" is no whole number"
    );
    assert_eq!(
        wrong("\nStatistics 3\n"),
        "line 2: expected 4 or 3 columns separated by tabs, found 1"
    );
    assert_eq!(wrong("# nothing\n"), "there are no hand counts");
    let twice = "Statistics\tFrequency\t14\nStatistics\t#0\t14\n";
    let run = compare("wrong", twice, &["examples/spine_3.bin"]);
    let said = "line 2 of the hand counts says again what line 1 says";
    assert_eq!(run.said, format!("digarumbi: examples/spine_3.bin: {said}\n"));
    assert_eq!(run.status, 2);
}

#[test]
fn a_total_that_is_refused() {
    let run = compare("refused", "Statistics\tPercent\t100\n", &["examples/spine_3.bin"]);
    let expected = [
        "examples/spine_3.bin\tStatistics\tFrequency\t.\t14\tnot in the hand counts",
        "examples/spine_3.bin\tStatistics\tPercent\t100\t.\trefused 20 at 2150",
    ];
    assert_eq!(run.out, expected.join("\n") + "\n");
}
