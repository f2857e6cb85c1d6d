//! The smallest stack of a thread in which the library reads members and lists of them, totals their cells, reads Values
//! alone and looks, makes sections from looks, converts texts and decodes case data. Fails if one is larger than `lent::STACK`.
//!
//! Usage: stack; it runs itself as `stack WORK KIB`, which ends without a result where a stack of
//! that size is too small.

use std::env;
use std::process::{Command, ExitCode, Stdio};
use std::thread;

use digarumbi::lent::{
    self, ARGUMENT_WORDS, CASES_FEED_ANSWER, CASES_STATE, CELL_AREA, LONGEST_LOOK, LOOK_ANSWER,
    MEMBERS, MEMBER_ANSWER, MOST_MEMBERS, NODE_AREA, STACK, TEXT_ANSWER, TOTALS_ANSWER,
    TOTALS_AREA, TOTAL_ANSWER, VALUE_WORDS,
};
use digarumbi_bench::limits::MEMBER_BYTES;
use digarumbi_versus::large::{
    deepest_member, large_unordered, member_of_strings, member_with_cells,
    member_with_large_indexes, member_with_nested_categories, shuffled,
};
use digarumbi_versus::stored;

/// Least that is tried, which every thread has, the most, and the step, in KiB.
const LEAST: usize = 16;
const MOST: usize = 8_192;
const STEP: usize = 4;

/// Members of at most so many bytes are short.
const SHORT: usize = 2_048;

const WORK: [&str; 10] = [
    "nothing",
    "members",
    "short members",
    "lists",
    "one leaf",
    "all leaves",
    "values",
    "looks",
    "texts",
    "case data",
];

fn main() -> ExitCode {
    let arguments: Vec<String> = env::args().skip(1).collect();
    match arguments.as_slice() {
        [] => measure_all(),
        [work, kib] => {
            run(work, kib.parse().expect("a number of KiB"));
            ExitCode::SUCCESS
        }
        _ => panic!("usage: stack"),
    }
}

fn measure_all() -> ExitCode {
    let mut most = 0;
    for work in WORK {
        let kib = smallest_stack(work);
        println!("{work}: {kib} KiB");
        most = most.max(kib);
    }
    if 1_024 * most > STACK {
        println!("more than the {STACK} bytes that the header says");
        return ExitCode::FAILURE;
    }
    ExitCode::SUCCESS
}

/// The smallest stack with which the work ends, by bisection.
fn smallest_stack(work: &str) -> usize {
    let (mut too_small, mut enough) = (LEAST / STEP - 1, MOST / STEP);
    while enough - too_small > 1 {
        let tried = (too_small + enough) / 2;
        if ends(work, STEP * tried) {
            enough = tried;
        } else {
            too_small = tried;
        }
    }
    STEP * enough
}

/// Whether a process that does the work with a stack of this size ends well.
fn ends(work: &str, kib: usize) -> bool {
    let program = env::current_exe().expect("the path of this program");
    let status =
        Command::new(program).args([work, &kib.to_string()]).stderr(Stdio::null()).status();
    status.is_ok_and(|status| status.success())
}

fn run(work: &str, kib: usize) {
    // The inputs are made outside the small stack.
    let inputs = match work {
        "members" | "lists" | "one leaf" | "all leaves" => members(),
        "short members" => short_members(),
        "values" => values(),
        "looks" => stored::looks().into_iter().map(|look| look.bytes).collect(),
        _ => Vec::new(),
    };
    let read: fn(&[Vec<u8>]) = match work {
        "members" | "short members" => read_members,
        "lists" => read_lists,
        "one leaf" => total_one_leaf,
        "all leaves" => total_all_leaves,
        "values" => read_values,
        "texts" => |_| convert_texts(),
        "case data" => |_| decode_cases(),
        "looks" => read_looks,
        _ => |_| (),
    };
    let thread = thread::Builder::new().stack_size(1_024 * kib).spawn(move || read(&inputs));
    thread.expect("a thread").join().expect("a thread that ends");
}

fn members() -> Vec<Vec<u8>> {
    let mut members: Vec<Vec<u8>> =
        stored::members().into_iter().map(|member| member.bytes).collect();
    members.push(deepest_member());
    members.push(member_with_cells(&shuffled(4_096)));
    members.push(member_with_large_indexes(&large_unordered(4_096)));
    members.push(member_with_nested_categories(4_096));
    members.push(member_of_strings(MEMBER_BYTES));
    members
}

/// The stored ones that are short.
fn short_members() -> Vec<Vec<u8>> {
    let members = stored::members().into_iter().map(|member| member.bytes);
    members.filter(|member| member.len() <= SHORT).collect()
}

/// A number, templates nested 8 deep, and an argument with templates nested 7 deep, which is also a
/// Value after four zero bytes.
fn values() -> Vec<Vec<u8>> {
    let number = [&[1, 0x58][..], &[0; 12]].concat();
    let level = [&[0x58, 0, 0, 0, 0, 1, 0, 0, 0][..], &[0; 4]].concat();
    let nested = |levels: usize| [level.repeat(levels - 1), vec![0x58], vec![0; 8]].concat();
    let argument = [vec![0; 4], nested(7)].concat();
    vec![number, nested(8), argument]
}

fn read_values(values: &[Vec<u8>]) {
    let mut answer = vec![0; VALUE_WORDS];
    for value in values {
        lent::value(3, value, &mut answer);
        assert_eq!(answer[0], 0, "a Value");
    }
    if let Some(argument) = values.last() {
        lent::argument(3, argument, &mut answer[..ARGUMENT_WORDS]);
        assert_eq!(answer[0], 0, "an Argument");
    }
}

fn read_members(members: &[Vec<u8>]) {
    let mut answer = vec![0; MEMBER_ANSWER];
    let (mut nodes, mut cells) = (vec![0; NODE_AREA], vec![0; CELL_AREA]);
    for member in members {
        lent::read_member(member, &mut answer, &mut nodes, &mut cells);
    }
}

fn total_one_leaf(members: &[Vec<u8>]) {
    let mut answer = vec![0; TOTAL_ANSWER];
    let (mut nodes, mut cells) = (vec![0; NODE_AREA], vec![0; CELL_AREA]);
    for member in members {
        lent::total(member, 0, 0, &mut answer, &mut nodes, &mut cells);
    }
}

fn total_all_leaves(members: &[Vec<u8>]) {
    let (mut answer, mut totals) = (vec![0; TOTALS_ANSWER], vec![0; TOTALS_AREA]);
    let (mut nodes, mut cells) = (vec![0; NODE_AREA], vec![0; CELL_AREA]);
    for member in members {
        lent::totals(member, 0, &mut answer, &mut totals, &mut nodes, &mut cells);
    }
}

/// The same members, in lists of up to 64.
fn read_lists(members: &[Vec<u8>]) {
    let mut answers = vec![0; MEMBERS + MOST_MEMBERS * MEMBER_ANSWER];
    let mut nodes = vec![0; MOST_MEMBERS * NODE_AREA];
    let mut cells = vec![0; MOST_MEMBERS * CELL_AREA];
    for members in members.chunks(MOST_MEMBERS) {
        let mut list = Vec::new();
        let mut start = 0;
        for member in members {
            list.extend([start, member.len() as u32]);
            start += member.len() as u32;
        }
        lent::read_members(&members.concat(), &list, &mut answers, &mut nodes, &mut cells);
        assert_eq!(answers[0], 0, "a list that is read");
    }
}

fn read_looks(looks: &[Vec<u8>]) {
    let (mut out, mut answer) = (vec![0; LONGEST_LOOK], vec![0; LOOK_ANSWER]);
    for look in looks {
        lent::read_look(look, &mut answer);
        lent::rewrite_look(look, &mut out, &mut answer);
        lent::look_sections(look, &mut out, &mut answer);
    }
}

fn convert_texts() {
    let text: Vec<u8> = (0..128).chain(0xe0..=0xff).collect();
    let (mut utf8, mut back) = (vec![0; 3 * text.len()], vec![0; 3 * text.len()]);
    let mut answer = vec![0; TEXT_ANSWER];
    for page in 1250..=1252 {
        lent::to_utf8(page, &text, &mut utf8, &mut answer);
        let length = answer[2] as usize;
        lent::from_utf8(page, &utf8[..length], &mut back, &mut answer);
        assert_eq!(answer, [0, 0, text.len() as u32], "a text");
    }
}

fn decode_cases() {
    let (mut state, mut answer) = (vec![0; CASES_STATE], vec![0; CASES_FEED_ANSWER]);
    let codes = [101, 253, 254, 255, 0, 253, 100, 252, 1, 2, 3, 4, 5, 6, 7, 8];
    let mut output = vec![0; 64];
    lent::cases_start(&[0, 0, 1], 100, &mut state, &mut answer);
    lent::cases_feed(&mut state, &codes, &mut output, &mut answer);
    assert_eq!(answer[0], 0, "codes");
    lent::cases_end(&state, &mut answer);
}
