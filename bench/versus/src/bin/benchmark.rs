//! Times of the proved library and of the independent reader on the same inputs, as tables in
//! markdown.

use std::env;
use std::fs;
use std::hint::black_box;
use std::process;

use digarumbi::lent::{
    self, CASES_FEED_ANSWER, CASES_STATE, CELL_AREA, CELL_RECORD, INDEX_WORDS, LONGEST_LOOK,
    LOOK_ANSWER, MEMBERS, MEMBER_ANSWER, MOST_MEMBERS, NODE_AREA, NODE_RECORD, POSITION_WORDS,
    REWRITE_ANSWER, TEXT_ANSWER, TOTALS_ANSWER, TOTALS_AREA, TOTAL_ANSWER, TOTAL_RECORD,
    VALUE_WORDS,
};
use digarumbi_bench::codepages::{from_utf8, to_utf8};
use digarumbi_bench::contents::contents;
use digarumbi_bench::generate::look_bytes;
use digarumbi_bench::limits::MEMBER_BYTES;
use digarumbi_bench::look::{read_look, write_look};
use digarumbi_bench::member::read_member;
use digarumbi_bench::plain_cases::Plain;
use digarumbi_bench::positions::{index, position};
use digarumbi_bench::random::Random;
use digarumbi_bench::totals::{total, totals};
use digarumbi_versus::large::{
    alike_in_low_bits, ascending, large_unordered, member_of_strings, member_with_cells,
    member_with_large_indexes, member_with_leaves, member_with_nested_categories, shuffled,
};
use digarumbi_versus::stored;
use digarumbi_versus::texts::{entries, in_utf8, mixed, russian};
use digarumbi_versus::timing::{measure, Times};

const SIZES_IN_BYTES: [usize; 5] = [65_536, 131_072, 262_144, 524_288, MEMBER_BYTES];
const NUMBERS_OF_CELLS: [u64; 5] = [256, 512, 1_024, 2_048, 4_096];
const NUMBERS_OF_NODES: [u32; 5] = [256, 512, 1_024, 2_048, 4_096];

/// The parts of the benchmark, each under the name by which it can be asked for.
const PARTS: [(&str, fn()); 12] = [
    ("real", real_members),
    ("lists", lists),
    ("large", large_members),
    ("bytes", growth_with_bytes),
    ("nodes", growth_with_nodes),
    ("cells", growth_with_cells),
    ("positions", positions),
    ("values", values),
    ("totals", leaf_totals),
    ("looks", looks),
    ("texts", texts),
    ("cases", case_data),
];

/// All parts, or those that the arguments name.
fn main() {
    let asked: Vec<String> = env::args().skip(1).collect();
    if let Some(unknown) = asked.iter().find(|name| PARTS.iter().all(|(part, _)| part != name)) {
        eprintln!("benchmark: there is no part {unknown}");
        process::exit(2);
    }
    println!("{}\n", conditions());
    for (name, part) in PARTS {
        if asked.is_empty() || asked.iter().any(|part| part == name) {
            part();
        }
    }
}

fn conditions() -> String {
    format!(
        "Measured on {}. Both readers take the same bytes and write into the same areas, which were \
         allocated once, before the timing, and are not cleared between calls. The two are called in \
         batches that alternate; a time is the median over all batches. The Rust reader allocates its \
         own vectors inside the timing.",
        processor()
    )
}

fn processor() -> String {
    let text = fs::read_to_string("/proc/cpuinfo").unwrap_or_default();
    let model = text.lines().find_map(|line| line.strip_prefix("model name")?.split(": ").nth(1));
    model.unwrap_or("an unknown processor").to_string()
}

/// Times of reading these members one after the other.
fn member_times(members: &[&[u8]]) -> Times {
    let mut areas = (vec![0; MEMBER_ANSWER], vec![0; NODE_AREA], vec![0; CELL_AREA]);
    measure(
        &mut areas,
        |(answer, nodes, cells)| {
            for member in members {
                black_box(lent::read_member(black_box(member), answer, nodes, cells));
            }
        },
        |(_, nodes, cells)| {
            for member in members {
                black_box(read_member(black_box(member), nodes, cells));
            }
        },
    )
}

const TABLE_HEAD: &str =
    "| bytes | nodes | cells | Rattle, µs | Rust, µs | Rattle, MB/s | Rust, MB/s | Rattle : Rust |";
const TABLE_RULE: &str = "|---|---:|---:|---:|---:|---:|---:|---:|---:|";

fn table_head(title: &str, first_column: &str) {
    println!("### {title}\n");
    println!("| {first_column} {TABLE_HEAD}\n{TABLE_RULE}");
}

/// A row for the members that are read one after the other.
fn member_row(name: &str, members: &[&[u8]]) {
    let (mut nodes, mut cells, mut bytes) = (0, 0, 0);
    for member in members {
        let answer = read_member(member, &mut [0; NODE_AREA], &mut [0; CELL_AREA]);
        assert_eq!(answer.refusal, 0, "{name} is accepted");
        nodes += answer.node_count;
        cells += answer.cell_count;
        bytes += member.len();
    }
    row(&format!("{name} | {bytes} | {nodes} | {cells}"), bytes, member_times(members));
}

fn row(start: &str, bytes: usize, times: Times) {
    let microseconds = |nanoseconds: f64| nanoseconds / 1e3;
    // bytes in a nanosecond are gigabytes in a second
    let megabytes = |nanoseconds: f64| 1e3 * bytes as f64 / nanoseconds;
    println!(
        "| {start} | {:.2} | {:.2} | {:.0} | {:.0} | {:.2} |",
        microseconds(times.rattle),
        microseconds(times.rust),
        megabytes(times.rattle),
        megabytes(times.rust),
        times.ratio()
    );
}

fn real_members() {
    let members = stored::real_members();
    table_head("Real members", "member");
    for member in &members {
        member_row(&member.name, &[&member.bytes]);
    }
    let all: Vec<&[u8]> = members.iter().map(|member| &member.bytes[..]).collect();
    member_row("all in turn", &all);
    println!();
}

fn large_members() {
    table_head("Large members", "member");
    for (name, member) in [
        ("4,096 cells, ascending", member_with_cells(&ascending(4_096))),
        ("4,096 cells, shuffled", member_with_cells(&shuffled(4_096))),
        ("4,096 nested categories", member_with_nested_categories(4_096)),
        ("1 MiB of strings", member_of_strings(MEMBER_BYTES)),
    ] {
        member_row(name, &[&member]);
    }
    println!();
}

fn growth_with_bytes() {
    table_head("Growth with bytes: strings of 12 letters", "member");
    for bytes in SIZES_IN_BYTES {
        member_row("strings", &[&member_of_strings(bytes)]);
    }
    println!();
}

fn growth_with_nodes() {
    table_head("Growth with nodes", "categories");
    for nodes in NUMBERS_OF_NODES {
        member_row("nested", &[&member_with_nested_categories(nodes)]);
        member_row("side by side, in order", &[&member_with_leaves(0..nodes)]);
        member_row("side by side, in reverse", &[&member_with_leaves((0..nodes).rev())]);
    }
    println!();
}

fn growth_with_cells() {
    table_head("Growth with cells", "order");
    for cells in NUMBERS_OF_CELLS {
        member_row("ascending", &[&member_with_cells(&ascending(cells))]);
        member_row("shuffled", &[&member_with_cells(&shuffled(cells))]);
    }
    println!();
    table_head("Growth with cells: large indexes", "order");
    for cells in NUMBERS_OF_CELLS {
        let mut sorted = large_unordered(cells);
        sorted.sort_unstable();
        member_row("large, ascending", &[&member_with_large_indexes(&sorted)]);
        member_row("large, unordered", &[&member_with_large_indexes(&large_unordered(cells))]);
        member_row(
            "alike in 18 low bits",
            &[&member_with_large_indexes(&alike_in_low_bits(cells))],
        );
    }
    println!();
}

/// Words of a share for the nodes and for the cells of a real member.
const NODE_SHARE: usize = 20 * NODE_RECORD;
const CELL_SHARE: usize = 72 * CELL_RECORD;

/// 64 members in one call, beside as many calls with the same shares.
fn lists() {
    println!("### 64 members in one call\n");
    println!("| members | bytes | one call, µs | 64 calls, µs | one call : 64 calls |");
    println!("|---|---:|---:|---:|---:|");
    let members = stored::real_members();
    let members = members.iter().map(|member| &member.bytes[..]);
    let members: Vec<&[u8]> = members.cycle().take(MOST_MEMBERS).collect();
    let mut list = Vec::new();
    let mut buffer = Vec::new();
    for member in &members {
        list.extend([buffer.len() as u32, member.len() as u32]);
        buffer.extend_from_slice(member);
    }
    let times = list_times(&buffer, &list, &members);
    println!(
        "| real members | {} | {:.2} | {:.2} | {:.2} |\n",
        buffer.len(),
        times.rattle / 1e3,
        times.rust / 1e3,
        times.ratio()
    );
}

/// Both times are the library's: of one call, and of a call for each member.
fn list_times(buffer: &[u8], list: &[u32], members: &[&[u8]]) -> Times {
    let mut areas = (
        vec![0; MEMBERS + MOST_MEMBERS * MEMBER_ANSWER],
        vec![0; MOST_MEMBERS * NODE_SHARE],
        vec![0; MOST_MEMBERS * CELL_SHARE],
    );
    lent::read_members(buffer, list, &mut areas.0, &mut areas.1, &mut areas.2);
    let refusals = areas.0[MEMBERS..].chunks(MEMBER_ANSWER).filter(|answer| answer[0] != 0);
    assert_eq!(refusals.count(), 0, "every member is accepted");
    measure(
        &mut areas,
        |(answers, nodes, cells)| {
            black_box(lent::read_members(
                black_box(buffer),
                black_box(list),
                answers,
                nodes,
                cells,
            ));
        },
        |(answers, nodes, cells)| {
            let answers = answers[MEMBERS..].chunks_mut(MEMBER_ANSWER);
            let areas = nodes.chunks_mut(NODE_SHARE).zip(cells.chunks_mut(CELL_SHARE));
            for ((member, answer), (nodes, cells)) in members.iter().zip(answers).zip(areas) {
                black_box(lent::read_member(black_box(member), answer, nodes, cells));
            }
        },
    )
}

/// Values of members, each with its version and its bytes.
type Values<'a> = Vec<(u32, &'a [u8])>;

/// The names of all nodes and the cells of these members, by their records.
fn names_and_cells<'a>(members: &[&'a [u8]]) -> (Values<'a>, Values<'a>) {
    let (mut names, mut values) = (Vec::new(), Vec::new());
    let (mut nodes, mut cells) = (vec![0; NODE_AREA], vec![0; CELL_AREA]);
    for &member in members {
        let answer = read_member(member, &mut nodes, &mut cells);
        let version = u32::from(member[2]);
        let part = |place, length| (version, &member[place as usize..][..length as usize]);
        let nodes = nodes.chunks(NODE_RECORD).take(answer.node_count as usize);
        let cells = cells.chunks(CELL_RECORD).take(answer.cell_count as usize);
        names.extend(nodes.map(|record| part(record[3], record[4])));
        values.extend(cells.map(|record| part(record[1], record[2])));
    }
    (names, values)
}

/// What names and cells say, beside reading the members that they stand in.
fn values() {
    println!("### What names and cells say\n");
    println!("| Values | number | Rattle, µs | Rust, µs | Rattle : Rust | Rattle : reading |");
    println!("|---|---:|---:|---:|---:|---:|");
    let members = stored::real_members();
    let members: Vec<&[u8]> = members.iter().map(|member| &member.bytes[..]).collect();
    let (names, cells) = names_and_cells(&members);
    value_row("cells of the real members", &members, &cells);
    value_row("names of their nodes", &members, &names);
    let large = member_with_cells(&shuffled(4_096));
    let (_, cells) = names_and_cells(&[&large]);
    value_row("4,096 cells, shuffled", &[&large], &cells);
    println!();
}

/// A row for these Values; the last column is the time of the library for them to the one that it
/// takes to read their members, measured in turn.
fn value_row(name: &str, members: &[&[u8]], values: &Values) {
    let mut areas = (vec![0; MEMBER_ANSWER], vec![0; NODE_AREA], vec![0; CELL_AREA]);
    let rattle = |answer: &mut [u32]| {
        for &(version, bytes) in values {
            black_box(lent::value(version, black_box(bytes), &mut answer[..VALUE_WORDS]));
        }
    };
    let times = measure(
        &mut areas,
        |(answer, ..)| rattle(answer),
        |_| {
            for &(version, bytes) in values {
                let _ = black_box(contents(version, black_box(bytes)));
            }
        },
    );
    let beside = measure(
        &mut areas,
        |(answer, ..)| rattle(answer),
        |(answer, nodes, cells)| {
            for member in members {
                black_box(lent::read_member(black_box(member), answer, nodes, cells));
            }
        },
    );
    println!(
        "| {name} | {} | {:.2} | {:.2} | {:.2} | {:.2} |",
        values.len(),
        times.rattle / 1e3,
        times.rust / 1e3,
        times.ratio(),
        beside.ratio()
    );
}

/// Totals of one leaf and of all leaves of a dimension, beside reading the members.
fn leaf_totals() {
    println!("### Totals under a leaf\n");
    println!(
        "The first leaf of the first dimension, and all leaves of that dimension in one call.\n"
    );
    println!("| members | asked | Rattle, µs | Rust, µs | Rattle : Rust | Rattle : reading |");
    println!("|---|---|---:|---:|---:|---:|");
    let members = stored::real_members();
    let mut members: Vec<&[u8]> = members.iter().map(|member| &member.bytes[..]).collect();
    members.retain(|member| leaves_of_first(member) > 0);
    let large = member_with_cells(&shuffled(4_096));
    let nested = member_with_nested_categories(4_096);
    for (name, members) in [
        (format!("{} real members in turn", members.len()), &members[..]),
        ("4,096 cells, shuffled".to_string(), &[&large]),
        ("4,096 nested categories".to_string(), &[&nested]),
    ] {
        let reading = member_times(members).rattle;
        total_row(&format!("{name} | one leaf"), total_times(members), reading);
        let leaves: u32 = members.iter().map(|member| leaves_of_first(member)).sum();
        total_row(&format!("{name} | {leaves} leaves"), totals_times(members), reading);
    }
    println!();
}

/// The leaves of the first dimension, 0 if there is none.
fn leaves_of_first(member: &[u8]) -> u32 {
    let answer = read_member(member, &mut [0; NODE_AREA], &mut [0; CELL_AREA]);
    assert_eq!(answer.refusal, 0);
    answer.dimensions[0].leaves
}

fn total_row(start: &str, times: Times, reading: f64) {
    println!(
        "| {start} | {:.2} | {:.2} | {:.2} | {:.2} |",
        times.rattle / 1e3,
        times.rust / 1e3,
        times.ratio(),
        times.rattle / reading
    );
}

fn total_times(members: &[&[u8]]) -> Times {
    let mut areas = (vec![0; TOTAL_ANSWER], vec![0; NODE_AREA], vec![0; CELL_AREA]);
    measure(
        &mut areas,
        |(answer, nodes, cells)| {
            for member in members {
                black_box(lent::total(black_box(member), 0, 0, answer, nodes, cells));
            }
        },
        |(_, nodes, cells)| {
            for member in members {
                let _ = black_box(total(black_box(member), 0, 0, nodes, cells));
            }
        },
    )
}

fn totals_times(members: &[&[u8]]) -> Times {
    let answer = vec![0; TOTALS_ANSWER];
    let mut areas = (answer, vec![0; TOTALS_AREA], vec![0; NODE_AREA], vec![0; CELL_AREA]);
    measure(
        &mut areas,
        |(answer, totals, nodes, cells)| {
            for member in members {
                black_box(lent::totals(black_box(member), 0, answer, totals, nodes, cells));
            }
        },
        |(_, _, nodes, cells)| {
            for member in members {
                let room = TOTALS_AREA / TOTAL_RECORD;
                let _ = black_box(totals(black_box(member), 0, room, nodes, cells));
            }
        },
    )
}

/// The number of cells whose positions are asked for in turn.
const CELLS_ASKED: u32 = 4_096;

/// Positions of cells in tables of few and of many dimensions, and back.
fn positions() {
    println!("### Positions of cells\n");
    println!("4,096 cells in turn, with the table's n and axes each time.\n");
    println!("| table | dimensions | Rattle, ns a cell | Rust, ns a cell | Rattle : Rust |");
    println!("|---|---:|---:|---:|---:|");
    for (name, ns, counts) in [
        ("64 rows, 64 columns", &[64, 64][..], [0, 1, 1]),
        ("four dimensions on three axes", &[8, 8, 8, 8], [1, 1, 2]),
        (
            "sixteen dimensions on three axes",
            &[2, 2, 2, 2, 2, 2, 2, 2, 2, 2, 2, 2, 1, 1, 1, 1],
            [4, 6, 6],
        ),
    ] {
        let order: Vec<u32> = (0..ns.len() as u32).rev().collect();
        position_row(&format!("{name}, positions"), ns.len(), position_times(ns, counts, &order));
        position_row(&format!("{name}, indexes"), ns.len(), index_times(ns, counts, &order));
    }
    println!();
}

fn position_row(name: &str, dimensions: usize, times: Times) {
    let cell = |nanoseconds: f64| nanoseconds / f64::from(CELLS_ASKED);
    println!(
        "| {name} | {dimensions} | {:.0} | {:.0} | {:.2} |",
        cell(times.rattle),
        cell(times.rust),
        times.ratio()
    );
}

fn position_times(ns: &[u32], counts: [u32; 3], order: &[u32]) -> Times {
    measure(
        &mut [0; POSITION_WORDS],
        |answer| {
            for k in 0..CELLS_ASKED {
                black_box(lent::position(black_box(ns), counts, order, k, answer));
            }
        },
        |_| {
            for k in 0..CELLS_ASKED {
                let _ = black_box(position(black_box(ns), counts, order, k));
            }
        },
    )
}

fn index_times(ns: &[u32], counts: [u32; 3], order: &[u32]) -> Times {
    let at = |k| position(ns, counts, order, k).expect("a cell of the table");
    let cells: Vec<[u32; 3]> = (0..CELLS_ASKED).map(at).collect();
    measure(
        &mut [0; INDEX_WORDS],
        |answer| {
            for &at in &cells {
                black_box(lent::index(black_box(ns), counts, order, at, answer));
            }
        },
        |_| {
            for &at in &cells {
                let _ = black_box(index(black_box(ns), counts, order, at));
            }
        },
    )
}

fn looks() {
    println!("### Looks\n");
    println!(
        "| look | bytes | Rattle, µs | Rust, µs | Rattle, MB/s | Rust, MB/s | Rattle : Rust |"
    );
    println!("|---|---:|---:|---:|---:|---:|---:|");
    let mut looks: Vec<(String, Vec<u8>)> =
        stored::looks().into_iter().map(|look| (look.name, look.bytes)).collect();
    looks.extend(
        (1..4).map(|seed| (format!("generated {seed}"), look_bytes(&mut Random::new(seed)))),
    );
    looks.retain(|(_, file)| read_look(file).is_ok());
    for (name, file) in &looks {
        row(&format!("{name}, read | {}", file.len()), file.len(), look_times(file));
        row(&format!("{name}, rewritten | {}", file.len()), file.len(), rewrite_times(file));
    }
}

const TEXT_BYTES: usize = 65_536;

fn texts() {
    println!("\n### Text in old code pages\n");
    println!(
        "| text | bytes | Rattle, µs | Rust, µs | Rattle, MB/s | Rust, MB/s | Rattle : Rust |"
    );
    println!("|---|---:|---:|---:|---:|---:|---:|");
    let mut random = Random::new(1);
    let last = entries(1250, 0xe0);
    for (name, page, text) in [
        ("ASCII", 1252, mixed(TEXT_BYTES, u64::MAX, b" ", &mut random)),
        ("one byte in 64 not ASCII", 1250, mixed(TEXT_BYTES, 64, &last, &mut random)),
        ("one byte in 8 not ASCII", 1250, mixed(TEXT_BYTES, 8, &last, &mut random)),
        ("Russian", 1251, russian(TEXT_BYTES, &mut random)),
        ("the last entries of windows-1250", 1250, mixed(TEXT_BYTES, 1, &last, &mut random)),
        ("a Russian name of 20 bytes", 1251, russian(20, &mut random)),
        ("a Polish name of 20 bytes", 1250, mixed(20, 6, &last, &mut random)),
    ] {
        let utf8 = in_utf8(page, &text);
        let (length, times) = (text.len(), to_utf8_times(page, &text));
        row(&format!("{name}, to UTF-8 | {length}"), length, times);
        let (length, times) = (utf8.len(), from_utf8_times(page, &utf8));
        row(&format!("{name}, from UTF-8 | {length}"), length, times);
    }
    println!("\n### Text beside a copy\n");
    println!("The Polish page; the output has room for every text.\n");
    println!("| text | bytes | to UTF-8, µs | a copy, µs | to UTF-8 : a copy |");
    println!("|---|---:|---:|---:|---:|");
    for (name, times) in [
        ("ASCII", u64::MAX),
        ("one byte in 4,096 not ASCII", 4_096),
        ("one byte in 1,024 not ASCII", 1_024),
        ("one byte in 64 not ASCII", 64),
    ] {
        let times = copy_times(1250, &mixed(TEXT_BYTES, times, &last, &mut random));
        println!(
            "| {name} | {TEXT_BYTES} | {:.2} | {:.2} | {:.2} |",
            times.rattle / 1e3,
            times.rust / 1e3,
            times.ratio()
        );
    }
}

/// Times with an output that always suffices.
fn to_utf8_times(page: u32, text: &[u8]) -> Times {
    measure(
        &mut (vec![0; 3 * text.len()], vec![0; TEXT_ANSWER]),
        |(out, answer)| {
            black_box(lent::to_utf8(page, black_box(text), out, answer));
        },
        |(out, _)| {
            let _ = black_box(to_utf8(page, black_box(text), out));
        },
    )
}

fn from_utf8_times(page: u32, text: &[u8]) -> Times {
    measure(
        &mut (vec![0; text.len()], vec![0; TEXT_ANSWER]),
        |(out, answer)| {
            black_box(lent::from_utf8(page, black_box(text), out, answer));
        },
        |(out, _)| {
            let _ = black_box(from_utf8(page, black_box(text), out));
        },
    )
}

/// The library's time beside that of copying the bytes.
fn copy_times(page: u32, text: &[u8]) -> Times {
    measure(
        &mut (vec![0; 2 * text.len()], vec![0; TEXT_ANSWER]),
        |(out, answer)| {
            black_box(lent::to_utf8(page, black_box(text), out, answer));
        },
        |(out, _)| {
            out[..text.len()].copy_from_slice(black_box(text));
            black_box(out);
        },
    )
}

fn look_times(file: &[u8]) -> Times {
    measure(
        &mut vec![0; LOOK_ANSWER],
        |answer| {
            black_box(lent::read_look(black_box(file), answer));
        },
        |_| {
            let _ = black_box(read_look(black_box(file)));
        },
    )
}

fn rewrite_times(file: &[u8]) -> Times {
    measure(
        &mut (vec![0; LONGEST_LOOK], vec![0; REWRITE_ANSWER]),
        |(out, answer)| {
            black_box(lent::rewrite_look(black_box(file), out, answer));
        },
        |(out, _)| {
            let look = read_look(black_box(file));
            let _ = black_box(look.and_then(|look| write_look(&look, file, out)));
        },
    )
}

/// Elements of a stream of case data: 64 MB.
const ELEMENTS: u64 = 8_388_608;
/// Bytes that are offered at once, and room for what they can give.
const CUT: usize = 65_536;
const ROOM: usize = 8 * (CUT + 8);

fn case_data() {
    println!("### Case data\n");
    println!("8,388,608 elements in calls of 64 KiB; the state lies in words between calls.\n");
    println!(
        "| stream | bytes | Rattle, ms | Rust, ms | Rattle, ns an element | Rattle : Rust |\n\
         |---|---:|---:|---:|---:|---:|"
    );
    for (name, kinds, blocks) in [
        ("numbers, no blocks", &[0, 0, 0, 0, 0, 0, 0, 0, 0, 0][..], 0),
        ("numbers, a third in blocks", &[0, 0, 0, 0, 0, 0, 0, 0, 0, 0], 3),
        ("numbers, all in blocks", &[0, 0, 0, 0, 0, 0, 0, 0, 0, 0], 1),
        ("half strings, no blocks", &[0, 1, 0, 1, 1, 0], 0),
        ("half strings, a third in blocks", &[0, 1, 0, 1, 1, 0], 3),
    ] {
        let bytes = case_stream(kinds, blocks);
        let times = case_times(kinds, &bytes);
        println!(
            "| {name} | {} | {:.1} | {:.1} | {:.2} | {:.2} |",
            bytes.len(),
            times.rattle / 1e6,
            times.rust / 1e6,
            times.rattle / ELEMENTS as f64,
            times.ratio()
        );
    }
    println!();
}

/// One in `blocks` elements has a block, none if it is 0.
fn case_stream(kinds: &[u8], blocks: u64) -> Vec<u8> {
    let mut random = Random::new(1);
    let mut bytes = Vec::new();
    for group in 0..ELEMENTS / 8 {
        let first = bytes.len();
        for code in 0..8 {
            let number = (8 * group + code) as usize % kinds.len();
            bytes.push(match kinds[number] {
                _ if blocks > 0 && random.once_in(blocks) => 253,
                0 => 1 + random.below(251) as u8,
                _ => 254,
            });
        }
        for _ in 0..bytes[first..].iter().filter(|&&code| code == 253).count() {
            bytes.extend_from_slice(&random.next_number().to_le_bytes());
        }
    }
    bytes
}

fn case_times(kinds: &[u8], bytes: &[u8]) -> Times {
    let mut output = vec![0; ROOM];
    measure(
        &mut output,
        |output| {
            let (mut state, mut answer) = ([0; CASES_STATE], [0; CASES_FEED_ANSWER]);
            lent::cases_start(kinds, 100, &mut state, &mut answer);
            let (mut at, mut elements) = (0, 0);
            while at < bytes.len() {
                let cut = &bytes[at..bytes.len().min(at + CUT)];
                lent::cases_feed(&mut state, black_box(cut), output, &mut answer);
                at += answer[2] as usize;
                elements += u64::from(answer[3]);
            }
            assert_eq!(elements, ELEMENTS);
        },
        |output| {
            let mut plain = Plain::new(kinds, 100);
            let (mut at, mut elements) = (0, 0);
            while at < bytes.len() {
                let cut = &bytes[at..bytes.len().min(at + CUT)];
                let (taken, written) = plain.feed(black_box(cut), output);
                at += taken;
                elements += written as u64;
            }
            assert_eq!(elements, ELEMENTS);
        },
    )
}
