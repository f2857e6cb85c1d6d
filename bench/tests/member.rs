//! Answers and records of whole members.

use digarumbi_bench::encode::list;
use digarumbi_bench::limits::MEMBER_BYTES;
use digarumbi_bench::member::{read_member, Answer, DimensionAnswer, CELL_WORDS, NODE_WORDS};
use digarumbi_bench::parts::*;
use digarumbi_bench::refusal::*;

const UNTOUCHED: u32 = 0xdead_beef;

/// The answer for areas of these lengths, and what the areas hold then.
fn read(member: &[u8], node_words: usize, cell_words: usize) -> (Answer, Vec<u32>, Vec<u32>) {
    let mut nodes = vec![UNTOUCHED; node_words];
    let mut cells = vec![UNTOUCHED; cell_words];
    let answer = read_member(member, &mut nodes, &mut cells);
    (answer, nodes, cells)
}

/// Checks the refusal, that everything else is 0, and that the areas are unchanged.
fn assert_refused(member: &[u8], number: u32, place: u32) {
    let (answer, nodes, cells) = read(member, 100, 100);
    assert_eq!(answer, Answer { refusal: number, place, ..Answer::default() });
    assert!(nodes.iter().chain(&cells).all(|&word| word == UNTOUCHED));
}

#[test]
fn first_bytes() {
    assert_refused(&[], 2, 0);
    assert_refused(&[1], 2, 1);
    assert_refused(&[0], 3, 0);
    assert_refused(&[1, 0, 1, 0, 0, 0], 2, 6);
    assert_refused(&[1, 0, 2, 0, 0, 0], 4, 2);
    assert_refused(&[1, 0, 3, 0, 0, 0, 2], 5, 6);
}

#[test]
fn longest_member() {
    assert_refused(&vec![0; MEMBER_BYTES], 3, 0);
    assert_refused(&vec![0; MEMBER_BYTES + 1], 1, 0);
}

/// Two dimensions with n of 2 and 1; the first one has a group.
fn example() -> Parts {
    let first = dimension(&[leaf(1), group(&[leaf(0)])]);
    table_of(&[first, flat_dimension(1)], &[1, 0]).with(Section::Axes, axes([0, 1, 1], &[1, 0]))
}

#[test]
fn records_of_an_accepted_member() {
    let parts = example();
    let (answer, nodes, cells) = read(&parts.bytes(), 4 * NODE_WORDS + 2, 2 * CELL_WORDS + 1);
    let first = parts.start(Section::Dimensions) as u32 + 4;
    let second = first + 26 + 3 * 24;
    let mut expected = Answer {
        dimension_count: 2,
        node_count: 4,
        cell_count: 2,
        axis_counts: [0, 1, 1],
        ..Answer::default()
    };
    expected.axis_order[..2].copy_from_slice(&[1, 0]);
    expected.dimensions[0] =
        DimensionAnswer { name_place: first, name_length: 9, leaves: 2, first_node: 0 };
    expected.dimensions[1] =
        DimensionAnswer { name_place: second, name_length: 9, leaves: 1, first_node: 3 };
    assert_eq!(answer, expected);

    let none = u32::MAX;
    let expected_nodes = [
        [0, 0, none, first + 26, 9, 1, 1],
        [1, 0, none, first + 26 + 24, 9, 1, 2],
        [0, 0, 1, first + 26 + 48, 9, 0, 1],
        [0, 1, none, second + 26, 9, 0, 1],
    ];
    assert_eq!(nodes, [&expected_nodes.concat()[..], &[UNTOUCHED; 2]].concat());

    let cell = parts.start(Section::Cells) as u32 + 4;
    let expected_cells = [1, cell + 8, 9, 0, cell + 17 + 8, 9, UNTOUCHED];
    assert_eq!(cells, expected_cells);
}

/// The record of a cell of version 1 starts at the first zero byte, and its length counts them.
#[test]
fn records_of_a_member_of_version_1() {
    let zeros = |index: u8, zeros: usize| [vec![index], vec![0; 7 + zeros], template()].concat();
    let content = list(&[zeros(1, 5), zeros(0, 0)]);
    let parts = example().in_version_1().with(Section::Cells, content);
    let (answer, nodes, cells) = read(&parts.bytes(), 4 * NODE_WORDS, 2 * CELL_WORDS);
    assert_eq!((answer.refusal, answer.node_count, answer.cell_count), (0, 4, 2));
    let first = parts.start(Section::Dimensions) as u32 + 4;
    assert_eq!((nodes[3], nodes[4]), (first + 26, 9));
    let cell = parts.start(Section::Cells) as u32 + 4;
    assert_eq!(cells, [1, cell + 8, 14, 0, cell + 22 + 8, 9]);
}

#[test]
fn areas_too_short() {
    let member = example().bytes();
    let (nodes, cells) = (4 * NODE_WORDS, 2 * CELL_WORDS);
    for (node_words, cell_words, number) in [
        (nodes - 1, cells, NODE_AREA),
        (nodes - 1, cells - 1, NODE_AREA),
        (0, 0, NODE_AREA),
        (nodes, cells - 1, CELL_AREA),
    ] {
        let (answer, nodes, cells) = read(&member, node_words, cell_words);
        let expected =
            Answer { refusal: number, node_count: 4, cell_count: 2, ..Answer::default() };
        assert_eq!(answer, expected);
        assert!(nodes.iter().chain(&cells).all(|&word| word == UNTOUCHED));
    }
    assert_eq!(read(&member, nodes, cells).0.refusal, 0);
}

#[test]
fn bytes_left_come_before_a_short_area() {
    let parts = example().with(Section::Ending, vec![1, 0]);
    let place = parts.start(Section::Ending) as u32 + 1;
    let (answer, _, _) = read(&parts.bytes(), 0, 0);
    assert_eq!(answer, Answer { refusal: BYTES_LEFT, place, ..Answer::default() });
}

#[test]
fn a_late_refusal_leaves_the_areas() {
    let parts = example().with(Section::Cells, cells(&[0, 1, 2]));
    let place = parts.start(Section::Cells) as u32 + 4 + 2 * 17;
    assert_refused(&parts.bytes(), CELL_INDEX, place);
}

#[test]
fn at_most_4096_categories() {
    let parts = table(&[4_000, 96], &[]);
    let (answer, _, _) = read(&parts.bytes(), NODE_WORDS * 4_096, 0);
    assert_eq!((answer.refusal, answer.node_count), (0, 4_096));
    let parts = table(&[4_000, 97], &[]);
    let place = parts.start(Section::Axes) - 24;
    assert_refused(&parts.bytes(), LIMIT, place as u32);
    assert_refused(&parts.bytes()[..place], LIMIT, place as u32);
}

#[test]
fn at_most_4096_cells() {
    let all: Vec<u64> = (0..4_096).collect();
    let (answer, _, _) =
        read(&table(&[64, 64], &all).bytes(), NODE_WORDS * 128, CELL_WORDS * 4_096);
    assert_eq!((answer.refusal, answer.cell_count), (0, 4_096));
    let more: Vec<u64> = (0..4_097).collect();
    let parts = table(&[65, 64], &more);
    assert_refused(&parts.bytes(), LIMIT, parts.start(Section::Cells) as u32);
}

#[test]
fn at_most_256_footnotes() {
    let footnotes = |number| {
        let footnote = [template(), vec![0x58, 1, 0, 0, 0]].concat();
        Parts::shortest_with(Section::Footnotes, list(&vec![footnote; number]))
    };
    assert_eq!(read(&footnotes(256).bytes(), 0, 0).0.refusal, 0);
    assert_refused(&footnotes(257).bytes(), LIMIT, 69);
}
