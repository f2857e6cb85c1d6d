//! Lists of members in one buffer, read by both in one call, with lent areas of several lengths.

use digarumbi::lent::{self, CELL_RECORD, MEMBERS, MEMBER_ANSWER, MOST_MEMBERS, NODE_RECORD};
use digarumbi::{part, read_member as table, read_members as tables};
use digarumbi_bench::damage::damaged;
use digarumbi_bench::generate::member;
use digarumbi_bench::limits::MEMBER_BYTES;
use digarumbi_bench::member::{read_member, Answer};
use digarumbi_bench::members::read_members;
use digarumbi_bench::random::Random;
use digarumbi_bench::refusal::Refusal;

use crate::area::Area;
use crate::difference::Difference;
use crate::large::member_of_strings;
use crate::stored;
use crate::tally::Tally;
use crate::words;

/// Generated lists.
const GENERATED: u64 = 20_000;
/// Every so many of them is also read by the bindings, table by table.
const TABLES_EVERY: u64 = 16;

/// Start and length of a member.
type Entry = [u32; 2];

/// Compares both on many lists.
pub fn check(seed: u64) -> Result<MembersCheck, Difference> {
    let mut check = MembersCheck::new();
    check.edges()?;
    let stored = stored::real_members();
    for number in 0..GENERATED {
        let mut random = Random::new(seed.wrapping_add(number << 20));
        let members: Vec<Vec<u8>> =
            (0..random.size(5)).map(|_| any(&mut random, &stored)).collect();
        check
            .night(number, &members, &mut random)
            .map_err(|difference| difference.with(format_args!("list {number}")))?;
    }
    Ok(check)
}

/// A member that is stored, generated, or damaged.
fn any(random: &mut Random, stored: &[stored::Stored]) -> Vec<u8> {
    let bytes = match random.size(stored.len()) {
        0 => member(random).bytes,
        at => stored[at - 1].bytes.clone(),
    };
    if random.once_in(4) {
        damaged(&bytes, random)
    } else {
        bytes
    }
}

#[derive(Clone, Copy, Debug)]
struct Lengths {
    answers: usize,
    nodes: usize,
    cells: usize,
}

struct Areas {
    answers: Area<u32>,
    nodes: Area<u32>,
    cells: Area<u32>,
}

impl Areas {
    fn new() -> Areas {
        let [answers, nodes, cells] = ["answers", "nodes", "cells"].map(Area::words);
        Areas { answers, nodes, cells }
    }

    fn fill(&mut self, lengths: Lengths) {
        self.answers.fill(lengths.answers);
        self.nodes.fill(lengths.nodes);
        self.cells.fill(lengths.cells);
    }

    fn compare(&self, expected: &Areas) -> Result<(), Difference> {
        self.answers.compare(&expected.answers)?;
        self.nodes.compare(&expected.nodes)?;
        self.cells.compare(&expected.cells)
    }
}

pub struct MembersCheck {
    expected: Areas,
    found: Areas,
    /// What the lists got.
    pub lists: Tally,
    /// What their members got.
    pub members: Tally,
}

impl MembersCheck {
    fn new() -> MembersCheck {
        MembersCheck {
            expected: Areas::new(),
            found: Areas::new(),
            lists: Tally::default(),
            members: Tally::default(),
        }
    }

    /// Every number of words of a list around the limits, and members at the limit of their length.
    fn edges(&mut self) -> Result<(), Difference> {
        for words in (0..8).chain(120..140) {
            let list: Vec<u32> = (0..words).map(|word| word % 2 * 3).collect();
            self.several_lengths(b"member", &list, 30, 20)?;
        }
        let buffer = member_of_strings(MEMBER_BYTES + 1);
        let long = buffer.len() as u32;
        let list = [0, long, 0, long - 1, 1, long, 1, long - 1, long, 0, long + 1, 0];
        self.several_lengths(&buffer, &list, 0, 0)
    }

    /// A list of these members, one after the other in the buffer, with entries of other kinds.
    fn night(
        &mut self,
        number: u64,
        members: &[Vec<u8>],
        random: &mut Random,
    ) -> Result<(), Difference> {
        let buffer = members.concat();
        let mut at = 0;
        let mut entries: Vec<Entry> = Vec::new();
        for member in members {
            entries.push([at, member.len() as u32]);
            at += member.len() as u32;
        }
        for _ in 0..random.size(3) {
            entries.push(other_entry(&entries, buffer.len() as u32, random));
        }
        if random.once_in(50) {
            let more = random.pick(&[MOST_MEMBERS - 1, MOST_MEMBERS, MOST_MEMBERS + 1]);
            entries = entries.iter().copied().cycle().take(more).collect();
        }
        random.shuffle(&mut entries);
        let mut list = entries.as_flattened().to_vec();
        if random.once_in(20) {
            list.push(random.size(buffer.len()) as u32);
        }
        let (nodes, cells) = most_words(&buffer, &entries);
        self.several_lengths(&buffer, &list, nodes, cells)?;
        if number % TABLES_EVERY == 0 {
            check_tables(&buffer, &entries)?;
        }
        Ok(())
    }

    /// Shares of as many words as the largest member needs, one word fewer, none, and more, each
    /// without and with a remainder; and answers that are too short and longer.
    fn several_lengths(
        &mut self,
        buffer: &[u8],
        list: &[u32],
        nodes: usize,
        cells: usize,
    ) -> Result<(), Difference> {
        let count = list.len() / 2;
        let answers = MEMBERS + MEMBER_ANSWER * count;
        let exact = Lengths { answers, nodes: nodes * count, cells: cells * count };
        let left = count.saturating_sub(1);
        for lengths in [
            exact,
            Lengths { nodes: exact.nodes + left, cells: exact.cells + left / 2, ..exact },
            Lengths { nodes: exact.nodes.saturating_sub(1), ..exact },
            Lengths { cells: exact.cells.saturating_sub(1), ..exact },
            Lengths { nodes: 0, cells: 0, ..exact },
            Lengths {
                answers: answers + 5,
                nodes: 2 * exact.nodes + 1,
                cells: 2 * exact.cells + 1,
            },
            Lengths { answers: answers - 1, ..exact },
            Lengths { answers: MEMBERS, ..exact },
            Lengths { answers: MEMBERS - 1, ..exact },
            Lengths { answers: 0, ..exact },
        ] {
            self.compare(buffer, list, lengths).map_err(|difference| {
                difference
                    .with(format_args!("{lengths:?} in words, list {list:?}"))
                    .for_input("buffer", buffer)
            })?;
        }
        Ok(())
    }

    fn compare(&mut self, buffer: &[u8], list: &[u32], lengths: Lengths) -> Result<(), Difference> {
        self.expected.fill(lengths);
        self.found.fill(lengths);
        let expected = self.read_expected(buffer, list);
        let Areas { answers, nodes, cells } = &mut self.found;
        let found = lent::read_members(buffer, list, answers.lent(), nodes.lent(), cells.lent());
        Difference::compare("returned", &expected, &found)?;
        self.found.compare(&self.expected)
    }

    /// Reads by the independent reader, where there is room for the answer.
    fn read_expected(&mut self, buffer: &[u8], list: &[u32]) -> usize {
        let Areas { answers, nodes, cells } = &mut self.expected;
        // What is answered has the same length for any areas.
        let words = answer_words(&read_members(buffer, list, &mut [], &mut []));
        let Some(room) = answers.lent().get_mut(..words.len()) else { return 0 };
        let result = read_members(buffer, list, nodes.lent(), cells.lent());
        room.copy_from_slice(&answer_words(&result));
        self.lists.count(result.as_ref().map_or_else(|refusal| refusal.number, |_| 0));
        for answer in result.iter().flatten() {
            self.members.count(answer.refusal);
        }
        words.len()
    }
}

/// The refusal of the list and its place, and the words of each member.
fn answer_words(result: &Result<Vec<Answer>, Refusal>) -> Vec<u32> {
    match result {
        Ok(answers) => {
            let members = answers.iter().flat_map(words::member_answer);
            [0, 0].into_iter().chain(members).collect()
        }
        Err(refusal) => vec![refusal.number, refusal.place as u32],
    }
}

/// An entry that overlaps others, is empty, or is not inside the buffer.
fn other_entry(entries: &[Entry], length: u32, random: &mut Random) -> Entry {
    let near = random.size(3) as u32;
    let start = random.size(length as usize) as u32;
    let rest = length - start;
    match random.below(9) {
        0 => [start, 0],
        1 => [length, near],
        2 => [length + 1, 0],
        3 => [start, rest + near],
        4 => [u32::MAX - near, u32::MAX],
        5 => [start, u32::MAX - near],
        6 => [start, random.size(rest as usize) as u32],
        7 if !entries.is_empty() => random.pick(entries),
        _ => [0, length],
    }
}

/// The words of the most nodes and cells that one of these members has.
fn most_words(buffer: &[u8], entries: &[Entry]) -> (usize, usize) {
    let answers = entries.iter().map(|&[start, length]| {
        read_member(part(buffer, start as usize, length as usize), &mut [], &mut [])
    });
    answers.fold((0, 0), |(nodes, cells), answer| {
        let node_words = NODE_RECORD * answer.node_count as usize;
        let cell_words = CELL_RECORD * answer.cell_count as usize;
        (nodes.max(node_words), cells.max(cell_words))
    })
}

/// The bindings' tables are those of the members one by one; one that is not inside the buffer is
/// refused as no bytes are.
fn check_tables(buffer: &[u8], entries: &[Entry]) -> Result<(), Difference> {
    let found = tables(buffer, entries);
    if entries.len() > MOST_MEMBERS {
        let number = found.map_or_else(|refusal| refusal.number, |_| 0);
        return Difference::compare("refusal of the list", &26, &number);
    }
    let member = |&[start, length]: &Entry| part(buffer, start as usize, length as usize);
    let expected = Ok(entries.iter().map(|entry| table(member(entry))).collect());
    Difference::compare("tables", &expected, &found)
}
