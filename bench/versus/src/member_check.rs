//! One member, read by both readers with lent areas of several lengths.

use digarumbi::lent::{self, CELL_AREA, CELL_RECORD, MEMBER_ANSWER, NODE_AREA, NODE_RECORD};
use digarumbi_bench::member::{read_member, Answer};
use digarumbi_bench::random::Random;
use digarumbi_bench::refusal::{CELL_AREA as CELLS_DO_NOT_FIT, NODE_AREA as NODES_DO_NOT_FIT};

use crate::area::Area;
use crate::difference::Difference;
use crate::inputs::Check;
use crate::table_check::check_table;
use crate::tally::Tally;
use crate::value_check::ValueCheck;
use crate::words;

/// Every so many members are also read with the areas that always suffice.
const FULL_AREAS_EVERY: u64 = 32;
/// The first bytes of a member of version 1.
const VERSION_1: [u8; 6] = [1, 0, 1, 0, 0, 0];
/// Most nodes of a member whose names are asked for.
const NAMES_ASKED: usize = 40;

/// Numbers of nodes and cells.
#[derive(Clone, Copy, Default)]
struct Counts {
    nodes: usize,
    cells: usize,
}

/// Lengths of the lent areas, in words.
#[derive(Clone, Copy, Debug)]
struct Lengths {
    answer: usize,
    nodes: usize,
    cells: usize,
}

struct Areas {
    answer: Area<u32>,
    nodes: Area<u32>,
    cells: Area<u32>,
}

impl Areas {
    fn new() -> Areas {
        let [answer, nodes, cells] = ["answer", "nodes", "cells"].map(Area::words);
        Areas { answer, nodes, cells }
    }

    fn fill(&mut self, lengths: Lengths) {
        self.answer.fill(lengths.answer);
        self.nodes.fill(lengths.nodes);
        self.cells.fill(lengths.cells);
    }

    /// Reads by the independent reader.
    fn read(&mut self, member: &[u8]) -> Answer {
        let answer = read_member(member, self.nodes.lent(), self.cells.lent());
        let words = words::member_answer(&answer);
        self.answer.lent()[..words.len()].copy_from_slice(&words);
        answer
    }

    fn compare(&self, expected: &Areas) -> Result<(), Difference> {
        self.answer.compare(&expected.answer)?;
        self.nodes.compare(&expected.nodes)?;
        self.cells.compare(&expected.cells)
    }
}

pub struct MemberCheck {
    expected: Areas,
    found: Areas,
    random: Random,
    /// What members got with areas of the right lengths.
    pub members: Tally,
    /// What all readings got.
    pub readings: Tally,
    /// What readings of members got whose version is 1, whole and damaged ones.
    pub version_1: Tally,
    /// The names and cells of accepted members.
    pub values: ValueCheck,
}

impl Check for MemberCheck {
    fn check(&mut self, member: &[u8], original: &[u8]) -> Result<(), Difference> {
        // A refused member gets areas as long as those of the member it was made from.
        let counts = counts(member).or_else(|| counts(original)).unwrap_or_default();
        let (nodes, cells) = (NODE_RECORD * counts.nodes, CELL_RECORD * counts.cells);
        let exact = Lengths { answer: MEMBER_ANSWER, nodes, cells };
        for lengths in self.lengths(exact) {
            self.compare(member, lengths)?;
        }
        let answer = self.compare(member, exact)?.expect("an answer area of the right length");
        self.members.count(answer.refusal);
        if answer.refusal == 0 {
            self.check_names(member, counts)?;
            self.check_values(member, &answer)?;
            check_table(member, &answer, self.expected.nodes.lent(), self.expected.cells.lent())?;
        }
        self.check_parts(member)
    }

    /// The start, and the first dimension: most damage before it is refused before it.
    fn damage_starts(&self, original: &[u8]) -> Vec<usize> {
        let answer = read_member(original, &mut [0; NODE_AREA], &mut [0; CELL_AREA]);
        vec![0, answer.dimensions[0].name_place as usize]
    }
}

impl MemberCheck {
    pub fn new(seed: u64) -> MemberCheck {
        MemberCheck {
            expected: Areas::new(),
            found: Areas::new(),
            random: Random::new(seed),
            members: Tally::default(),
            readings: Tally::default(),
            version_1: Tally::default(),
            values: ValueCheck::default(),
        }
    }

    /// Lengths other than the exact ones: the areas one word short, empty and larger.
    fn lengths(&mut self, exact: Lengths) -> Vec<Lengths> {
        let short = |words: usize| words.saturating_sub(1);
        let mut lengths = vec![
            Lengths { answer: exact.answer - 1, ..exact },
            Lengths { answer: 0, ..exact },
            Lengths { nodes: short(exact.nodes), ..exact },
            Lengths { cells: short(exact.cells), ..exact },
            Lengths { nodes: 0, cells: 0, ..exact },
            Lengths {
                answer: exact.answer + 1 + self.random.size(20),
                nodes: exact.nodes + 1 + self.random.size(20),
                cells: exact.cells + 1 + self.random.size(20),
            },
        ];
        if self.members.total() % FULL_AREAS_EVERY == 0 {
            lengths.push(Lengths { nodes: NODE_AREA, cells: CELL_AREA, ..exact });
        }
        lengths
    }

    /// Reads by both readers with areas of these lengths. Gives the independent reader's answer,
    /// or nothing if the area for it is too short.
    fn compare(&mut self, member: &[u8], lengths: Lengths) -> Result<Option<Answer>, Difference> {
        let answer = self
            .read_both(member, lengths)
            .map_err(|difference| difference.with(format_args!("{lengths:?} in words")))?;
        if let Some(answer) = answer {
            self.readings.count(answer.refusal);
            if member.starts_with(&VERSION_1) {
                self.version_1.count(answer.refusal);
            }
        }
        Ok(answer)
    }

    fn read_both(&mut self, member: &[u8], lengths: Lengths) -> Result<Option<Answer>, Difference> {
        self.expected.fill(lengths);
        self.found.fill(lengths);
        let answer = (lengths.answer >= MEMBER_ANSWER).then(|| self.expected.read(member));
        let expected = answer.map_or(0, |_| MEMBER_ANSWER);
        let Areas { answer: words, nodes, cells } = &mut self.found;
        let found = lent::read_member(member, words.lent(), nodes.lent(), cells.lent());
        Difference::compare("returned", &expected, &found)?;
        self.found.compare(&self.expected)?;
        Ok(answer)
    }

    /// The names of an accepted member's nodes and the nodes after their groups, and what node
    /// areas with any words get.
    fn check_names(&mut self, member: &[u8], counts: Counts) -> Result<(), Difference> {
        let nodes = self.expected.nodes.lent();
        for i in 0..=counts.nodes.min(NAMES_ASKED) {
            // The right count, one too large for the area, and ones smaller than the records.
            for count in [counts.nodes, counts.nodes + 1, i, i + 1] {
                check_name(member, nodes, count, i)?;
            }
        }
        for i in 0..counts.nodes.min(NAMES_ASKED) {
            check_children(nodes, counts.nodes, i)?;
        }
        let last = counts.nodes.saturating_sub(1);
        check_name(member, &nodes[..nodes.len().saturating_sub(1)], counts.nodes, last)?;
        check_name(member, nodes, counts.nodes, usize::MAX)?;
        check_name(member, nodes, usize::MAX, last)?;
        // As words this is fewer than the area has, if it is not seen to be too large.
        check_name(member, nodes, usize::MAX / NODE_RECORD + counts.nodes, last)?;
        let words: Vec<u32> =
            (0..self.random.size(40)).map(|_| self.number(member.len()) as u32).collect();
        let counts = [words.len() / NODE_RECORD, self.random.size(8), self.number(words.len())];
        (0..8).try_for_each(|i| {
            counts.iter().try_for_each(|&count| check_name(member, &words, count, i))
        })
    }

    /// What the names and cells of an accepted member say.
    fn check_values(&mut self, member: &[u8], answer: &Answer) -> Result<(), Difference> {
        let version = u32::from(member[2]);
        let dimensions = &answer.dimensions[..answer.dimension_count as usize];
        let dimensions = dimensions.iter().map(|entry| (entry.name_place, entry.name_length));
        let nodes = self.expected.nodes.lent().chunks(NODE_RECORD);
        let cells = self.expected.cells.lent().chunks(CELL_RECORD);
        let nodes = nodes.map(|record| (record[3], record[4]));
        let cells = cells.map(|record| (record[1], record[2]));
        let mut values = dimensions.chain(nodes).chain(cells);
        values.try_for_each(|(place, length)| {
            self.values.check_record(version, member, place, length)
        })
    }

    fn check_parts(&mut self, member: &[u8]) -> Result<(), Difference> {
        for _ in 0..4 {
            let (place, length) = (self.number(member.len()), self.number(member.len()));
            let end = place.checked_add(length);
            let inside = end.is_some_and(|end| end <= member.len());
            let expected = if inside { length } else { 0 };
            let found = lent::part(member, place, length);
            Difference::compare(format_args!("part {place} {length}"), &expected, &found)?;
        }
        Ok(())
    }

    /// A number, often near 0, a member's length or the largest.
    fn number(&mut self, length: usize) -> usize {
        let near = self.random.size(3);
        match self.random.below(4) {
            0 => near,
            1 => (length + 1).saturating_sub(near),
            2 => usize::MAX - near,
            _ => self.random.size(length),
        }
    }
}

/// The counts of a member that is accepted if the areas are large enough.
fn counts(member: &[u8]) -> Option<Counts> {
    let answer = read_member(member, &mut [], &mut []);
    matches!(answer.refusal, 0 | NODES_DO_NOT_FIT | CELLS_DO_NOT_FIT)
        .then_some(Counts { nodes: answer.node_count as usize, cells: answer.cell_count as usize })
}

/// The words of `count` records, none where the area has fewer.
fn filled(area: &[u32], count: usize) -> &[u32] {
    let words = count.checked_mul(NODE_RECORD);
    words.and_then(|words| area.get(..words)).unwrap_or_default()
}

/// Place and length of a name, both 0 if there is no record `i` or it points outside the member.
fn expected_name(member: &[u8], area: &[u32], count: usize, i: usize) -> (usize, usize) {
    let mut records = filled(area, count).chunks_exact(NODE_RECORD);
    let Some(record) = records.nth(i) else { return (0, 0) };
    let (place, length) = (record[3] as usize, record[4] as usize);
    if place + length <= member.len() {
        (place, length)
    } else {
        (0, 0)
    }
}

fn check_name(member: &[u8], nodes: &[u32], count: usize, i: usize) -> Result<(), Difference> {
    let expected = expected_name(member, nodes, count, i);
    let found = lent::node_name(member, nodes, count, i);
    let of = format_args!("node {i} of {count} in {nodes:?}");
    Difference::compare(format_args!("name of {of}"), &expected, &found)?;
    let expected = expected_after(nodes, count, i);
    let found = lent::node_after(nodes, count, i);
    Difference::compare(format_args!("node after {of}"), &expected, &found)
}

/// The direct children of a node are those whose parent it is.
fn check_children(nodes: &[u32], count: usize, i: usize) -> Result<(), Difference> {
    let parent = |j: &usize| nodes[NODE_RECORD * j + 2] as usize == i;
    let expected: Vec<usize> = (0..count).filter(parent).collect();
    let found: Vec<usize> = lent::children(nodes, count, i).collect();
    Difference::compare(format_args!("children of node {i} in {nodes:?}"), &expected, &found)
}

/// The node after node `i` and all that is below it, `count` for a record that is not there or has
/// a last word that no record has.
fn expected_after(area: &[u32], count: usize, i: usize) -> usize {
    let record = filled(area, count).chunks_exact(NODE_RECORD).nth(i);
    let size = record.map_or(0, |record| record[6] as usize);
    let after = i.saturating_add(size);
    if i < after && after < count {
        after
    } else {
        count
    }
}
