//! Totals of one member by both readers, with lent areas of several lengths.

use digarumbi::lent::{
    self, CELL_AREA, CELL_RECORD, NODE_AREA, NODE_RECORD, TOTALS_ANSWER, TOTAL_ANSWER, TOTAL_RECORD,
};
use digarumbi_bench::member::{read_member, Answer, Refused};
use digarumbi_bench::random::Random;
use digarumbi_bench::totals::{total, totals, Found, LeafTotal, Total};

use crate::area::Area;
use crate::difference::Difference;
use crate::inputs::Check;
use crate::tally::Tally;
use crate::words;

/// Leaves of a dimension that are asked for one by one.
const LEAVES_ASKED: u32 = 40;

/// Lengths of the lent areas, in words.
#[derive(Clone, Copy, Debug)]
struct Lengths {
    answer: usize,
    totals: usize,
    nodes: usize,
    cells: usize,
}

struct Areas {
    answer: Area<u32>,
    totals: Area<u32>,
    nodes: Area<u32>,
    cells: Area<u32>,
}

impl Areas {
    fn new() -> Areas {
        let [answer, totals, nodes, cells] =
            ["answer", "totals", "nodes", "cells"].map(Area::words);
        Areas { answer, totals, nodes, cells }
    }

    fn fill(&mut self, lengths: Lengths) {
        self.answer.fill(lengths.answer);
        self.totals.fill(lengths.totals);
        self.nodes.fill(lengths.nodes);
        self.cells.fill(lengths.cells);
    }

    fn compare(&self, expected: &Areas) -> Result<(), Difference> {
        self.answer.compare(&expected.answer)?;
        self.totals.compare(&expected.totals)?;
        self.nodes.compare(&expected.nodes)?;
        self.cells.compare(&expected.cells)
    }
}

/// What a member holds: leaves of its dimensions, numbers of nodes and cells.
struct Shape {
    leaves: Vec<u32>,
    nodes: usize,
    cells: usize,
}

impl From<&Answer> for Shape {
    fn from(answer: &Answer) -> Shape {
        let dimensions = &answer.dimensions[..answer.dimension_count as usize];
        Shape {
            leaves: dimensions.iter().map(|dimension| dimension.leaves).collect(),
            nodes: answer.node_count as usize,
            cells: answer.cell_count as usize,
        }
    }
}

pub struct TotalsCheck {
    expected: Areas,
    found: Areas,
    random: Random,
    pub members: Tally,
    /// What calls for one leaf got.
    pub one: Tally,
    /// What calls for all leaves of a dimension got, and what their leaves got.
    pub all: Tally,
    pub leaves: Tally,
}

impl Check for TotalsCheck {
    fn check(&mut self, member: &[u8], original: &[u8]) -> Result<(), Difference> {
        let answer = full_answer(member);
        self.members.count(answer.refusal);
        if answer.refusal != 0 {
            // Areas as long as those of the member that it was made from.
            return self.refused(member, &Shape::from(&full_answer(original)));
        }
        let shape = Shape::from(&answer);
        let count = shape.leaves.len() as u32;
        for dimension in (0..=count).chain([u32::MAX]) {
            self.dimension(member, &shape, dimension)?;
        }
        self.bindings(member, &shape)
    }

    fn damage_starts(&self, original: &[u8]) -> Vec<usize> {
        let mut cells = [0; CELL_AREA];
        let answer = read_member(original, &mut [0; NODE_AREA], &mut cells);
        vec![0, answer.dimensions[0].name_place as usize, cells[1] as usize]
    }
}

/// The answer with areas that always suffice.
fn full_answer(member: &[u8]) -> Answer {
    read_member(member, &mut [0; NODE_AREA], &mut [0; CELL_AREA])
}

impl TotalsCheck {
    pub fn new(seed: u64) -> TotalsCheck {
        TotalsCheck {
            expected: Areas::new(),
            found: Areas::new(),
            random: Random::new(seed),
            members: Tally::default(),
            one: Tally::default(),
            all: Tally::default(),
            leaves: Tally::default(),
        }
    }

    fn refused(&mut self, member: &[u8], shape: &Shape) -> Result<(), Difference> {
        let leaves = shape.leaves.first().copied().unwrap_or_default();
        for dimension in [0, u32::MAX] {
            let lengths = exact(shape, leaves);
            self.one(member, dimension, 0, Lengths { answer: TOTAL_ANSWER, ..lengths })?;
            self.all(member, dimension, leaves, lengths)?;
        }
        Ok(())
    }

    /// All leaves of a dimension, and some that are not there, with areas of the exact lengths;
    /// one of them also with other lengths.
    fn dimension(
        &mut self,
        member: &[u8],
        shape: &Shape,
        dimension: u32,
    ) -> Result<(), Difference> {
        let n = shape.leaves.get(dimension as usize).copied().unwrap_or_default();
        let all = exact(shape, n);
        let one = Lengths { answer: TOTAL_ANSWER, totals: 0, ..all };
        for leaf in (0..n.min(LEAVES_ASKED)).chain([n.saturating_sub(1), n, u32::MAX]) {
            self.one(member, dimension, leaf, one)?;
        }
        self.all(member, dimension, n, all)?;
        let leaf = self.random.below(u64::from(n) + 1) as u32;
        for lengths in self.other_lengths(one) {
            self.one(member, dimension, leaf, lengths)?;
        }
        for lengths in self.other_lengths(all) {
            self.all(member, dimension, n, lengths)?;
        }
        Ok(())
    }

    /// The areas one word short, empty and larger.
    fn other_lengths(&mut self, exact: Lengths) -> Vec<Lengths> {
        let short = |words: usize| words.saturating_sub(1);
        let mut larger = |words: usize| words + 1 + self.random.size(20);
        vec![
            Lengths { answer: exact.answer - 1, ..exact },
            Lengths { answer: 0, ..exact },
            Lengths { totals: short(exact.totals), ..exact },
            Lengths { totals: 0, ..exact },
            Lengths { nodes: short(exact.nodes), ..exact },
            Lengths { cells: short(exact.cells), ..exact },
            Lengths { nodes: 0, cells: 0, ..exact },
            Lengths { totals: 0, nodes: 0, cells: short(exact.cells), ..exact },
            Lengths {
                answer: larger(exact.answer),
                totals: larger(exact.totals),
                nodes: larger(exact.nodes),
                cells: larger(exact.cells),
            },
        ]
    }

    /// Asks both readers for one leaf.
    fn one(
        &mut self,
        member: &[u8],
        dimension: u32,
        leaf: u32,
        lengths: Lengths,
    ) -> Result<(), Difference> {
        self.one_by_both(member, dimension, leaf, lengths).map_err(|difference| {
            difference.with(format_args!("dimension {dimension}, leaf {leaf}, {lengths:?}"))
        })
    }

    fn one_by_both(
        &mut self,
        member: &[u8],
        dimension: u32,
        leaf: u32,
        lengths: Lengths,
    ) -> Result<(), Difference> {
        self.expected.fill(lengths);
        self.found.fill(lengths);
        let Areas { answer, nodes, cells, .. } = &mut self.expected;
        let mut returned = 0;
        if let Some(answer) = answer.lent().get_mut(..TOTAL_ANSWER) {
            let result = total(member, dimension, leaf, nodes.lent(), cells.lent());
            answer.copy_from_slice(&words::total_answer(&result));
            self.one.count(answer[0]);
            returned = TOTAL_ANSWER;
        }
        let Areas { answer, nodes, cells, .. } = &mut self.found;
        let found = lent::total(member, dimension, leaf, answer.lent(), nodes.lent(), cells.lent());
        Difference::compare("returned", &returned, &found)?;
        self.found.compare(&self.expected)
    }

    /// Asks both readers for all leaves of a dimension, of which there are `n`.
    fn all(
        &mut self,
        member: &[u8],
        dimension: u32,
        n: u32,
        lengths: Lengths,
    ) -> Result<(), Difference> {
        self.all_by_both(member, dimension, n, lengths).map_err(|difference| {
            difference.with(format_args!("all of dimension {dimension}, {lengths:?}"))
        })
    }

    fn all_by_both(
        &mut self,
        member: &[u8],
        dimension: u32,
        n: u32,
        lengths: Lengths,
    ) -> Result<(), Difference> {
        self.expected.fill(lengths);
        self.found.fill(lengths);
        let Areas { answer, totals: records, nodes, cells } = &mut self.expected;
        let mut returned = 0;
        if let Some(answer) = answer.lent().get_mut(..TOTALS_ANSWER) {
            let room = lengths.totals / TOTAL_RECORD;
            let result = totals(member, dimension, room, nodes.lent(), cells.lent());
            answer.copy_from_slice(&words::totals_answer(&result, n));
            self.all.count(answer[0]);
            put_records(&result, records.lent(), &mut self.leaves);
            returned = TOTALS_ANSWER;
        }
        let Areas { answer, totals, nodes, cells } = &mut self.found;
        let found = lent::totals(
            member,
            dimension,
            answer.lent(),
            totals.lent(),
            nodes.lent(),
            cells.lent(),
        );
        Difference::compare("returned", &returned, &found)?;
        self.found.compare(&self.expected)
    }

    /// What the bindings' table says of all its leaves, and of one that is not there.
    fn bindings(&mut self, member: &[u8], shape: &Shape) -> Result<(), Difference> {
        let table = digarumbi::read_member(member).expect("an accepted member");
        let (mut nodes, mut cells) =
            (vec![0; NODE_RECORD * shape.nodes], vec![0; CELL_RECORD * shape.cells]);
        for dimension in 0..=shape.leaves.len() {
            let n = shape.leaves.get(dimension).map_or(0, |&n| n as usize);
            let expected = totals(member, dimension as u32, n, &mut nodes, &mut cells);
            let expected = expected.map(|found| found.found).map_err(|no| no.refusal.to_string());
            let expected: Result<Vec<_>, _> =
                expected.map(|leaves| leaves.into_iter().map(expected_leaf).collect());
            let found = table.totals(dimension).map_err(|no| no.to_string());
            let found: Result<Vec<_>, _> =
                found.map(|leaves| leaves.into_iter().map(found_leaf).collect());
            Difference::compare("the bindings' totals", &expected, &found)?;
            let leaf = self.random.size(n);
            let one = total(member, dimension as u32, leaf as u32, &mut nodes, &mut cells);
            let one = one.map(|found| found.found).map_err(|no| no.refusal);
            let found = found_leaf(table.total(dimension, leaf));
            Difference::compare("the bindings' total", &expected_leaf(one), &found)?;
        }
        Ok(())
    }
}

/// The exact lengths for all `n` leaves of a dimension.
fn exact(shape: &Shape, n: u32) -> Lengths {
    Lengths {
        answer: TOTALS_ANSWER,
        totals: TOTAL_RECORD * n as usize,
        nodes: NODE_RECORD * shape.nodes,
        cells: CELL_RECORD * shape.cells,
    }
}

/// Writes and counts the total records of a call that was not refused.
fn put_records(
    result: &Result<Found<Vec<LeafTotal>>, Refused>,
    records: &mut [u32],
    leaves: &mut Tally,
) {
    let Ok(found) = result else { return };
    for (record, leaf) in records.chunks_exact_mut(TOTAL_RECORD).zip(&found.found) {
        record.copy_from_slice(&words::total_record(leaf));
        leaves.count(record[0]);
    }
}

/// A total's fields, doubles by their bits, or the refusal's words.
type Leaf = Result<([u64; 3], [u32; 3]), String>;

fn expected_leaf(leaf: LeafTotal) -> Leaf {
    let fields = |t: Total| {
        ([t.total, t.smallest.to_bits(), t.largest.to_bits()], [t.numbers, t.texts, t.missing])
    };
    leaf.map(fields).map_err(|refusal| refusal.to_string())
}

fn found_leaf(leaf: Result<digarumbi::Total, digarumbi::Refusal>) -> Leaf {
    let fields = |t: digarumbi::Total| {
        ([t.total, t.smallest.to_bits(), t.largest.to_bits()], [t.numbers, t.texts, t.missing])
    };
    leaf.map(fields).map_err(|refusal| refusal.to_string())
}
