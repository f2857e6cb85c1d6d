//! Positions of cells and indexes of positions, in random tables, whole and damaged.

use digarumbi::lent::{self, INDEX_WORDS, POSITION_WORDS};
use digarumbi_bench::positions::{index, position};
use digarumbi_bench::random::Random;
use digarumbi_bench::refusal::Refusal;

use crate::area::Area;
use crate::difference::Difference;
use crate::tally::Tally;

const TABLES: u32 = 200_000;
/// Indexes and positions that are asked for in each table.
const QUESTIONS: u32 = 6;

/// The n of dimensions, and axes that may be wrong.
struct Table {
    ns: Vec<u32>,
    counts: [u32; 3],
    order: Vec<u32>,
}

/// What both answered.
pub struct PositionCheck {
    expected: Area<u32>,
    found: Area<u32>,
    pub positions: Tally,
    pub indexes: Tally,
}

/// Compares both functions in many tables.
pub fn check(seed: u64) -> Result<PositionCheck, Difference> {
    let mut random = Random::new(seed);
    let mut check = PositionCheck {
        expected: Area::words("answer"),
        found: Area::words("answer"),
        positions: Tally::default(),
        indexes: Tally::default(),
    };
    for _ in 0..TABLES {
        let table = table(&mut random);
        for _ in 0..QUESTIONS {
            check.ask(&table, &mut random).map_err(|difference| {
                let Table { ns, counts, order } = &table;
                difference.with(format!("n {ns:?}, counts {counts:?}, order {order:?}"))
            })?;
        }
    }
    Ok(check)
}

fn table(random: &mut Random) -> Table {
    let dimensions = if random.once_in(20) { 15 + random.size(3) } else { random.size(6) };
    let ns: Vec<u32> = (0..dimensions).map(|_| n(random, dimensions)).collect();
    let mut order: Vec<u32> = (0..dimensions as u32).collect();
    random.shuffle(&mut order);
    let first = random.size(dimensions);
    let second = random.size(dimensions - first);
    let mut counts = [first, second, dimensions - first - second].map(|count| count as u32);
    if random.once_in(4) {
        damage(random, &mut counts, &mut order);
    }
    Table { ns, counts, order }
}

/// An n: small where there are many dimensions, sometimes 0, sometimes at the limits.
fn n(random: &mut Random, dimensions: usize) -> u32 {
    if random.once_in(40) {
        return random.pick(&[0, 65_535, 65_536, 1 << 31, u32::MAX]);
    }
    let most = if dimensions > 8 { 4 } else { 40 };
    1 + random.below(most) as u32
}

fn damage(random: &mut Random, counts: &mut [u32; 3], order: &mut Vec<u32>) {
    let entry = random.size(order.len().saturating_sub(1));
    match random.below(5) {
        0 => counts[random.size(2)] = random.pick(&[0, 1, 17, u32::MAX]),
        1 => order.push(random.size(order.len()) as u32),
        2 => drop(order.pop()),
        _ if order.is_empty() => {}
        3 => order[entry] = random.pick(&[0, 1, 16, u32::MAX]),
        _ => order[entry] = order.len() as u32,
    }
}

impl PositionCheck {
    /// Asks for an index, for the position that it has, and for some other position.
    fn ask(&mut self, table: &Table, random: &mut Random) -> Result<(), Difference> {
        let places = table.ns.iter().fold(1u32, |product, &n| product.saturating_mul(n));
        let k = match random.below(8) {
            0 => places,
            1 => places.wrapping_sub(1),
            2 => random.next_number() as u32,
            _ => random.below(u64::from(places.max(1))) as u32,
        };
        let at = self.position(table, k)?;
        if let Ok(at) = at {
            let back = self.index(table, at)?;
            Difference::compare(format_args!("the index at the position of {k}"), &Ok(k), &back)?;
        }
        let mut other = at.unwrap_or([0; 3]);
        other[random.size(2)] = match random.below(3) {
            0 => random.size(40) as u32,
            1 => random.pick(&[0, 1, places, places.wrapping_sub(1), u32::MAX]),
            _ => random.below(u64::from(places.max(1))) as u32,
        };
        self.index(table, other).map(drop)
    }

    fn position(&mut self, table: &Table, k: u32) -> Result<Result<[u32; 3], Refusal>, Difference> {
        let Table { ns, counts, order } = table;
        let expected = position(ns, *counts, order, k);
        let words: [u32; POSITION_WORDS] = match expected {
            Ok([layer, row, column]) => [0, 0, layer, row, column],
            Err(refusal) => [refusal.number, refusal.place as u32, 0, 0, 0],
        };
        self.positions.count(words[0]);
        self.answer(&words, |answer| lent::position(ns, *counts, order, k, answer))
            .map_err(|difference| difference.with(format_args!("position of {k}")))?;
        Ok(expected)
    }

    fn index(&mut self, table: &Table, at: [u32; 3]) -> Result<Result<u32, Refusal>, Difference> {
        let Table { ns, counts, order } = table;
        let expected = index(ns, *counts, order, at);
        let words: [u32; INDEX_WORDS] = match expected {
            Ok(index) => [0, 0, index],
            Err(refusal) => [refusal.number, refusal.place as u32, 0],
        };
        self.indexes.count(words[0]);
        self.answer(&words, |answer| lent::index(ns, *counts, order, at, answer))
            .map_err(|difference| difference.with(format_args!("index at {at:?}")))?;
        Ok(expected)
    }

    /// The answers in areas of several lengths.
    fn answer(
        &mut self,
        words: &[u32],
        ask: impl Fn(&mut [u32]) -> usize,
    ) -> Result<(), Difference> {
        let least = words.len();
        for length in [least, least - 1, 0, least + 3] {
            self.expected.fill(length);
            self.found.fill(length);
            let mut expected = 0;
            if length >= least {
                self.expected.lent()[..least].copy_from_slice(words);
                expected = least;
            }
            let found = ask(self.found.lent());
            Difference::compare(format_args!("{length} words, returned"), &expected, &found)?;
            self.found.compare(&self.expected)?;
        }
        Ok(())
    }
}
