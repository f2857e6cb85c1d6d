//! Totals of the cells under a leaf.

use crate::cells::Cell;
use crate::contents::cell_number;
use crate::member::{parse_for_areas, Member, Refused};
use crate::refusal::*;

/// The cells under a leaf, added up.
#[derive(Clone, Copy, Debug, Default, PartialEq)]
pub struct Total {
    pub total: u64,
    pub numbers: u32,
    pub texts: u32,
    pub missing: u32,
    /// The smallest and the largest number, both 0 if there is none.
    pub smallest: f64,
    pub largest: f64,
}

/// Numbers of nodes and cells of an accepted member, with what was asked for.
#[derive(Clone, Debug, PartialEq)]
pub struct Found<T> {
    pub counts: [u32; 2],
    pub found: T,
}

/// The total of the cells under a leaf. Writes the records into the lent areas unless something is
/// refused.
pub fn total(
    bytes: &[u8],
    dimension: u32,
    leaf: u32,
    nodes: &mut [u32],
    cells: &mut [u32],
) -> Result<Found<Total>, Refused> {
    let member = parse_for_areas(bytes, nodes, cells)?;
    let coordinate = Coordinate::of(&member, dimension)?;
    refuse_if(leaf >= coordinate.leaves, NO_SUCH_LEAF, 0)?;
    let mut total = Total::default();
    for cell in member.cells.iter().filter(|cell| coordinate.leaf(cell) == leaf) {
        total.add(&member, bytes, cell)?;
    }
    member.write_records(nodes, cells);
    Ok(Found { counts: member.counts(), found: total })
}

/// A total, or the refusal of a leaf.
pub type LeafTotal = Result<Total, Refusal>;

/// The totals of all leaves of a dimension, by their leaf indexes, for an area with room for
/// `room` of them. Writes the records likewise.
pub fn totals(
    bytes: &[u8],
    dimension: u32,
    room: usize,
    nodes: &mut [u32],
    cells: &mut [u32],
) -> Result<Found<Vec<LeafTotal>>, Refused> {
    let member = parse_for_areas(bytes, nodes, cells)?;
    let coordinate = Coordinate::of(&member, dimension)?;
    let leaves = coordinate.leaves as usize;
    refuse_if(room < leaves, OUTPUT_TOO_SHORT, 0)?;
    let mut totals = vec![Ok(Total::default()); leaves];
    for cell in &member.cells {
        let total = &mut totals[coordinate.leaf(cell) as usize];
        if let Ok(so_far) = total {
            if let Err(refusal) = so_far.add(&member, bytes, cell) {
                *total = Err(refusal);
            }
        }
    }
    member.write_records(nodes, cells);
    Ok(Found { counts: member.counts(), found: totals })
}

/// Where the leaf index of one dimension stands in a cell's index.
struct Coordinate {
    leaves: u32,
    /// The product of the leaves of the dimensions after it.
    after: u32,
}

impl Coordinate {
    fn of(member: &Member, dimension: u32) -> Result<Coordinate, Refusal> {
        let leaves: Vec<u32> = member.dimensions.dimensions.iter().map(|d| d.leaves).collect();
        let Some(&own) = leaves.get(dimension as usize) else {
            return Err(Refusal::new(NO_SUCH_LEAF, 0));
        };
        // A product of these is at most that of all, unless one is 0: then there is no cell.
        let after = leaves[dimension as usize + 1..].iter();
        let after = after.fold(1u32, |product, &n| product.wrapping_mul(n));
        Ok(Coordinate { leaves: own, after })
    }

    fn leaf(&self, cell: &Cell) -> u32 {
        cell.index / self.after % self.leaves
    }
}

impl Total {
    /// Adds a cell; refused if it is a number that is no count.
    fn add(&mut self, member: &Member, bytes: &[u8], cell: &Cell) -> Result<(), Refusal> {
        let value = &bytes[cell.value.place..][..cell.value.length];
        let Some(bits) = cell_number(member.version, value) else {
            self.texts += 1;
            return Ok(());
        };
        let x = f64::from_bits(bits);
        if x == f64::MIN {
            self.missing += 1;
            return Ok(());
        }
        // The conversion cuts and saturates, so only a count comes back.
        let number = x as u32;
        let count = f64::from(number);
        refuse_if(count != x, NO_COUNT, cell.value.place)?;
        self.smallest = if self.numbers == 0 { count } else { self.smallest.min(count) };
        self.largest = self.largest.max(count);
        self.total += u64::from(number);
        self.numbers += 1;
        Ok(())
    }
}

#[cfg(test)]
mod tests {
    use super::*;
    use crate::encode::{int32, int64, list};
    use crate::parts::{table, template, Section};

    fn number(x: f64) -> Vec<u8> {
        [vec![0, 1, 0x58], int32(0), x.to_le_bytes().to_vec()].concat()
    }

    /// A member of 2 by 3 with these cells.
    fn member(cells: &[(u64, Vec<u8>)]) -> Vec<u8> {
        let cells: Vec<Vec<u8>> =
            cells.iter().map(|(index, value)| [&int64(*index), &value[..]].concat()).collect();
        table(&[2, 3], &[]).with(Section::Cells, list(&cells)).bytes()
    }

    fn ask(member: &[u8], dimension: u32, leaf: u32) -> Result<Total, (u32, usize)> {
        let (mut nodes, mut cells) = ([7; 7 * 5], [7; 3 * 6]);
        match total(member, dimension, leaf, &mut nodes, &mut cells) {
            Ok(found) => {
                assert_eq!(found.counts[0], 5);
                assert_ne!(nodes, [7; 7 * 5]);
                Ok(found.found)
            }
            Err(no) => {
                assert_eq!((no.counts, nodes, cells), ([0, 0], [7; 7 * 5], [7; 3 * 6]));
                Err((no.refusal.number, no.refusal.place))
            }
        }
    }

    /// The last dimension changes fastest: 0 1 2 under the first leaf, 3 4 5 under the second.
    #[test]
    fn sums() {
        let counts = [(5, 32.0), (0, 1.0), (4, 16.0), (1, 2.0), (3, 8.0), (2, 4.0)];
        let member = member(&counts.map(|(index, x)| (index, number(x))));
        let sums = |dimension, leaves| {
            (0..leaves).map(|leaf| ask(&member, dimension, leaf).unwrap().total).collect::<Vec<_>>()
        };
        assert_eq!(sums(0, 2), [7, 56]);
        assert_eq!(sums(1, 3), [9, 18, 36]);
        let first = Total { numbers: 3, total: 7, smallest: 1.0, largest: 4.0, ..Total::default() };
        assert_eq!(ask(&member, 0, 0), Ok(first));
        assert_eq!(ask(&member, 0, 2), Err((19, 0)));
        assert_eq!(ask(&member, 2, 0), Err((19, 0)));
    }

    #[test]
    fn missing_and_texts() {
        let values = [number(f64::MIN), template(), number(-0.0)];
        let member = member(&[0, 1, 2].map(|i| (i as u64, values[i].clone())));
        let total = ask(&member, 0, 0).unwrap();
        assert_eq!((total.numbers, total.texts, total.missing), (1, 1, 1));
        assert_eq!((total.smallest.to_bits(), total.largest.to_bits()), (0, 0));
        assert_eq!(ask(&member, 0, 1), Ok(Total::default()));
    }

    #[test]
    fn only_counts_are_added() {
        let largest = 4_294_967_295.0;
        let sum = |x: f64| ask(&member(&[(0, number(x))]), 0, 0).map(|total| total.total);
        assert_eq!(sum(largest), Ok(4_294_967_295));
        for x in [
            largest + 1.0,
            0.5,
            -1.0,
            f64::from_bits(1),
            f64::INFINITY,
            f64::NEG_INFINITY,
            f64::NAN,
            f64::MAX,
        ] {
            let member = member(&[(3, number(x)), (1, number(1.0)), (0, number(x))]);
            let place = member.len() - number(x).len();
            assert_eq!(ask(&member, 0, 0), Err((20, place)));
            assert_eq!(ask(&member, 1, 1).map(|total| total.total), Ok(1));
        }
    }

    #[test]
    fn all_leaves_at_once() {
        let member = member(&[(4, number(0.5)), (1, number(7.0)), (3, template())]);
        let areas = || ([7; 7 * 5], [7; 3 * 3]);
        for (dimension, leaves) in [(0, 2), (1, 3)] {
            let (mut nodes, mut cells) = areas();
            let found = totals(&member, dimension, 3, &mut nodes, &mut cells).unwrap().found;
            assert_eq!(found.len(), leaves);
            for (leaf, found) in found.into_iter().enumerate() {
                let found = found.map_err(|refusal| (refusal.number, refusal.place));
                assert_eq!(found, ask(&member, dimension, leaf as u32));
            }
        }
        let (mut nodes, mut cells) = areas();
        let refused = totals(&member, 1, 2, &mut nodes, &mut cells).unwrap_err();
        assert_eq!((refused.refusal.number, nodes, cells), (15, areas().0, areas().1));
    }
}
