//! Layer, row and column positions of cells, by strides: how far one step on a dimension leads in
//! the index, and how far on its axis.

use crate::axes::table_places;
use crate::limits::DIMENSIONS;
use crate::refusal::*;

/// A dimension of a table with axes.
struct Stride {
    n: u64,
    /// Places from one coordinate to the next in the index.
    in_index: u64,
    /// Number of its axis: 0 layers, 1 rows, 2 columns.
    axis: usize,
    /// Places from one coordinate to the next on its axis.
    on_axis: u64,
}

/// A table that is not refused.
struct Strides {
    places: u64,
    strides: Vec<Stride>,
}

impl Strides {
    fn new(ns: &[u32], counts: [u32; 3], order: &[u32]) -> Result<Strides, Refusal> {
        refuse_if(ns.len() > DIMENSIONS, LIMIT, 0)?;
        let places = table_places(ns).ok_or(Refusal::new(LIMIT, 0))?;
        let sum: u64 = counts.iter().map(|&count| u64::from(count)).sum();
        refuse_if(sum != ns.len() as u64, AXES, 0)?;
        let mut sorted = order.to_vec();
        sorted.sort_unstable();
        refuse_if(!sorted.into_iter().eq(0..ns.len() as u32), AXES, 0)?;
        // Where an n is 0 there is no place to ask for; where none is, a product of some is at most
        // that of all.
        let strides = if places == 0 { Vec::new() } else { strides(ns, counts, order) };
        Ok(Strides { places, strides })
    }

    /// The number of positions on an axis.
    fn positions(&self, axis: usize) -> u64 {
        self.strides.iter().filter(|stride| stride.axis == axis).map(|stride| stride.n).product()
    }
}

fn strides(ns: &[u32], counts: [u32; 3], order: &[u32]) -> Vec<Stride> {
    let after = |dimension: usize| ns[dimension + 1..].iter().map(|&n| u64::from(n)).product();
    let mut strides: Vec<Stride> = (0..ns.len())
        .map(|i| Stride { n: ns[i].into(), in_index: after(i), axis: 0, on_axis: 0 })
        .collect();
    let mut entries = order.iter();
    for (axis, count) in counts.into_iter().enumerate() {
        let mut inner = 1;
        for &dimension in entries.by_ref().take(count as usize) {
            let stride = &mut strides[dimension as usize];
            (stride.axis, stride.on_axis) = (axis, inner);
            inner *= stride.n;
        }
    }
    strides
}

/// The layer, row and column position of the cell with this index.
pub fn position(
    ns: &[u32],
    counts: [u32; 3],
    order: &[u32],
    index: u32,
) -> Result<[u32; 3], Refusal> {
    let table = Strides::new(ns, counts, order)?;
    let index = u64::from(index);
    refuse_if(index >= table.places, CELL_INDEX, 0)?;
    let mut position = [0; 3];
    for stride in &table.strides {
        let coordinate = index / stride.in_index % stride.n;
        position[stride.axis] += (coordinate * stride.on_axis) as u32;
    }
    Ok(position)
}

/// The index of the cell at this position.
pub fn index(
    ns: &[u32],
    counts: [u32; 3],
    order: &[u32],
    position: [u32; 3],
) -> Result<u32, Refusal> {
    let table = Strides::new(ns, counts, order)?;
    refuse_if(table.places == 0, CELL_INDEX, 0)?;
    for (axis, &at) in position.iter().enumerate() {
        refuse_if(u64::from(at) >= table.positions(axis), CELL_INDEX, 0)?;
    }
    let step = |stride: &Stride| {
        let coordinate = u64::from(position[stride.axis]) / stride.on_axis % stride.n;
        coordinate * stride.in_index
    };
    Ok(table.strides.iter().map(step).sum::<u64>() as u32)
}

#[cfg(test)]
mod tests {
    use super::*;

    const NS: [u32; 3] = [3, 4, 5];

    fn refused(number: u32) -> Result<[u32; 3], Refusal> {
        Err(Refusal::new(number, 0))
    }

    /// Document 01's index 33 has the coordinates 1, 2, 3.
    #[test]
    fn inner_dimensions_first() {
        assert_eq!(position(&NS, [0, 1, 2], &[1, 2, 0], 33), Ok([0, 2, 3 + 5]));
        assert_eq!(position(&NS, [1, 1, 1], &[2, 0, 1], 33), Ok([3, 1, 2]));
        assert_eq!(position(&NS, [3, 0, 0], &[0, 1, 2], 33), Ok([1 + 3 * 2 + 12 * 3, 0, 0]));
        assert_eq!(position(&NS, [0, 0, 3], &[2, 1, 0], 33), Ok([0, 0, 33]));
    }

    #[test]
    fn there_and_back() {
        for order in [[0, 1, 2], [0, 2, 1], [1, 0, 2], [1, 2, 0], [2, 0, 1], [2, 1, 0]] {
            for layers in 0..=3 {
                for rows in 0..=3 - layers {
                    let counts = [layers, rows, 3 - layers - rows];
                    for k in 0..60 {
                        let at = position(&NS, counts, &order, k).unwrap();
                        assert_eq!(index(&NS, counts, &order, at), Ok(k));
                    }
                }
            }
        }
    }

    #[test]
    fn refusals_in_their_order() {
        assert_eq!(position(&[1; 17], [9; 3], &[], 1), refused(LIMIT));
        assert_eq!(position(&[65_536; 2], [9; 3], &[], 1), refused(LIMIT));
        assert_eq!(position(&[65_536, 65_536, 0], [9; 3], &[], 1), refused(AXES));
        assert_eq!(position(&NS, [1, 1, 0], &[0, 1, 2], 60), refused(AXES));
        for order in [&[0, 1][..], &[0, 1, 1], &[0, 1, 3], &[0, 1, 2, 2]] {
            assert_eq!(position(&NS, [1; 3], order, 60), refused(AXES));
        }
        assert_eq!(position(&NS, [1; 3], &[0, 1, 2], 60), refused(CELL_INDEX));
        for outside in [[3, 0, 0], [0, 4, 0], [0, 0, 5]] {
            let found = index(&NS, [1; 3], &[0, 1, 2], outside);
            assert_eq!(found, Err(Refusal::new(CELL_INDEX, 0)));
        }
    }

    #[test]
    fn no_dimensions_and_no_places() {
        assert_eq!(position(&[], [0; 3], &[], 0), Ok([0; 3]));
        assert_eq!(position(&[], [0; 3], &[], 1), refused(CELL_INDEX));
        assert_eq!(index(&[], [0; 3], &[], [0; 3]), Ok(0));
        assert_eq!(position(&[3, 0, 5], [1; 3], &[0, 1, 2], 0), refused(CELL_INDEX));
        let found = index(&[3, 0, 5], [1; 3], &[0, 1, 2], [0; 3]);
        assert_eq!(found, Err(Refusal::new(CELL_INDEX, 0)));
    }

    #[test]
    fn the_largest_table() {
        let at = position(&[u32::MAX], [0, 1, 0], &[0], u32::MAX - 1);
        assert_eq!(at, Ok([0, u32::MAX - 1, 0]));
        assert_eq!(index(&[u32::MAX], [0, 1, 0], &[0], [0, u32::MAX - 1, 0]), Ok(u32::MAX - 1));
    }
}
