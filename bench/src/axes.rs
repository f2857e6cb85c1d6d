//! Axes: which dimensions the layers, rows and columns show.

use crate::cursor::Cursor;
use crate::limits::TABLE_PLACES;
use crate::refusal::*;

pub struct Axes {
    /// Numbers of layer, row and column dimensions.
    pub counts: [u32; 3],
    /// The dimension numbers of all three axes.
    pub order: Vec<u32>,
    /// Number of places in the table.
    pub table_places: u64,
}

/// The exact product of the numbers of leaves, if it is within the limit.
pub fn table_places(leaves: &[u32]) -> Option<u64> {
    if leaves.contains(&0) {
        return Some(0);
    }
    leaves.iter().try_fold(1u64, |product, &n| {
        // Both factors are below 2^32, so this multiplication is exact.
        Some(product * u64::from(n)).filter(|&product| product <= TABLE_PLACES)
    })
}

/// Reads the axes of a table whose dimensions have these numbers of leaves.
pub fn axes(cursor: &mut Cursor, leaves: &[u32]) -> Result<Axes, Refusal> {
    let first_count = cursor.place();
    let table_places = table_places(leaves).ok_or(Refusal::new(LIMIT, first_count))?;
    let counts = [cursor.int32()?, cursor.int32()?, cursor.int32()?];
    let sum: u64 = counts.iter().map(|&count| u64::from(count)).sum();
    refuse_if(sum != leaves.len() as u64, AXES, first_count)?;
    let order = axis_entries(cursor, leaves.len())?;
    Ok(Axes { counts, order, table_places })
}

fn axis_entries(cursor: &mut Cursor, dimensions: usize) -> Result<Vec<u32>, Refusal> {
    let mut order = Vec::new();
    for _ in 0..dimensions {
        let place = cursor.place();
        let entry = cursor.int32()?;
        let bad = entry as usize >= dimensions || order.contains(&entry);
        refuse_if(bad, AXES, place)?;
        order.push(entry);
    }
    Ok(order)
}

#[cfg(test)]
mod tests {
    use super::*;

    #[test]
    fn no_dimensions_give_one_place() {
        assert_eq!(table_places(&[]), Some(1));
    }

    #[test]
    fn a_dimension_without_leaves_gives_no_places() {
        assert_eq!(table_places(&[3, 0, 5]), Some(0));
        let mut leaves = [4_096; 16];
        leaves[15] = 0;
        assert_eq!(table_places(&leaves), Some(0));
    }

    #[test]
    fn the_product_is_exact_up_to_the_limit() {
        assert_eq!(table_places(&[3, 4, 5]), Some(60));
        assert_eq!(table_places(&[3, 5, 17, 257, 65_537]), Some(4_294_967_295));
        assert_eq!(table_places(&[4; 16]), None);
        assert_eq!(table_places(&[256; 16]), None);
    }
}
