//! Cells.

use crate::cursor::{Cursor, Span};
use crate::limits::CELLS;
use crate::refusal::*;
use crate::seen::Seen;
use crate::value::cell_value;
use crate::version::Version;

pub struct Cell {
    pub index: u32,
    pub value: Span,
}

/// The index of the cell at these coordinates, for dimensions with these numbers of leaves.
pub fn cell_index(leaves: &[u32], coordinates: &[u32]) -> u64 {
    leaves.iter().zip(coordinates).fold(0, |index, (&n, &x)| u64::from(n) * index + u64::from(x))
}

/// Reads the cells of a table with `table_places` places.
pub fn cells(
    cursor: &mut Cursor,
    version: Version,
    table_places: u64,
) -> Result<Vec<Cell>, Refusal> {
    let place = cursor.place();
    let count = cursor.int32()?;
    refuse_if(count > CELLS, LIMIT, place)?;
    let mut seen = Seen::none(count, table_places);
    (0..count).map(|_| cell(cursor, version, table_places, &mut seen)).collect()
}

fn cell(
    cursor: &mut Cursor,
    version: Version,
    table_places: u64,
    seen: &mut Seen,
) -> Result<Cell, Refusal> {
    let place = cursor.place();
    let index = cursor.int64()?;
    let bad = index >= table_places || !seen.insert(index);
    refuse_if(bad, CELL_INDEX, place)?;
    let value = cell_value(cursor, version)?;
    // The index is below the number of places, which is below 2^32.
    Ok(Cell { index: index as u32, value })
}

#[cfg(test)]
mod tests {
    use super::*;

    #[test]
    fn index_of_coordinates() {
        assert_eq!(cell_index(&[3, 4, 5], &[1, 2, 3]), 33);
        assert_eq!(cell_index(&[3, 4, 5], &[2, 3, 4]), 59);
        assert_eq!(cell_index(&[], &[]), 0);
    }

    /// One cell with this index and the shortest Value.
    fn one_cell(index: u64) -> Vec<u8> {
        let mut bytes = vec![1, 0, 0, 0];
        bytes.extend(index.to_le_bytes());
        bytes.push(0x58);
        bytes.extend([0; 8]);
        bytes
    }

    fn read(bytes: &[u8], table_places: u64) -> Result<usize, Refusal> {
        Ok(cells(&mut Cursor::new(bytes), Version::Three, table_places)?.len())
    }

    #[test]
    fn a_cell_is_inside_below_the_number_of_places() {
        assert_eq!(read(&one_cell(59), 60), Ok(1));
        assert_eq!(read(&one_cell(60), 60), Err(Refusal::new(CELL_INDEX, 4)));
        assert_eq!(read(&one_cell(0), 1), Ok(1));
        assert_eq!(read(&one_cell(1), 1), Err(Refusal::new(CELL_INDEX, 4)));
        assert_eq!(read(&one_cell(1 << 32), 1), Err(Refusal::new(CELL_INDEX, 4)));
    }

    #[test]
    fn no_places_allow_only_an_empty_list() {
        assert_eq!(read(&one_cell(0), 0), Err(Refusal::new(CELL_INDEX, 4)));
        assert_eq!(read(&[0; 4], 0), Ok(0));
    }
}
