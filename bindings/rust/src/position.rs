//! Where a cell stands on the axes of its table, and tables with other axes.

use crate::lent::{self, INDEX_WORDS, POSITION_WORDS};
use crate::{Axes, Cell, Refusal, Table};

/// The layer, row and column position of a cell.
#[derive(Clone, Copy, Debug, PartialEq, Eq, Hash)]
pub struct Position {
    pub layer: u32,
    pub row: u32,
    pub column: u32,
}

/// A table's n and its axes, as words.
struct Words {
    ns: Vec<u32>,
    counts: [u32; 3],
    order: Vec<u32>,
}

/// A number as a word; one that has no word is as the largest, which is no dimension and no count.
fn word(number: usize) -> u32 {
    u32::try_from(number).unwrap_or(u32::MAX)
}

impl Axes {
    /// The dimensions of all three axes: layers, then rows, then columns.
    fn order(&self) -> Vec<u32> {
        [&self.layers[..], &self.rows, &self.columns].concat().into_iter().map(word).collect()
    }
}

impl<'a> Table<'a> {
    /// The position of a cell. Nothing is refused of the cells of a table that
    /// [`read_member`](crate::read_member) or [`Table::turned`] gave.
    ///
    /// ```
    /// use digarumbi::Position;
    /// let member = std::fs::read("../../examples/spine_18.bin")?;
    /// let table = digarumbi::read_member(&member)?;
    /// let cell = table.cells.iter().find(|cell| cell.index == 5).unwrap();
    /// assert_eq!(table.coordinates(cell), [2, 1]);
    /// assert_eq!(table.position(cell)?, Position { layer: 0, row: 1, column: 2 });
    /// # Ok::<(), Box<dyn std::error::Error>>(())
    /// ```
    pub fn position(&self, cell: &Cell) -> Result<Position, Refusal> {
        self.words(&self.axes).position(cell.index)
    }

    /// The index of the cell at a position, whether the table has that cell or not; refused with 10
    /// if the position is outside.
    pub fn index(&self, position: Position) -> Result<u32, Refusal> {
        self.words(&self.axes).index(position)
    }

    /// The same table on other axes: its cells have the same indexes and other positions. Refused
    /// with 9 unless the axes have each dimension once.
    ///
    /// ```
    /// use digarumbi::{Axes, Position};
    /// let member = std::fs::read("../../examples/spine_18.bin")?;
    /// let table = digarumbi::read_member(&member)?;
    /// let turned = table.turned(Axes { layers: vec![], rows: vec![0, 1], columns: vec![] })?;
    /// let cell = table.cells.iter().find(|cell| cell.index == 5).unwrap();
    /// assert_eq!(turned.position(cell)?, Position { layer: 0, row: 7, column: 0 });
    /// assert_eq!(turned.turned(table.axes.clone())?, table);
    /// # Ok::<(), Box<dyn std::error::Error>>(())
    /// ```
    pub fn turned(&self, axes: Axes) -> Result<Table<'a>, Refusal> {
        match self.words(&axes).position(0) {
            // An index outside is asked after the axes, so they are as they must be.
            Ok(_) | Err(Refusal { number: 10, .. }) => Ok(Table { axes, ..self.clone() }),
            Err(refusal) => Err(refusal),
        }
    }

    fn words(&self, axes: &Axes) -> Words {
        let counts = [&axes.layers, &axes.rows, &axes.columns].map(|axis| word(axis.len()));
        Words {
            ns: self.dimensions.iter().map(|dimension| dimension.n).collect(),
            counts,
            order: axes.order(),
        }
    }
}

impl Words {
    fn position(&self, index: u32) -> Result<Position, Refusal> {
        let mut answer = [0; POSITION_WORDS];
        lent::position(&self.ns, self.counts, &self.order, index, &mut answer);
        let [number, place, layer, row, column] = answer;
        match number {
            0 => Ok(Position { layer, row, column }),
            _ => Err(Refusal::new(number, place)),
        }
    }

    fn index(&self, position: Position) -> Result<u32, Refusal> {
        let mut answer = [0; INDEX_WORDS];
        let position = [position.layer, position.row, position.column];
        lent::index(&self.ns, self.counts, &self.order, position, &mut answer);
        let [number, place, index] = answer;
        match number {
            0 => Ok(index),
            _ => Err(Refusal::new(number, place)),
        }
    }
}
