//! Totals of the cells under a leaf category.

use crate::lent::{self, CELL_RECORD, NODE_RECORD, TOTALS_ANSWER, TOTAL_ANSWER, TOTAL_RECORD};
use crate::{Refusal, Table};

/// The refusal number of a dimension or leaf that is not there.
const NO_SUCH_LEAF: u32 = 19;
/// First word of the total in an answer of [`lent::total`], and in a total record.
const ANSWER_TOTAL: usize = 4;
const RECORD_TOTAL: usize = 2;

/// The cells under a leaf, added up (document 02, T-01).
#[derive(Clone, Copy, Debug, Default, PartialEq)]
pub struct Total {
    /// The sum of the numbers.
    pub total: u64,
    /// How many cells are numbers.
    pub numbers: u32,
    /// How many cells are texts.
    pub texts: u32,
    /// How many cells are missing values.
    pub missing: u32,
    /// The smallest number, 0 if there is none.
    pub smallest: f64,
    /// The largest number, 0 if there is none.
    pub largest: f64,
}

impl Table<'_> {
    /// The total of the cells under a leaf, which is given by its leaf index. The member is read
    /// again for it; for all leaves of a dimension [`Table::totals`] reads it once.
    ///
    /// Refused with 19 if there is no such dimension or leaf, and with 20 at the first cell under
    /// the leaf whose number is no count.
    ///
    /// ```
    /// let member = std::fs::read("../../examples/spine_18.bin")?;
    /// let table = digarumbi::read_member(&member)?;
    /// // a coefficient of a regression is no count
    /// assert_eq!(table.total(0, 0).unwrap_err().number, 20);
    /// assert_eq!(table.total(0, 5).unwrap_err().to_string(), "refused 19 at 0");
    /// # Ok::<(), Box<dyn std::error::Error>>(())
    /// ```
    pub fn total(&self, dimension: usize, leaf: usize) -> Result<Total, Refusal> {
        let (dimension, leaf) = (number(dimension)?, number(leaf)?);
        let mut answer = [0; TOTAL_ANSWER];
        let (mut nodes, mut cells) = self.areas();
        lent::total(self.member, dimension, leaf, &mut answer, &mut nodes, &mut cells);
        match answer {
            [0, ..] => Ok(total(&answer[ANSWER_TOTAL..])),
            [number, place, nodes, cells, ..] => Err(Refusal { number, place, nodes, cells }),
        }
    }

    /// The totals of all leaves of a dimension, by their leaf indexes. Each has its own refusal,
    /// that of [`Table::total`]; the call is refused with 19 if there is no such dimension.
    ///
    /// ```
    /// let member = std::fs::read("../../examples/spine_1.bin")?;
    /// let table = digarumbi::read_member(&member)?;
    /// let totals = table.totals(1)?;
    /// assert_eq!(totals.len(), 16);
    /// assert_eq!(totals[15]?.total, 67);
    /// assert_eq!(totals[15], table.total(1, 15));
    /// # Ok::<(), Box<dyn std::error::Error>>(())
    /// ```
    pub fn totals(&self, dimension: usize) -> Result<Vec<Result<Total, Refusal>>, Refusal> {
        let leaves = self.dimensions.get(dimension).map_or(0, |dimension| dimension.n as usize);
        let mut answer = [0; TOTALS_ANSWER];
        let mut totals = vec![0; TOTAL_RECORD * leaves];
        let (mut nodes, mut cells) = self.areas();
        let dimension = number(dimension)?;
        lent::totals(self.member, dimension, &mut answer, &mut totals, &mut nodes, &mut cells);
        match answer {
            [0, ..] => Ok(totals.chunks(TOTAL_RECORD).map(leaf_total).collect()),
            [number, place, nodes, cells, _] => Err(Refusal { number, place, nodes, cells }),
        }
    }

    /// Areas for the records of this table.
    fn areas(&self) -> (Vec<u32>, Vec<u32>) {
        (vec![0; NODE_RECORD * self.nodes.len()], vec![0; CELL_RECORD * self.cells.len()])
    }
}

/// The number of a dimension or leaf. No member has one that is not a word.
fn number(i: usize) -> Result<u32, Refusal> {
    u32::try_from(i).map_err(|_| Refusal::new(NO_SUCH_LEAF, 0))
}

/// What a total record holds.
fn leaf_total(record: &[u32]) -> Result<Total, Refusal> {
    match record[0] {
        0 => Ok(total(&record[RECORD_TOTAL..])),
        number => Err(Refusal::new(number, record[1])),
    }
}

/// The nine words of a total.
fn total(words: &[u32]) -> Total {
    let pair = |at: usize| u64::from(words[at]) | u64::from(words[at + 1]) << 32;
    Total {
        total: pair(0),
        numbers: words[2],
        texts: words[3],
        missing: words[4],
        smallest: f64::from_bits(pair(5)),
        largest: f64::from_bits(pair(7)),
    }
}
