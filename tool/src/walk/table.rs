//! Dimensions, Axes and Cells.

use std::collections::HashMap;

use super::cursor::{said, Answer, Cursor, Span, Step, Stop};
use super::value::{cell_value, value};
use super::{Version, CATEGORY_DEPTH, CELLS, DIMENSIONS, NODES, PLACES};

/// Gives the number of leaves of each dimension.
pub fn dimensions(cursor: &mut Cursor, version: Version) -> Answer<Vec<u32>> {
    let count = cursor.limited_count("number of dimensions", DIMENSIONS)?;
    let mut reader = Categories { version, nodes: 0, leaves: Vec::new() };
    let mut leaves = Vec::new();
    cursor.each("dimension", count, |cursor| {
        leaves.push(dimension(cursor, &mut reader)?);
        Ok(())
    })?;
    Ok(leaves)
}

/// Gives its number of leaves.
fn dimension(cursor: &mut Cursor, reader: &mut Categories) -> Answer<u32> {
    let name = value(cursor, reader.version, "name")?;
    cursor.name_step(name);
    cursor.byte("x1")?;
    cursor.byte("x2")?;
    cursor.int32("x3")?;
    cursor.bool("hide dimension label")?;
    cursor.bool("hide all labels")?;
    cursor.fixed_byte("01 before the dimension's index", 0x01)?;
    cursor.int32("dimension index")?;
    let count = cursor.int32("number of categories")?;
    reader.leaves.clear();
    reader.categories(cursor, count, 1)?;
    check_leaf_indexes(&reader.leaves)?;
    Ok(reader.leaves.len() as u32)
}

/// A leaf index, where it stands, and the path to it.
struct Leaf {
    index: u32,
    place: usize,
    path: Vec<Step>,
}

/// The leaf indexes of a dimension with n leaves are 0 to n-1, once each.
fn check_leaf_indexes(leaves: &[Leaf]) -> Answer<()> {
    let mut seen: Vec<Option<&Leaf>> = vec![None; leaves.len()];
    for leaf in leaves {
        let found = match seen.get_mut(leaf.index as usize) {
            Some(first @ None) => {
                *first = Some(leaf);
                continue;
            }
            Some(Some(first)) => format!("{}, which stands at {} too", leaf.index, first.place),
            None => format!("{}, and the dimension has {} leaves", leaf.index, leaves.len()),
        };
        let expected = match leaves.len() {
            1 => "0: the dimension has one leaf".to_string(),
            n => format!("a number from 0 to {} that no leaf before it has", n - 1),
        };
        let field = Span { place: leaf.place, length: 4 };
        return Err(Box::new(Stop { number: 8, path: leaf.path.clone(), field, expected, found }));
    }
    Ok(())
}

/// Reads the categories of a dimension.
struct Categories {
    version: Version,
    /// Of the whole member so far.
    nodes: u32,
    /// Of this dimension so far.
    leaves: Vec<Leaf>,
}

impl Categories {
    fn categories(&mut self, cursor: &mut Cursor, count: u32, depth: u32) -> Answer<()> {
        cursor.each("category", count, |cursor| self.category(cursor, depth))
    }

    fn category(&mut self, cursor: &mut Cursor, depth: u32) -> Answer<()> {
        self.check_limits(cursor, depth)?;
        self.nodes += 1;
        let name = value(cursor, self.version, "name")?;
        cursor.name_step(name);
        let place = cursor.place;
        match cursor.three_bytes("leaf or group")? {
            [0, 0, 0] => self.leaf(cursor),
            [0 | 1, 0, 1] => self.group(cursor, depth),
            [a, b, c] => {
                let expected = "00 00 00 for a leaf, 00 00 01 or 01 00 01 for a group";
                let said = said(expected, format!("{a:02x} {b:02x} {c:02x}"));
                Err(cursor.stop(3, "leaf or group", Span { place, length: 3 }, said))
            }
        }
    }

    fn check_limits(&self, cursor: &Cursor, depth: u32) -> Answer<()> {
        let (expected, found) = if depth > CATEGORY_DEPTH {
            let expected = format!("no category: categories nest {CATEGORY_DEPTH} deep at most");
            (expected, format!("a category that is {depth} deep"))
        } else if self.nodes == NODES {
            let expected = format!("no category: a member has {NODES} at most");
            (expected, "one more".to_string())
        } else {
            return Ok(());
        };
        let field = Span { place: cursor.place, length: 1 };
        Err(cursor.stop(7, "first byte", field, said(expected, found)))
    }

    fn leaf(&mut self, cursor: &mut Cursor) -> Answer<()> {
        cursor.fixed_int32("2 before the leaf index", 2)?;
        let place = cursor.place;
        let index = cursor.int32("leaf index")?;
        cursor.fixed_int32("0 after the leaf index", 0)?;
        let mut path = cursor.path.clone();
        path.push(Step::Part("leaf index"));
        self.leaves.push(Leaf { index, place, path });
        Ok(())
    }

    fn group(&mut self, cursor: &mut Cursor, depth: u32) -> Answer<()> {
        cursor.int32("x23")?;
        cursor.fixed_int32("-1 before the number of categories", u32::MAX)?;
        let children = cursor.int32("number of categories")?;
        self.categories(cursor, children, depth + 1)
    }
}

/// The exact product of the numbers of leaves, if it is within the limit.
fn places(leaves: &[u32]) -> Option<u64> {
    if leaves.contains(&0) {
        return Some(0);
    }
    leaves.iter().try_fold(1u64, |product, &n| {
        // both factors are below 2^32
        Some(product * u64::from(n)).filter(|&product| product <= PLACES)
    })
}

/// Gives the number of places of the table.
pub fn axes(cursor: &mut Cursor, leaves: &[u32]) -> Answer<u64> {
    const COUNTS: [&str; 3] = ["number of layers", "number of rows", "number of columns"];
    let first = cursor.place;
    let sizes = || leaves.iter().map(u32::to_string).collect::<Vec<_>>().join(" x ");
    let Some(places) = places(leaves) else {
        let expected = format!("dimensions whose sizes multiply to {PLACES} at most");
        let field = Span { place: first, length: 4 };
        return Err(cursor.stop(7, COUNTS[0], field, said(expected, sizes())));
    };
    let mut counts = [0; 3];
    for (count, name) in counts.iter_mut().zip(COUNTS) {
        *count = cursor.int32(name)?;
    }
    let sum: u64 = counts.iter().map(|&count| u64::from(count)).sum();
    if sum != leaves.len() as u64 {
        let expected = format!("three counts that add up to {} dimensions", leaves.len());
        let found = counts.map(|count| count.to_string()).join(" + ");
        let said = said(expected, format!("{found} = {sum}"));
        return Err(cursor.stop(9, COUNTS[0], Span { place: first, length: 12 }, said));
    }
    axis_entries(cursor, leaves.len() as u32)?;
    Ok(places)
}

fn axis_entries(cursor: &mut Cursor, dimensions: u32) -> Answer<()> {
    let mut order = Vec::new();
    cursor.each("entry", dimensions, |cursor| {
        let place = cursor.place;
        let entry = cursor.int32("dimension")?;
        if entry < dimensions && !order.contains(&entry) {
            order.push(entry);
            return Ok(());
        }
        let expected = format!("a dimension from 0 to {} that no entry has", dimensions - 1);
        let field = Span { place, length: 4 };
        Err(cursor.stop(9, "dimension", field, said(expected, entry.to_string())))
    })
}

/// The cells of a table with so many places.
pub fn cells(cursor: &mut Cursor, version: Version, places: u64) -> Answer<()> {
    let count = cursor.limited_count("number of cells", CELLS)?;
    let mut seen: HashMap<u64, usize> = HashMap::new();
    cursor.each("cell", count, |cursor| {
        let place = cursor.place;
        let index = cursor.int64("index")?;
        let found = match seen.insert(index, place) {
            _ if index >= places => format!("{index}, and the table has {places} places"),
            Some(first) => format!("{index}, which stands at {first} too"),
            None => return cell_value(cursor, version).map(drop),
        };
        let expected = format!("an index below {places} that no cell before it has");
        Err(cursor.stop(10, "index", Span { place, length: 8 }, said(expected, found)))
    })
}

impl Cursor<'_> {
    /// A count that has a limit.
    pub fn limited_count(&mut self, name: &'static str, limit: u32) -> Answer<u32> {
        let place = self.place;
        let count = self.int32(name)?;
        if count <= limit {
            return Ok(count);
        }
        let said = said(format!("{limit} at most"), count.to_string());
        Err(self.stop(7, name, Span { place, length: 4 }, said))
    }
}
