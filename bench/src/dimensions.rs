//! Dimensions and their categories.

use crate::cursor::{Cursor, Span};
use crate::limits::{CATEGORY_DEPTH, DIMENSIONS, NODES};
use crate::refusal::*;
use crate::value::value;
use crate::version::Version;

/// Parent of a category that stands directly in its dimension.
pub const NO_PARENT: u32 = u32::MAX;

pub enum NodeKind {
    Leaf { index: u32 },
    Group { children: u32 },
}

pub struct Node {
    pub kind: NodeKind,
    pub dimension: u32,
    pub parent: u32,
    pub name: Span,
    /// Number of nodes it contains at any depth, itself included.
    pub size: u32,
}

pub struct Dimension {
    pub name: Span,
    /// Number of leaves at any depth.
    pub leaves: u32,
    /// Number of nodes before this dimension.
    pub first_node: u32,
}

#[derive(Default)]
pub struct Dimensions {
    pub dimensions: Vec<Dimension>,
    /// The categories of all dimensions, in file order.
    pub nodes: Vec<Node>,
}

/// A leaf index and the place where it stands.
struct LeafIndex {
    index: u32,
    place: usize,
}

pub fn dimensions(cursor: &mut Cursor, version: Version) -> Result<Dimensions, Refusal> {
    let place = cursor.place();
    let count = cursor.int32()?;
    refuse_if(count as usize > DIMENSIONS, LIMIT, place)?;
    let mut result = Dimensions::default();
    for _ in 0..count {
        dimension(cursor, version, &mut result)?;
    }
    Ok(result)
}

fn dimension(
    cursor: &mut Cursor,
    version: Version,
    result: &mut Dimensions,
) -> Result<(), Refusal> {
    let name = value(cursor, version)?;
    dimension_properties(cursor)?;
    let first_node = result.nodes.len() as u32;
    let mut reader = CategoryReader {
        version,
        dimension: result.dimensions.len() as u32,
        nodes: &mut result.nodes,
        leaf_indexes: Vec::new(),
    };
    let count = cursor.int32()?;
    reader.categories(cursor, count, NO_PARENT, 1)?;
    let leaf_indexes = reader.leaf_indexes;
    check_leaf_indexes(&leaf_indexes)?;
    result.dimensions.push(Dimension { name, leaves: leaf_indexes.len() as u32, first_node });
    Ok(())
}

fn dimension_properties(cursor: &mut Cursor) -> Result<(), Refusal> {
    cursor.byte()?;
    cursor.byte()?;
    cursor.int32()?;
    cursor.bool()?;
    cursor.bool()?;
    cursor.fixed_byte(0x01)?;
    cursor.int32()?;
    Ok(())
}

/// The leaf indexes of a dimension with n leaves are 0 to n-1, once each.
fn check_leaf_indexes(leaf_indexes: &[LeafIndex]) -> Result<(), Refusal> {
    let mut seen = vec![false; leaf_indexes.len()];
    for leaf in leaf_indexes {
        match seen.get_mut(leaf.index as usize) {
            Some(seen) if !*seen => *seen = true,
            _ => return Err(Refusal::new(LEAF_INDEX, leaf.place)),
        }
    }
    Ok(())
}

/// Reads the categories of one dimension.
struct CategoryReader<'a> {
    version: Version,
    dimension: u32,
    nodes: &'a mut Vec<Node>,
    leaf_indexes: Vec<LeafIndex>,
}

impl CategoryReader<'_> {
    /// Gives the number of nodes read.
    fn categories(
        &mut self,
        cursor: &mut Cursor,
        count: u32,
        parent: u32,
        depth: u32,
    ) -> Result<u32, Refusal> {
        let mut size = 0;
        for _ in 0..count {
            size += self.category(cursor, parent, depth)?;
        }
        Ok(size)
    }

    /// Gives the number of nodes read, the category's own included.
    fn category(&mut self, cursor: &mut Cursor, parent: u32, depth: u32) -> Result<u32, Refusal> {
        let limit_passed = self.nodes.len() >= NODES || depth > CATEGORY_DEPTH;
        refuse_if(limit_passed, LIMIT, cursor.place())?;
        let name = value(cursor, self.version)?;
        let place = cursor.place();
        match cursor.three_bytes()? {
            [0, 0, 0] => self.leaf(cursor, parent, name),
            [0 | 1, 0, 1] => self.group(cursor, parent, name, depth),
            _ => Err(Refusal::new(FIXED_DIFFERS, place)),
        }
    }

    fn leaf(&mut self, cursor: &mut Cursor, parent: u32, name: Span) -> Result<u32, Refusal> {
        cursor.fixed_int32(2)?;
        let place = cursor.place();
        let index = cursor.int32()?;
        cursor.fixed_int32(0)?;
        self.leaf_indexes.push(LeafIndex { index, place });
        self.push(NodeKind::Leaf { index }, parent, name);
        Ok(1)
    }

    fn group(
        &mut self,
        cursor: &mut Cursor,
        parent: u32,
        name: Span,
        depth: u32,
    ) -> Result<u32, Refusal> {
        cursor.int32()?;
        cursor.fixed_int32(u32::MAX)?;
        let children = cursor.int32()?;
        let number = self.nodes.len();
        self.push(NodeKind::Group { children }, parent, name);
        let size = 1 + self.categories(cursor, children, number as u32, depth + 1)?;
        self.nodes[number].size = size;
        Ok(size)
    }

    fn push(&mut self, kind: NodeKind, parent: u32, name: Span) {
        self.nodes.push(Node { kind, dimension: self.dimension, parent, name, size: 1 });
    }
}
