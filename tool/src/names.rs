//! The names of a table's dimensions and leaves.

use std::rc::Rc;

use digarumbi::{Node, NodeKind, Table};

use crate::text::Texts;

/// What stands between the names of a path.
pub const BETWEEN: &str = " > ";

pub struct DimensionNames {
    pub name: String,
    /// By leaf index: the names of the groups, outer ones first, and of the leaf.
    pub leaves: Vec<Vec<Rc<str>>>,
    /// The leaf indexes in file order, which is the order in which they are shown.
    pub order: Vec<u32>,
}

impl DimensionNames {
    pub fn path(&self, leaf: usize) -> String {
        self.leaves[leaf].join(BETWEEN)
    }

    /// By leaf index: how many leaves stand before it in the file.
    pub fn ranks(&self) -> Vec<usize> {
        let mut ranks = vec![0; self.order.len()];
        for (rank, &leaf) in self.order.iter().enumerate() {
            ranks[leaf as usize] = rank;
        }
        ranks
    }

    /// The most names in a path.
    pub fn depth(&self) -> usize {
        self.leaves.iter().map(Vec::len).max().unwrap_or(0)
    }
}

/// The names of all dimensions.
pub fn names(member: &[u8], table: &Table, texts: &Texts) -> Vec<DimensionNames> {
    let shown: Vec<Option<Rc<str>>> = table
        .nodes
        .iter()
        .map(|node| (!is_merged(member, node)).then(|| texts.value_of(&node.name_bytes).into()))
        .collect();
    let names_of = |dimension: usize| {
        let mut leaves = vec![Vec::new(); table.dimensions[dimension].n as usize];
        let mut order = Vec::new();
        for number in table.dimensions[dimension].nodes.clone() {
            if let NodeKind::Leaf { index } = table.nodes[number].kind {
                leaves[index as usize] = path(table, &shown, number);
                order.push(index);
            }
        }
        let name = texts.value_of(&table.dimensions[dimension].name_bytes);
        DimensionNames { name, leaves, order }
    };
    (0..table.dimensions.len()).map(names_of).collect()
}

/// The names of a node's groups and its own.
fn path(table: &Table, shown: &[Option<Rc<str>>], number: usize) -> Vec<Rc<str>> {
    let parent = |&number: &usize| table.nodes[number].parent;
    let mut path: Vec<Rc<str>> =
        std::iter::successors(Some(number), parent).filter_map(|i| shown[i].clone()).collect();
    path.reverse();
    path
}

/// Whether a node is a group whose name is not shown (003, Group: `merge`, after the name).
fn is_merged(member: &[u8], node: &Node) -> bool {
    let name = node.name_bytes.bytes;
    let place = (name.as_ptr() as usize).wrapping_sub(member.as_ptr() as usize);
    let merge = member.get(place.wrapping_add(name.len()));
    matches!(node.kind, NodeKind::Group { .. }) && merge == Some(&1)
}
