//! Members: the table that an accepted one holds.

use std::iter::successors;
use std::ops::Range;

use crate::lent::{self, CELL_AREA, CELL_RECORD, MEMBER_ANSWER, NODE_AREA, NODE_RECORD};
use crate::{Refusal, Value, ValueBytes};

/// First word of the dimensions in an answer, and the words of each.
const DIMENSIONS: usize = 8;
const DIMENSION_WORDS: usize = 4;
/// First word of the axis order in an answer.
const AXIS_ORDER: usize = 72;
/// Where the version stands in a member: four bytes, little-endian.
const VERSION: Range<usize> = 2..6;
/// What stands for the parent of a node that has none.
const NO_PARENT: u32 = u32::MAX;

/// What an accepted member holds. Names and cells are Values of source document 003, kept as they
/// stand in the member; what one says is read when it is asked for.
#[derive(Clone, Debug, PartialEq, Eq)]
pub struct Table<'a> {
    /// The member that it was read from.
    pub member: &'a [u8],
    /// The version of the member, 1 or 3. No word of the library's answer has it: it is read from
    /// the member's own bytes 2 to 5, which an accepted member has.
    pub version: u32,
    pub dimensions: Vec<Dimension<'a>>,
    pub axes: Axes,
    /// The nodes of all dimensions, in file order.
    pub nodes: Vec<Node<'a>>,
    /// The cells, in file order.
    pub cells: Vec<Cell<'a>>,
}

#[derive(Clone, Debug, PartialEq, Eq)]
pub struct Dimension<'a> {
    /// The bytes of its name; [`Dimension::name`] says what it is.
    pub name_bytes: ValueBytes<'a>,
    /// Number of leaf categories at any depth.
    pub n: u32,
    /// Its nodes, by their numbers in the table.
    pub nodes: Range<usize>,
}

/// A leaf category, or a group of categories.
#[derive(Clone, Debug, PartialEq, Eq)]
pub struct Node<'a> {
    /// The bytes of its name; [`Node::name`] says what it is.
    pub name_bytes: ValueBytes<'a>,
    pub kind: NodeKind,
    /// Number of its dimension.
    pub dimension: usize,
    /// Number of the group it stands in.
    pub parent: Option<usize>,
    /// The nodes below it at any depth, by their numbers in the table.
    pub below: Range<usize>,
}

/// A category of a dimension, leaf or group: a node.
pub type Category<'a> = Node<'a>;

#[derive(Clone, Copy, Debug, PartialEq, Eq)]
pub enum NodeKind {
    Leaf {
        index: u32,
    },
    /// `children` is the number of direct children.
    Group {
        children: u32,
    },
}

#[derive(Clone, Debug, PartialEq, Eq)]
pub struct Cell<'a> {
    pub index: u32,
    /// The bytes of its Value; [`Cell::value`] says what it is.
    pub value_bytes: ValueBytes<'a>,
}

impl<'a> Dimension<'a> {
    /// Its name. Nothing is refused of a dimension that [`read_member`] gave.
    pub fn name(&self) -> Result<Value<'a>, Refusal> {
        self.name_bytes.value()
    }
}

impl<'a> Node<'a> {
    /// Its name. Nothing is refused of a node that [`read_member`] gave.
    ///
    /// ```
    /// let member = std::fs::read("../../examples/spine_18.bin")?;
    /// let table = digarumbi::read_member(&member)?;
    /// assert_eq!(table.nodes[2].name()?.to_string(), "Std. Error");
    /// # Ok::<(), Box<dyn std::error::Error>>(())
    /// ```
    pub fn name(&self) -> Result<Value<'a>, Refusal> {
        self.name_bytes.value()
    }
}

impl<'a> Cell<'a> {
    /// Its Value. Nothing is refused of a cell that [`read_member`] gave.
    ///
    /// ```
    /// let member = std::fs::read("../../examples/spine_18.bin")?;
    /// let table = digarumbi::read_member(&member)?;
    /// let value = table.cells[9].value()?;
    /// assert_eq!(value.number(), Some(0.0));
    /// # Ok::<(), Box<dyn std::error::Error>>(())
    /// ```
    pub fn value(&self) -> Result<Value<'a>, Refusal> {
        self.value_bytes.value()
    }
}

/// The dimensions on each axis, inner ones first.
#[derive(Clone, Debug, PartialEq, Eq)]
pub struct Axes {
    pub layers: Vec<usize>,
    pub rows: Vec<usize>,
    pub columns: Vec<usize>,
}

/// Reads a member.
///
/// ```
/// let member = std::fs::read("../../examples/spine_18.bin")?;
/// let table = digarumbi::read_member(&member)?;
/// assert_eq!((table.dimensions.len(), table.nodes.len(), table.cells.len()), (2, 9, 10));
/// assert_eq!(table.version, 3);
///
/// let refusal = digarumbi::read_member(&member[..1_000]).unwrap_err();
/// assert_eq!(refusal.to_string(), "refused 2 at 911");
/// # Ok::<(), Box<dyn std::error::Error>>(())
/// ```
pub fn read_member(member: &[u8]) -> Result<Table<'_>, Refusal> {
    let mut answer = [0; MEMBER_ANSWER];
    let mut nodes = vec![0; NODE_AREA];
    let mut cells = vec![0; CELL_AREA];
    lent::read_member(member, &mut answer, &mut nodes, &mut cells);
    table(member, &answer, &nodes, &cells)
}

/// The table of a member, by the words of its answer and its records.
pub(crate) fn table<'a>(
    member: &'a [u8],
    answer: &[u32; MEMBER_ANSWER],
    nodes: &[u32],
    cells: &[u32],
) -> Result<Table<'a>, Refusal> {
    let [number, place, dimension_count, node_count, cell_count, ..] = *answer;
    if number != 0 {
        return Err(Refusal { number, place, nodes: node_count, cells: cell_count });
    }
    let cells = &cells[..CELL_RECORD * cell_count as usize];
    let member = Member { bytes: member, version: version(member) };
    Ok(Table {
        member: member.bytes,
        version: member.version,
        dimensions: dimensions(member, answer, dimension_count as usize, node_count as usize),
        axes: axes(answer),
        nodes: node_records(member, nodes, node_count as usize),
        cells: cells.chunks(CELL_RECORD).map(|record| cell(member, record)).collect(),
    })
}

/// An accepted member, with its version.
#[derive(Clone, Copy)]
struct Member<'a> {
    bytes: &'a [u8],
    version: u32,
}

impl<'a> Member<'a> {
    /// The Value at a place of a record.
    fn value(self, place: usize, length: usize) -> ValueBytes<'a> {
        ValueBytes { version: self.version, bytes: part(self.bytes, place, length) }
    }
}

/// The version of an accepted member.
fn version(member: &[u8]) -> u32 {
    u32::from_le_bytes(member[VERSION].try_into().expect("four bytes"))
}

/// The part of the member at `place`; the empty part if it does not lie inside.
///
/// ```
/// assert_eq!(digarumbi::part(b"member", 2, 3), b"mbe");
/// assert_eq!(digarumbi::part(b"member", 2, 5), b"");
/// ```
pub fn part(member: &[u8], place: usize, length: usize) -> &[u8] {
    match lent::part(member, place, length) {
        0 => &[],
        length => &member[place..place + length],
    }
}

fn dimensions<'a>(
    member: Member<'a>,
    answer: &[u32; MEMBER_ANSWER],
    count: usize,
    node_count: usize,
) -> Vec<Dimension<'a>> {
    let records: Vec<&[u32]> =
        answer[DIMENSIONS..AXIS_ORDER].chunks(DIMENSION_WORDS).take(count).collect();
    let first_nodes = records.iter().map(|record| record[3] as usize);
    let ends = first_nodes.clone().skip(1).chain([node_count]);
    let ranges = first_nodes.zip(ends).map(|(first, end)| first..end);
    let dimension = |(record, nodes): (&&[u32], _)| Dimension {
        name_bytes: member.value(record[0] as usize, record[1] as usize),
        n: record[2],
        nodes,
    };
    records.iter().zip(ranges).map(dimension).collect()
}

fn axes(answer: &[u32; MEMBER_ANSWER]) -> Axes {
    let mut order = answer[AXIS_ORDER..].iter().map(|&dimension| dimension as usize);
    let mut axis = |count: u32| order.by_ref().take(count as usize).collect();
    Axes { layers: axis(answer[5]), rows: axis(answer[6]), columns: axis(answer[7]) }
}

fn node_records<'a>(member: Member<'a>, nodes: &[u32], count: usize) -> Vec<Node<'a>> {
    nodes
        .chunks(NODE_RECORD)
        .take(count)
        .enumerate()
        .map(|(i, record)| {
            let (place, length) = lent::node_name(member.bytes, nodes, count, i);
            let below = i + 1..lent::node_after(nodes, count, i);
            node(member.value(place, length), record, below)
        })
        .collect()
}

fn node<'a>(name_bytes: ValueBytes<'a>, record: &[u32], below: Range<usize>) -> Node<'a> {
    let kind = match record[0] {
        0 => NodeKind::Leaf { index: record[5] },
        _ => NodeKind::Group { children: record[5] },
    };
    let parent = Some(record[2]).filter(|&parent| parent != NO_PARENT);
    let parent = parent.map(|parent| parent as usize);
    Node { name_bytes, kind, dimension: record[1] as usize, parent, below }
}

fn cell<'a>(member: Member<'a>, record: &[u32]) -> Cell<'a> {
    Cell { index: record[0], value_bytes: member.value(record[1] as usize, record[2] as usize) }
}

impl<'a> Table<'a> {
    /// The categories of a dimension and their groups, in file order; none if there is no such
    /// dimension.
    pub fn categories(&self, dimension: usize) -> &[Node<'a>] {
        self.nodes.get(self.dimension_nodes(dimension)).unwrap_or_default()
    }

    /// The categories and groups that stand directly in a dimension, by their numbers; none if there
    /// is no such dimension.
    pub fn top(&self, dimension: usize) -> impl Iterator<Item = usize> + '_ {
        self.skipping(self.dimension_nodes(dimension))
    }

    /// The nodes of a dimension; the empty range if there is no such dimension.
    fn dimension_nodes(&self, dimension: usize) -> Range<usize> {
        self.dimensions.get(dimension).map_or(0..0, |dimension| dimension.nodes.clone())
    }

    /// The direct children of a node, by their numbers.
    ///
    /// ```
    /// let member = std::fs::read("../../examples/spine_18.bin")?;
    /// let table = digarumbi::read_member(&member)?;
    /// assert_eq!(table.top(0).collect::<Vec<_>>(), [0, 3, 5, 6]);
    /// assert_eq!(table.children(&table.nodes[0]).collect::<Vec<_>>(), [1, 2]);
    /// # Ok::<(), Box<dyn std::error::Error>>(())
    /// ```
    pub fn children(&self, node: &Node) -> impl Iterator<Item = usize> + '_ {
        self.skipping(node.below.clone())
    }

    /// The nodes of a range, each skipped with all that is below it.
    fn skipping(&self, nodes: Range<usize>) -> impl Iterator<Item = usize> + '_ {
        let end = nodes.end.min(self.nodes.len());
        let inside = move |i: usize| (i < end).then_some(i);
        successors(inside(nodes.start), move |&i| inside(self.nodes[i].below.end.max(i + 1)))
    }

    /// How many groups a node stands in.
    pub fn depth(&self, node: &Node) -> usize {
        let parent = |node: &Node| self.nodes.get(node.parent?);
        // No node stands in more groups than there are nodes, whatever their parents say.
        successors(parent(node), |node| parent(node)).take(self.nodes.len()).count()
    }

    /// The coordinates of a cell: in each dimension the leaf index of its category.
    /// The index is k = n_i * k + x_i, i from the first dimension to the last (003, Cells).
    /// A cell of another table gets 0 in a dimension without leaves.
    pub fn coordinates(&self, cell: &Cell) -> Vec<u32> {
        let mut k = cell.index;
        let mut coordinates: Vec<u32> = Vec::with_capacity(self.dimensions.len());
        for dimension in self.dimensions.iter().rev() {
            coordinates.push(k.checked_rem(dimension.n).unwrap_or_default());
            k = k.checked_div(dimension.n).unwrap_or_default();
        }
        coordinates.reverse();
        coordinates
    }

    /// The cells under a leaf category: those with its leaf index as coordinate in its dimension.
    ///
    /// ```
    /// let member = std::fs::read("../../examples/spine_18.bin")?;
    /// let table = digarumbi::read_member(&member)?;
    /// let indexes: Vec<u32> = table.cells_under(0, 3).map(|cell| cell.index).collect();
    /// assert_eq!(indexes, [6, 7]);
    /// # Ok::<(), Box<dyn std::error::Error>>(())
    /// ```
    pub fn cells_under(
        &self,
        dimension: usize,
        leaf_index: u32,
    ) -> impl Iterator<Item = &Cell<'a>> + '_ {
        self.cells
            .iter()
            .filter(move |cell| self.coordinates(cell).get(dimension) == Some(&leaf_index))
    }
}
