//! The whole member: Header to the end, and the records of its nodes and cells.

use crate::axes::{axes, Axes};
use crate::cells::{cells, Cell};
use crate::cursor::Cursor;
use crate::dimensions::{dimensions, Dimension, Dimensions, Node, NodeKind};
use crate::limits::{DIMENSIONS, MEMBER_BYTES};
use crate::refusal::*;
use crate::version::Version;
use crate::{sections, titles};

pub const NODE_WORDS: usize = 7;
pub const CELL_WORDS: usize = 3;

#[derive(Clone, Copy, Debug, Default, PartialEq, Eq)]
pub struct DimensionAnswer {
    pub name_place: u32,
    pub name_length: u32,
    pub leaves: u32,
    pub first_node: u32,
}

/// What the caller gets by value. `refusal` is 0 for an accepted member.
#[derive(Clone, Copy, Debug, Default, PartialEq, Eq)]
pub struct Answer {
    pub refusal: u32,
    pub place: u32,
    pub dimension_count: u32,
    pub node_count: u32,
    pub cell_count: u32,
    pub dimensions: [DimensionAnswer; DIMENSIONS],
    pub axis_counts: [u32; 3],
    pub axis_order: [u32; DIMENSIONS],
}

type Section = fn(&mut Cursor, Version) -> Result<(), Refusal>;

/// The sections between Header and Dimensions, in file order.
const SECTIONS: [Section; 7] = [
    titles::titles,
    titles::footnotes,
    sections::areas,
    |cursor, _| sections::borders(cursor),
    |cursor, _| sections::print_settings(cursor),
    sections::table_settings,
    sections::formats,
];

pub(crate) struct Member {
    pub version: Version,
    pub dimensions: Dimensions,
    pub axes: Axes,
    pub cells: Vec<Cell>,
}

/// Reads a member. Writes its records into the two lent areas if it is accepted.
pub fn read_member(member: &[u8], nodes: &mut [u32], cells: &mut [u32]) -> Answer {
    match parse_for_areas(member, nodes, cells) {
        Ok(parsed) => {
            parsed.write_records(nodes, cells);
            accepted(&parsed)
        }
        Err(refused) => refused.into(),
    }
}

/// Why nothing was read.
#[derive(Clone, Copy, Debug, PartialEq, Eq)]
pub struct Refused {
    pub refusal: Refusal,
    /// Numbers of nodes and cells, where an area is too short for them.
    pub counts: [u32; 2],
}

impl From<Refusal> for Refused {
    fn from(refusal: Refusal) -> Refused {
        Refused { refusal, counts: [0, 0] }
    }
}

impl From<Refused> for Answer {
    fn from(refused: Refused) -> Answer {
        let Refused { refusal, counts: [node_count, cell_count] } = refused;
        let (refusal, place) = (refusal.number, refusal.place as u32);
        Answer { refusal, place, node_count, cell_count, ..Answer::default() }
    }
}

/// An accepted member whose records fit in the areas, which stay as they are.
pub(crate) fn parse_for_areas(
    member: &[u8],
    nodes: &[u32],
    cells: &[u32],
) -> Result<Member, Refused> {
    let parsed = parse(member)?;
    let counts = parsed.counts();
    let short = |number: u32| Refused { refusal: Refusal::new(number, 0), counts };
    let [node_count, cell_count] = counts.map(|count| count as usize);
    if nodes.len() < NODE_WORDS * node_count {
        return Err(short(NODE_AREA));
    }
    if cells.len() < CELL_WORDS * cell_count {
        return Err(short(CELL_AREA));
    }
    Ok(parsed)
}

impl Member {
    /// Numbers of nodes and cells.
    pub fn counts(&self) -> [u32; 2] {
        [self.dimensions.nodes.len() as u32, self.cells.len() as u32]
    }

    pub fn write_records(&self, nodes: &mut [u32], cells: &mut [u32]) {
        write_records(self.dimensions.nodes.iter().map(node_record), nodes);
        write_records(self.cells.iter().map(cell_record), cells);
    }
}

fn parse(member: &[u8]) -> Result<Member, Refusal> {
    refuse_if(member.len() > MEMBER_BYTES, TOO_LONG, 0)?;
    let mut cursor = Cursor::new(member);
    let version = titles::header(&mut cursor)?;
    for section in SECTIONS {
        section(&mut cursor, version)?;
    }
    let dimensions = dimensions(&mut cursor, version)?;
    let leaves: Vec<u32> = dimensions.dimensions.iter().map(|d| d.leaves).collect();
    let axes = axes(&mut cursor, &leaves)?;
    let cells = cells(&mut cursor, version, axes.table_places)?;
    cursor.optional_byte(0x01);
    cursor.input_end()?;
    Ok(Member { version, dimensions, axes, cells })
}

/// The place after each section before Dimensions, as far as they are read.
pub fn section_ends(member: &[u8]) -> (Vec<usize>, Option<Refusal>) {
    let mut ends = Vec::new();
    let refusal = push_section_ends(member, &mut ends).err();
    (ends, refusal)
}

fn push_section_ends(member: &[u8], ends: &mut Vec<usize>) -> Result<(), Refusal> {
    refuse_if(member.len() > MEMBER_BYTES, TOO_LONG, 0)?;
    let mut cursor = Cursor::new(member);
    let version = titles::header(&mut cursor)?;
    ends.push(cursor.place());
    for section in SECTIONS {
        section(&mut cursor, version)?;
        ends.push(cursor.place());
    }
    Ok(())
}

fn accepted(member: &Member) -> Answer {
    let mut answer = Answer {
        dimension_count: member.dimensions.dimensions.len() as u32,
        node_count: member.dimensions.nodes.len() as u32,
        cell_count: member.cells.len() as u32,
        axis_counts: member.axes.counts,
        ..Answer::default()
    };
    for (entry, dimension) in answer.dimensions.iter_mut().zip(&member.dimensions.dimensions) {
        *entry = dimension_answer(dimension);
    }
    answer.axis_order[..member.axes.order.len()].copy_from_slice(&member.axes.order);
    answer
}

fn dimension_answer(dimension: &Dimension) -> DimensionAnswer {
    DimensionAnswer {
        name_place: dimension.name.place as u32,
        name_length: dimension.name.length as u32,
        leaves: dimension.leaves,
        first_node: dimension.first_node,
    }
}

fn node_record(node: &Node) -> [u32; NODE_WORDS] {
    let (kind, last) = match node.kind {
        NodeKind::Leaf { index } => (0, index),
        NodeKind::Group { children } => (1, children),
    };
    let (place, length) = (node.name.place as u32, node.name.length as u32);
    [kind, node.dimension, node.parent, place, length, last, node.size]
}

fn cell_record(cell: &Cell) -> [u32; CELL_WORDS] {
    [cell.index, cell.value.place as u32, cell.value.length as u32]
}

fn write_records<const N: usize>(records: impl Iterator<Item = [u32; N]>, area: &mut [u32]) {
    for (words, record) in area.chunks_exact_mut(N).zip(records) {
        words.copy_from_slice(&record);
    }
}
