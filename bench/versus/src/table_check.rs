//! The table that the Rust bindings make of an accepted member, and the positions of its cells.

use digarumbi::{Axes, Cell, Dimension, Node, NodeKind, Position, Table, ValueBytes};
use digarumbi_bench::cursor::Cursor;
use digarumbi_bench::member::{Answer, CELL_WORDS, NODE_WORDS};
use digarumbi_bench::positions::position;
use digarumbi_bench::titles::header;

use crate::difference::Difference;

/// Compares the bindings' table with the independent reader's answer and records.
pub fn check_table(
    member: &[u8],
    answer: &Answer,
    nodes: &[u32],
    cells: &[u32],
) -> Result<(), Difference> {
    let header = header(&mut Cursor::new(member)).expect("an accepted member");
    let version = header.number();
    let expected = Table {
        member,
        version,
        dimensions: dimensions(version, member, answer),
        axes: axes(answer),
        nodes: nodes
            .chunks(NODE_WORDS)
            .zip(0..)
            .map(|(record, i)| node(version, member, record, i))
            .collect(),
        cells: cells.chunks(CELL_WORDS).map(|record| cell(version, member, record)).collect(),
    };
    let found = digarumbi::read_member(member);
    Difference::compare("the bindings' table", &Ok(&expected), &found.as_ref())?;
    let turned = expected.turned(other_axes(&expected.axes));
    let turned = turned.map_err(|refusal| Difference::missing(format!("turned: {refusal}")))?;
    for table in [&expected, &turned] {
        check_positions(table)?;
    }
    Difference::compare("turned back", &Ok(expected.clone()), &turned.turned(expected.axes))
}

/// The rows on the layers, the layers on the columns, the columns on the rows, each the other way round.
fn other_axes(axes: &Axes) -> Axes {
    let reversed = |axis: &[usize]| axis.iter().rev().copied().collect();
    Axes {
        layers: reversed(&axes.rows),
        rows: reversed(&axes.columns),
        columns: reversed(&axes.layers),
    }
}

/// The positions of all cells, and the indexes of these positions.
fn check_positions(table: &Table) -> Result<(), Difference> {
    let ns: Vec<u32> = table.dimensions.iter().map(|dimension| dimension.n).collect();
    let axes = [&table.axes.layers, &table.axes.rows, &table.axes.columns];
    let order: Vec<u32> = axes.into_iter().flatten().map(|&dimension| dimension as u32).collect();
    let counts = axes.map(|axis| axis.len() as u32);
    for cell in &table.cells {
        let [layer, row, column] = position(&ns, counts, &order, cell.index)
            .map_err(|refusal| Difference::missing(format!("cell {}: {refusal}", cell.index)))?;
        let expected = Position { layer, row, column };
        Difference::compare("a cell's position", &Ok(expected), &table.position(cell))?;
        Difference::compare("a position's index", &Ok(cell.index), &table.index(expected))?;
    }
    Ok(())
}

fn span(version: u32, member: &[u8], place: u32, length: u32) -> ValueBytes<'_> {
    ValueBytes { version, bytes: &member[place as usize..][..length as usize] }
}

fn dimensions<'a>(version: u32, member: &'a [u8], answer: &Answer) -> Vec<Dimension<'a>> {
    let count = answer.dimension_count as usize;
    (0..count)
        .map(|i| {
            let entry = answer.dimensions[i];
            let last = i + 1 == count;
            let end = if last { answer.node_count } else { answer.dimensions[i + 1].first_node };
            Dimension {
                name_bytes: span(version, member, entry.name_place, entry.name_length),
                n: entry.leaves,
                nodes: entry.first_node as usize..end as usize,
            }
        })
        .collect()
}

fn axes(answer: &Answer) -> Axes {
    let [layers, rows, columns] = answer.axis_counts.map(|count| count as usize);
    let order = answer.axis_order.map(|dimension| dimension as usize);
    Axes {
        layers: order[..layers].to_vec(),
        rows: order[layers..][..rows].to_vec(),
        columns: order[layers + rows..][..columns].to_vec(),
    }
}

fn node<'a>(version: u32, member: &'a [u8], record: &[u32], i: usize) -> Node<'a> {
    let kind = if record[0] == 0 {
        NodeKind::Leaf { index: record[5] }
    } else {
        NodeKind::Group { children: record[5] }
    };
    Node {
        name_bytes: span(version, member, record[3], record[4]),
        kind,
        dimension: record[1] as usize,
        parent: (record[2] != u32::MAX).then_some(record[2] as usize),
        below: i + 1..i + record[6] as usize,
    }
}

fn cell<'a>(version: u32, member: &'a [u8], record: &[u32]) -> Cell<'a> {
    Cell { index: record[0], value_bytes: span(version, member, record[1], record[2]) }
}
