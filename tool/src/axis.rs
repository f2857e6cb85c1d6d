//! The layers, rows and columns of a table that are shown, with their headings. Where a cell stands
//! the library says.

use std::collections::BTreeMap;
use std::rc::Rc;

use digarumbi::{Axes, Cell, Position, ValueBytes};

use crate::commands::Member;

#[derive(Clone, Copy)]
pub enum AxisKind {
    Layers,
    Rows,
    Columns,
}

impl AxisKind {
    fn dimensions(self, axes: &Axes) -> &[usize] {
        match self {
            AxisKind::Layers => &axes.layers,
            AxisKind::Rows => &axes.rows,
            AxisKind::Columns => &axes.columns,
        }
    }

    /// The position on this axis.
    fn of(self, position: Position) -> u32 {
        match self {
            AxisKind::Layers => position.layer,
            AxisKind::Rows => position.row,
            AxisKind::Columns => position.column,
        }
    }

    /// This position on the axis, and 0 on the others.
    fn at(self, position: u32) -> Position {
        let first = Position { layer: 0, row: 0, column: 0 };
        match self {
            AxisKind::Layers => Position { layer: position, ..first },
            AxisKind::Rows => Position { row: position, ..first },
            AxisKind::Columns => Position { column: position, ..first },
        }
    }
}

/// A layer, row or column.
pub struct Line {
    /// Its position on the axis.
    pub position: u32,
    /// Its leaf index in each dimension of the axis, outer ones first.
    pub leaves: Vec<u32>,
}

/// The dimensions of an axis, outer ones first, and its lines in the order in which they are shown.
pub struct Axis {
    pub dimensions: Vec<usize>,
    pub lines: Vec<Line>,
}

impl Axis {
    /// With all lines, or with those that have a cell.
    pub fn new(member: &Member, kind: AxisKind, all: bool) -> Axis {
        let mut dimensions = kind.dimensions(&member.table.axes).to_vec();
        dimensions.reverse();
        let lines = match all {
            true => all_lines(member, kind, &dimensions),
            false => lines_with_cells(member, kind, &dimensions),
        };
        Axis { lines: in_file_order(member, &dimensions, lines), dimensions }
    }

    /// The labels of each line, one to a level; a short path ends in the first or the last.
    pub fn labels(&self, member: &Member, ends_last: bool) -> Vec<Vec<Rc<str>>> {
        let depths: Vec<usize> = self.dimensions.iter().map(|&i| member.names[i].depth()).collect();
        let labels = |line: &Line| {
            let part = |((&dimension, &leaf), &depth): ((&usize, &u32), &usize)| {
                let path = member.names[dimension].leaves[leaf as usize].clone();
                let fill = vec![Rc::from(""); depth - path.len()];
                if ends_last {
                    [fill, path].concat()
                } else {
                    [path, fill].concat()
                }
            };
            self.dimensions.iter().zip(&line.leaves).zip(&depths).flat_map(part).collect()
        };
        without_repeats(self.lines.iter().map(labels).collect())
    }
}

/// Positions go up to the first that the library refuses.
fn all_lines(member: &Member, kind: AxisKind, dimensions: &[usize]) -> Vec<Line> {
    let table = &member.table;
    let nothing = ValueBytes { version: table.version, bytes: &[] };
    let line = |position: u32| {
        let index = table.index(kind.at(position)).ok()?;
        let cell = Cell { index, value_bytes: nothing };
        Some(Line { position, leaves: leaves(member, &cell, dimensions) })
    };
    (0..).map_while(line).collect()
}

fn lines_with_cells(member: &Member, kind: AxisKind, dimensions: &[usize]) -> Vec<Line> {
    let line = |cell: &Cell| {
        let position = kind.of(member.table.position(cell).ok()?);
        Some((position, leaves(member, cell, dimensions)))
    };
    let lines: BTreeMap<u32, Vec<u32>> = member.table.cells.iter().filter_map(line).collect();
    lines.into_iter().map(|(position, leaves)| Line { position, leaves }).collect()
}

fn leaves(member: &Member, cell: &Cell, dimensions: &[usize]) -> Vec<u32> {
    let coordinates = member.table.coordinates(cell);
    dimensions.iter().map(|&i| coordinates[i]).collect()
}

/// Lines by where their leaves stand in the file, which need not be by leaf index.
fn in_file_order(member: &Member, dimensions: &[usize], mut lines: Vec<Line>) -> Vec<Line> {
    let ranks: Vec<Vec<usize>> = dimensions.iter().map(|&i| member.names[i].ranks()).collect();
    lines.sort_by_cached_key(|line| -> Vec<usize> {
        ranks.iter().zip(&line.leaves).map(|(ranks, &leaf)| ranks[leaf as usize]).collect()
    });
    lines
}

/// Labels with those left out that the line before has too; the last one stays.
fn without_repeats(labels: Vec<Vec<Rc<str>>>) -> Vec<Vec<Rc<str>>> {
    let mut shown = labels.clone();
    for (i, pair) in labels.windows(2).enumerate() {
        let same = pair[0].iter().zip(&pair[1]).take_while(|(a, b)| a == b).count();
        let last = pair[1].len().saturating_sub(1);
        shown[i + 1][..same.min(last)].fill(Rc::from(""));
    }
    shown
}
