//! `table`: the table as people look at it.

use std::collections::HashMap;
use std::ffi::OsString;
use std::rc::Rc;

use digarumbi::{Cell, Position};

use super::{with_member, Member};
use crate::axis::{Axis, AxisKind, Line};
use crate::grid::{Entry, Grid};
use crate::json::{self, Object};
use crate::session::{Session, Status, Written};

/// With more places than this, only rows, columns and layers with a cell are shown.
const ALL_PLACES: u64 = 65_536;
/// More places are not drawn.
const MOST_PLACES: usize = 1_000_000;
/// Longer texts are cut in the table.
const MOST_CHARACTERS: usize = 80;

pub fn run(session: &mut Session, files: &[OsString]) -> Written {
    let headed = files.len() > 1;
    session.each_input(files, |session, input| {
        with_member(session, input, |session, member| match session.options.json {
            true => session.line(json_table(member)),
            false => text_table(session, member, headed),
        })
    })
}

fn text_table(session: &mut Session, member: &Member, headed: bool) -> Written {
    let drawing = Drawing::new(member);
    let [layers, rows, columns] = [&drawing.layers, &drawing.rows, &drawing.columns];
    let places = [layers, rows, columns].map(|axis| axis.lines.len()).iter().product::<usize>();
    if places > MOST_PLACES {
        session
            .say(&format!("{}: {places} places are too many to draw; cells has them", member.file));
        session.set(Status::Failed);
        return Ok(());
    }
    let file = headed.then(|| format!("{}:", member.file));
    let mut lines: Vec<String> = file.into_iter().collect();
    lines.extend(Some(member.texts.title(member.table.version)).filter(|title| !title.is_empty()));
    lines.extend(axis_line(rows, "rows", member));
    lines.extend(axis_line(columns, "columns", member));
    if member.table.cells.is_empty() {
        lines.push("no cells".into());
    } else {
        for layer in &layers.lines {
            lines.push(String::new());
            lines.extend(layer_line(layers, member, layer));
            lines.extend(drawing.grid(layer).lines());
        }
    }
    if headed {
        lines.push(String::new());
    }
    session.line(lines.join("\n"))
}

fn cut(text: &str) -> String {
    match text.char_indices().nth(MOST_CHARACTERS) {
        Some((end, _)) => format!("{}..", &text[..end]),
        None => text.to_string(),
    }
}

/// Which dimensions an axis shows.
fn axis_line(axis: &Axis, what: &str, member: &Member) -> Option<String> {
    let names: Vec<&str> = axis.dimensions.iter().map(|&i| member.names[i].name.trim()).collect();
    (!names.is_empty()).then(|| format!("{what}: {}", names.join(", ")).trim_end().to_string())
}

/// A layer in words.
fn layer_line(layers: &Axis, member: &Member, layer: &Line) -> Option<String> {
    let part = |(&dimension, &leaf): (&usize, &u32)| {
        let names = &member.names[dimension];
        format!("{}: {}", cut(names.name.trim()), cut(&names.path(leaf as usize)))
    };
    let parts: Vec<String> = layers.dimensions.iter().zip(&layer.leaves).map(part).collect();
    (!parts.is_empty()).then(|| format!("layer: {}", parts.join(", ")).trim_end().to_string())
}

/// A table that is being drawn.
struct Drawing<'m, 'a> {
    member: &'m Member<'a>,
    layers: Axis,
    rows: Axis,
    columns: Axis,
    /// What the cells say, by where they stand.
    cells: HashMap<Position, Entry>,
}

impl<'m, 'a> Drawing<'m, 'a> {
    fn new(member: &'m Member<'a>) -> Drawing<'m, 'a> {
        let sizes = member.table.dimensions.iter().map(|dimension| u64::from(dimension.n));
        let all = sizes.fold(1u64, u64::saturating_mul) <= ALL_PLACES;
        let cell = |cell: &Cell| {
            let value = cell.value().ok();
            let right = value.is_some_and(|value| value.bits().is_some());
            let text = cut(&member.texts.value_of(&cell.value_bytes));
            Some((member.table.position(cell).ok()?, Entry { text, right }))
        };
        Drawing {
            member,
            layers: Axis::new(member, AxisKind::Layers, all),
            rows: Axis::new(member, AxisKind::Rows, all),
            columns: Axis::new(member, AxisKind::Columns, all),
            // nothing is refused of an accepted member's cell
            cells: member.table.cells.iter().filter_map(cell).collect(),
        }
    }

    fn grid(&self, layer: &Line) -> Grid {
        let row_labels = self.rows.labels(self.member, false);
        let column_labels = self.columns.labels(self.member, true);
        let corner = vec![Entry::default(); row_labels.first().map_or(0, Vec::len)];
        let levels = column_labels.first().map_or(0, Vec::len);
        let heading = |level: usize| {
            let label = |labels: &Vec<Rc<str>>| Entry { text: cut(&labels[level]), right: true };
            corner.iter().cloned().chain(column_labels.iter().map(label)).collect()
        };
        let body = |(labels, row): (&Vec<Rc<str>>, &Line)| {
            let labels = labels.iter().map(|text| Entry { text: cut(text), right: false });
            let cells = self.columns.lines.iter().map(|column| self.cell(layer, row, column));
            labels.chain(cells).collect()
        };
        Grid {
            heading: (0..levels).map(heading).collect(),
            body: row_labels.iter().zip(&self.rows.lines).map(body).collect(),
        }
    }

    /// What stands at a place of the table; nothing where there is no cell.
    fn cell(&self, layer: &Line, row: &Line, column: &Line) -> Entry {
        let [layer, row, column] = [layer, row, column].map(|line| line.position);
        self.cells.get(&Position { layer, row, column }).cloned().unwrap_or_default()
    }
}

fn json_table(member: &Member) -> String {
    let texts = |texts: &[Rc<str>]| json::list(texts.iter().map(|text| json::text(text)));
    let dimensions = member.names.iter().map(|names| {
        let leaves = json::list(names.leaves.iter().map(|path| texts(path)));
        let order = json::list(names.order.iter().map(u32::to_string));
        Object::new().text("name", &names.name).plain("leaves", leaves).plain("order", order).end()
    });
    let axes = &member.table.axes;
    let numbers = |numbers: &[usize]| json::list(numbers.iter().map(usize::to_string));
    let cells = member.table.cells.iter().map(|cell| {
        let object = Object::new().plain("index", cell.index);
        object.text("text", &member.texts.value_of(&cell.value_bytes)).end()
    });
    Object::new()
        .text("file", member.file)
        .text("title", &member.texts.title(member.table.version))
        .plain("dimensions", json::list(dimensions))
        .plain("layers", numbers(&axes.layers))
        .plain("rows", numbers(&axes.rows))
        .plain("columns", numbers(&axes.columns))
        .plain("cells", json::list(cells))
        .end()
}
