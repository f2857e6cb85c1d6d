//! `cells`: the cells, one to a line.

use std::ffi::OsString;

use digarumbi::Cell;

use super::{with_member, Member};
use crate::json::{self, Object};
use crate::session::{Session, Written};
use crate::text::number;

pub fn run(session: &mut Session, files: &[OsString]) -> Written {
    session.header(&["file", "index", "paths", "value", "kind"])?;
    session.each_input(files, |session, input| {
        with_member(session, input, |session, member| {
            let mut cells = member.table.cells.iter();
            cells.try_for_each(|cell| cell_line(session, member, cell))
        })
    })
}

fn cell_line(session: &mut Session, member: &Member, cell: &Cell) -> Written {
    let leaves = member.table.coordinates(cell);
    let line = match session.options.json {
        true => json_cell(member, cell, &leaves),
        false => tsv_cell(member, cell, &leaves),
    };
    session.line(line)
}

fn tsv_cell(member: &Member, cell: &Cell, leaves: &[u32]) -> String {
    let (value, kind) = value(member, cell);
    let paths = member.names.iter().zip(leaves).map(|(names, &leaf)| names.path(leaf as usize));
    let start = [member.file.to_string(), cell.index.to_string()];
    let fields: Vec<String> = start.into_iter().chain(paths).chain([value, kind.into()]).collect();
    fields.join("\t")
}

fn json_cell(member: &Member, cell: &Cell, leaves: &[u32]) -> String {
    let paths = member.names.iter().zip(leaves).map(|(names, &leaf)| {
        json::list(names.leaves[leaf as usize].iter().map(|name| json::text(name)))
    });
    let object = Object::new().text("file", member.file).plain("index", cell.index);
    let object = object.plain("leaves", json::list(leaves.iter().map(u32::to_string)));
    let object = object.plain("paths", json::list(paths));
    let (text, kind) = value(member, cell);
    let bits = cell.value().ok().and_then(|value| value.bits());
    let object = match bits {
        _ if kind == MISSING => object.plain("value", "null"),
        Some(bits) => object.double("value", f64::from_bits(bits)),
        None => object.text("value", &text),
    };
    object.text("kind", kind).end()
}

const MISSING: &str = "missing";

/// What the cell holds, and its kind. A number is shown as one, also where it has a label.
fn value(member: &Member, cell: &Cell) -> (String, &'static str) {
    match cell.value() {
        Ok(value) if value.is_missing() => (number(&value), MISSING),
        Ok(value) if value.bits().is_some() => (number(&value), "number"),
        Ok(value) => (member.texts.value(&value), "text"),
        // nothing is refused of an accepted member's cell
        Err(refusal) => (refusal.to_string(), "text"),
    }
}
