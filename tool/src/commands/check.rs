//! `check`: whether each member is accepted.

use std::ffi::OsString;

use digarumbi::{read_member, Refusal, Table};

use crate::json::Object;
use crate::session::{Session, Status, Written};

pub fn run(session: &mut Session, files: &[OsString]) -> Written {
    session.header(&[
        "file",
        "answer",
        "dimensions or number",
        "nodes or place",
        "cells or words",
    ])?;
    session.each_input(files, |session, input| match read_member(&input.bytes) {
        Ok(table) => accepted(session, &input.name, &table),
        Err(refusal) => refused(session, &input.name, &refusal),
    })
}

fn accepted(session: &mut Session, file: &str, table: &Table) -> Written {
    let counts = [table.dimensions.len(), table.nodes.len(), table.cells.len()];
    let [dimensions, nodes, cells] = counts;
    if session.options.json {
        let object = Object::new().text("file", file).plain("accepted", true);
        let object = object.plain("version", table.version).plain("dimensions", dimensions);
        return session.line(object.plain("nodes", nodes).plain("cells", cells).end());
    }
    session.line(format!("{file}\taccepted\t{dimensions}\t{nodes}\t{cells}"))
}

fn refused(session: &mut Session, file: &str, refusal: &Refusal) -> Written {
    session.set(Status::Refused);
    let (number, place, words) = (refusal.number, refusal.place, refusal.text());
    if session.options.json {
        let object = Object::new().text("file", file).plain("accepted", false);
        let object = object.plain("number", number).plain("place", place);
        return session.line(object.text("words", words).end());
    }
    session.line(format!("{file}\trefused\t{number}\t{place}\t{words}"))
}
