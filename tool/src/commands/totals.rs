//! `totals`: the counts added up under every leaf.

use std::ffi::OsString;

use digarumbi::{Refusal, Total};

use super::{with_member, Member};
use crate::json::{self, Object};
use crate::number::shortest;
use crate::refusal::sentence;
use crate::session::{Session, Status, Written};
use crate::typed::dimension_named;

const COLUMNS: [&str; 10] = [
    "file",
    "dimension",
    "leaf index",
    "path",
    "total",
    "cells",
    "text",
    "missing",
    "smallest",
    "largest",
];

pub fn run(session: &mut Session, files: &[OsString]) -> Written {
    session.header(&COLUMNS)?;
    session.each_input(files, |session, input| with_member(session, input, member_totals))
}

fn member_totals(session: &mut Session, member: &Member) -> Written {
    let Some(asked) = session.options.dimension.clone() else {
        return (0..member.names.len())
            .try_for_each(|dimension| dimension_totals(session, member, dimension));
    };
    match dimension_named(member, &asked) {
        Ok(dimension) => dimension_totals(session, member, dimension),
        Err(why) => {
            session.say_refused(member.file, &why);
            Ok(())
        }
    }
}

fn dimension_totals(session: &mut Session, member: &Member, dimension: usize) -> Written {
    let totals = match member.table.totals(dimension) {
        Ok(totals) => totals,
        Err(refusal) => {
            session.say_refused(member.file, &sentence(&refusal));
            return Ok(());
        }
    };
    for (leaf, total) in totals.iter().enumerate() {
        if total.is_err() {
            session.set(Status::Refused);
        }
        let line = match session.options.json {
            true => json_total(member, dimension, leaf, total),
            false => tsv_total(member, dimension, leaf, total),
        };
        session.line(line)?;
    }
    Ok(())
}

fn tsv_total(
    member: &Member,
    dimension: usize,
    leaf: usize,
    total: &Result<Total, Refusal>,
) -> String {
    let names = &member.names[dimension];
    let (file, name, path) = (member.file, &names.name, names.path(leaf));
    let start = format!("{file}\t{name}\t{leaf}\t{path}");
    match total {
        Ok(Total { total, numbers, texts, missing, smallest, largest }) => {
            let (smallest, largest) = (shortest(*smallest), shortest(*largest));
            format!("{start}\t{total}\t{numbers}\t{texts}\t{missing}\t{smallest}\t{largest}")
        }
        Err(refusal) => format!("{start}\t{refusal}\t.\t.\t.\t.\t."),
    }
}

fn json_total(
    member: &Member,
    dimension: usize,
    leaf: usize,
    total: &Result<Total, Refusal>,
) -> String {
    let names = &member.names[dimension];
    let path = json::list(names.leaves[leaf].iter().map(|name| json::text(name)));
    let object = Object::new().text("file", member.file).text("dimension", &names.name);
    let object = object.plain("dimension_number", dimension).plain("leaf_index", leaf);
    let object = object.plain("path", path);
    match total {
        Ok(total) => object
            .plain("total", total.total)
            .plain("cells", total.numbers)
            .plain("text", total.texts)
            .plain("missing", total.missing)
            .double("smallest", total.smallest)
            .double("largest", total.largest),
        Err(refusal) => object.plain("number", refusal.number).plain("place", refusal.place),
    }
    .end()
}
