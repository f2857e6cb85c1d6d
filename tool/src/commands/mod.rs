//! The commands, one to a file.

pub mod cells;
pub mod check;
pub mod compare;
pub mod look;
pub mod table;
pub mod totals;
pub mod why;

use digarumbi::{read_member, Table};

use crate::input::Input;
use crate::names::{names, DimensionNames};
use crate::refusal::sentence;
use crate::session::{Session, Written};
use crate::text::Texts;

/// An accepted member with its names.
pub struct Member<'a> {
    pub file: &'a str,
    pub table: Table<'a>,
    pub texts: Texts<'a>,
    pub names: Vec<DimensionNames>,
}

/// Reads a member and hands it on if it is accepted; a refusal is said.
fn with_member(
    session: &mut Session,
    input: &Input,
    then: impl FnOnce(&mut Session, &Member) -> Written,
) -> Written {
    let bytes = &input.bytes[..];
    match read_member(bytes) {
        Ok(table) => {
            let texts = Texts::new(bytes, session.options.encoding);
            let names = names(bytes, &table, &texts);
            then(session, &Member { file: &input.name, table, texts, names })
        }
        Err(refusal) => {
            session.say_refused(&input.name, &sentence(&refusal));
            Ok(())
        }
    }
}
