//! `look`: a table look in words, written back as version 02, or a member's sections made from it.

use std::ffi::{OsStr, OsString};

use digarumbi::{look_sections, rewrite_look, Look, Refusal};

use crate::arguments::Options;
use crate::encoding::Encoding;
use crate::input::{self, Input};
use crate::json::Object;
use crate::look_words::{fields, Field};
use crate::refusal::sentence;
use crate::replace::replace;
use crate::session::{reason, Session, Status, Written};

pub fn run(session: &mut Session, files: &[OsString]) -> Written {
    let Options { output, sections, .. } = session.options.clone();
    let headed = files.len() > 1;
    session.each_input(files, |session, input| match (&output, &sections) {
        (Some(output), _) => write(session, input, rewrite_look(&input.bytes), output),
        (_, Some(output)) => write(session, input, look_sections(&input.bytes), output),
        _ => in_words(session, input, headed),
    })
}

/// Writes what was made from a look. Nothing is written after a refusal.
fn write(
    session: &mut Session,
    input: &Input,
    made: Result<Vec<u8>, Refusal>,
    output: &OsStr,
) -> Written {
    let made = match made {
        Ok(made) => made,
        Err(refusal) => {
            session.say_refused(&input.name, &sentence(&refusal));
            return Ok(());
        }
    };
    if output == "-" {
        return session.write(&made);
    }
    if let Err(error) = replace(output.as_ref(), &made) {
        session.say_failed(&input::shown(output), &reason(&error));
    }
    Ok(())
}

/// The fields of a look in words.
fn read_fields(file: &[u8], encoding: Encoding) -> Result<Vec<Field>, Refusal> {
    Ok(fields(Look::file_version(file)?, &Look::read(file)?, encoding))
}

fn in_words(session: &mut Session, input: &Input, headed: bool) -> Written {
    let encoding = session.options.encoding.unwrap_or(Encoding::Utf8);
    let fields = match read_fields(&input.bytes, encoding) {
        Ok(fields) => fields,
        Err(refusal) => return refused(session, input, &refusal),
    };
    if session.options.json {
        let object = Object::new().text("file", &input.name).plain("accepted", true);
        let with = |object: Object, (name, value): &Field| object.text(name, value);
        return session.line(fields.iter().fold(object, with).end());
    }
    let heading = headed.then(|| format!("{}:", input.name));
    let lines = fields.iter().map(|(name, value)| format!("{name:<36}{value}").trim_end().into());
    session.line(heading.into_iter().chain(lines).collect::<Vec<String>>().join("\n"))
}

fn refused(session: &mut Session, input: &Input, refusal: &Refusal) -> Written {
    if session.options.json {
        session.set(Status::Refused);
        let object = Object::new().text("file", &input.name).plain("accepted", false);
        let object = object.plain("number", refusal.number).plain("place", refusal.place);
        return session.line(object.text("words", refusal.text()).end());
    }
    session.say_refused(&input.name, &sentence(refusal));
    Ok(())
}
