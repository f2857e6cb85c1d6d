//! `why`: why a member or a look is refused, with the path of productions to the place.

use std::ffi::OsString;

use digarumbi::{read_member, Look, Refusal, ValueBytes};

use crate::dump::dump;
use crate::input::Input;
use crate::json::Object;
use crate::refusal::sentence;
use crate::session::{Session, Status, Written};
use crate::text::Texts;
use crate::walk::{walk, walk_look, Step, Stop};

pub fn run(session: &mut Session, files: &[OsString]) -> Written {
    session.each_input(files, |session, input| {
        let (library, walked) = match is_look(input) {
            true => (look_answer(input), walk_look(&input.bytes)),
            false => (member_answer(input), walk(&input.bytes).answer),
        };
        match library {
            Ok(answer) => accepted(session, input, &answer, walked),
            Err(refusal) => refused(session, input, &refusal, walked),
        }
    })
}

/// A look begins with ff. A file that is named as one is taken for one.
fn is_look(input: &Input) -> bool {
    input.bytes.first() == Some(&0xff) || input.name.to_ascii_lowercase().ends_with(".tlo")
}

/// What the library answers, in words.
fn member_answer(input: &Input) -> Result<String, Refusal> {
    let table = read_member(&input.bytes)?;
    let counts = [table.dimensions.len(), table.nodes.len(), table.cells.len()];
    let [dimensions, nodes, cells] = counts;
    Ok(format!("accepted {dimensions} dims {nodes} nodes {cells} cells"))
}

fn look_answer(input: &Input) -> Result<String, Refusal> {
    let version = Look::file_version(&input.bytes)?;
    Ok(format!("accepted, a look of version {version:02}"))
}

type Walked = Result<(), Box<Stop>>;

fn accepted(session: &mut Session, input: &Input, answer: &str, walked: Walked) -> Written {
    let disagrees = walked.is_err().then(|| disagreement(&walked));
    if session.options.json {
        let object = Object::new().text("file", &input.name).plain("accepted", true);
        return session.line(with_disagreement(object, disagrees).end());
    }
    let line = format!("{}: {answer}", input.name);
    session.line([vec![line], disagrees.into_iter().collect()].concat().join("\n"))
}

fn refused(session: &mut Session, input: &Input, refusal: &Refusal, walked: Walked) -> Written {
    session.set(Status::Refused);
    let agreed = match &walked {
        Err(stop) if is_same(refusal, stop) => Some(stop),
        _ => None,
    };
    let disagrees = agreed.is_none().then(|| disagreement(&walked));
    match session.options.json {
        true => {
            session.line(json_refused(session, input, refusal, agreed.map(Box::as_ref), disagrees))
        }
        false => {
            session.line(text_refused(session, input, refusal, agreed.map(Box::as_ref), disagrees))
        }
    }
}

fn is_same(refusal: &Refusal, stop: &Stop) -> bool {
    refusal.number == stop.number && refusal.place as usize == stop.field.place
}

/// What the reader that keeps the path says, where the library says something else.
fn disagreement(walked: &Walked) -> String {
    let says = match walked {
        Ok(()) => "accepts the file".to_string(),
        Err(stop) => format!("says refused {} at {}", stop.number, stop.field.place),
    };
    format!(
        "the reader that keeps the path {says}: it is wrong, so no path is given; please report it"
    )
}

fn with_disagreement(object: Object, disagrees: Option<String>) -> Object {
    match disagrees {
        Some(disagrees) => object.text("disagreement", &disagrees),
        None => object,
    }
}

fn json_refused(
    session: &Session,
    input: &Input,
    refusal: &Refusal,
    stop: Option<&Stop>,
    disagrees: Option<String>,
) -> String {
    let object = Object::new().text("file", &input.name).plain("accepted", false);
    let object = object.plain("number", refusal.number).plain("place", refusal.place);
    let object = object.text("words", refusal.text());
    let object = match stop {
        Some(stop) => {
            let path = path(session, input, stop);
            let object = object.texts("path", path.iter().map(String::as_str));
            let object = object.plain("length", stop.field.length);
            object.text("expected", &stop.expected).text("found", &stop.found)
        }
        None => object,
    };
    with_disagreement(object, disagrees).end()
}

fn text_refused(
    session: &Session,
    input: &Input,
    refusal: &Refusal,
    stop: Option<&Stop>,
    disagrees: Option<String>,
) -> String {
    let mut lines = vec![format!("{}: {}", input.name, sentence(refusal))];
    let length = match stop {
        Some(stop) => {
            lines.push(format!("  path      {}", path(session, input, stop).join(" > ")));
            lines.push(format!("  expected  {}", stop.expected));
            lines.push(format!("  found     {}", stop.found));
            stop.field.length
        }
        None => 1,
    };
    lines.extend(disagrees.map(|disagrees| format!("  {disagrees}")));
    lines.extend(dump(&input.bytes, refusal.place as usize, length));
    lines.join("\n")
}

/// The steps to the field in words.
fn path(session: &Session, input: &Input, stop: &Stop) -> Vec<String> {
    let texts = Texts::new(&input.bytes, session.options.encoding);
    let version = input.bytes.get(2).copied().unwrap_or_default().into();
    let step = |step: &Step| match *step {
        Step::Part(name) => name.to_string(),
        Step::Nth(name, i) => format!("{name} {i}"),
        Step::Named(name, i, value) => {
            let bytes = value.of(&input.bytes);
            format!("{name} {i} \"{}\"", texts.value_of(&ValueBytes { version, bytes }))
        }
    };
    stop.path.iter().map(step).collect()
}

#[cfg(test)]
mod tests {
    use super::*;
    use crate::arguments::Options;

    /// The library's refusal stands, and the other reader's is said, with no path.
    #[test]
    fn a_disagreement() {
        let session = Session::new(Options::default()).expect("standard output");
        let input = Input { name: "m.bin".into(), bytes: vec![1, 0, 2] };
        let refusal = Refusal { number: 4, place: 2, nodes: 0, cells: 0 };
        let walked = walk(&input.bytes).answer;
        assert!(walked.as_ref().is_err_and(|stop| !is_same(&refusal, stop)));
        let text = text_refused(&session, &input, &refusal, None, Some(disagreement(&walked)));
        let lines: Vec<&str> = text.lines().collect();
        assert!(lines[0].starts_with("m.bin: refused 4 at 2: "), "{text}");
        assert!(lines[1].starts_with("  the reader that keeps the path says refused 2 at 2: "));
        assert!(lines[2].contains("01 00[02]") && lines.len() == 3, "{text}");
    }
}
