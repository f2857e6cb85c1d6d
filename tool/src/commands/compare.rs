//! `compare`: hand counts beside the totals.

use std::collections::{HashMap, HashSet};
use std::ffi::{OsStr, OsString};
use std::path::Path;

use digarumbi::{Refusal, Total};

use super::{with_member, Member};
use crate::hand::{self, HandLine};
use crate::input;
use crate::json::Object;
use crate::session::{reason, Session, Status, Written};
use crate::typed::Places;

pub fn run(session: &mut Session, files: &[OsString]) -> Written {
    let (hand_file, files) = (&files[0], &files[1..]);
    match hand_lines(hand_file, files) {
        Ok(hand) => run_with(session, &hand, files),
        Err(why) => {
            session.say_failed(&input::shown(hand_file), &why);
            Ok(())
        }
    }
}

/// The hand counts by their files, as these are on the command line.
type ByFile = HashMap<Option<String>, Vec<HandLine>>;

fn hand_lines(hand_file: &OsStr, files: &[OsString]) -> Result<ByFile, String> {
    let bytes = input::read_whole(hand_file).map_err(|error| reason(&error))?;
    let names = FileNames::new(files);
    let mut by_file = ByFile::new();
    for line in hand::read(&bytes, files.len() == 1)? {
        let file = names.of(&line)?;
        by_file.entry(file).or_default().push(line);
    }
    Ok(by_file)
}

/// The files of the command line by what people type for them.
struct FileNames {
    first: Option<String>,
    whole: HashSet<String>,
    by_last_part: HashMap<String, Vec<String>>,
}

impl FileNames {
    fn new(files: &[OsString]) -> FileNames {
        let mut by_last_part: HashMap<String, Vec<String>> = HashMap::new();
        for file in files {
            let last = Path::new(file).file_name().map(input::shown).unwrap_or_default();
            by_last_part.entry(last).or_default().push(input::shown(file));
        }
        let whole = || files.iter().map(|file| input::shown(file));
        FileNames { first: whole().next(), whole: whole().collect(), by_last_part }
    }

    /// The file of a line: as on the command line, or by its last part; none if it is not there.
    fn of(&self, line: &HandLine) -> Result<Option<String>, String> {
        let Some(name) = &line.file else { return Ok(self.first.clone()) };
        if self.whole.contains(name) {
            return Ok(Some(name.clone()));
        }
        match self.by_last_part.get(name).map(Vec::as_slice) {
            None => Ok(None),
            Some([file]) => Ok(Some(file.clone())),
            Some(_) => Err(format!(
                "line {}: several files are named {name}; give it as on the command line",
                line.number
            )),
        }
    }
}

fn run_with(session: &mut Session, hand: &ByFile, files: &[OsString]) -> Written {
    session.header(&["file", "dimension", "leaf", "hand count", "total", "what"])?;
    let of_file = |file: Option<String>| hand.get(&file).map_or(&[][..], Vec::as_slice);
    session.each_input(files, |session, input| {
        let lines = of_file(Some(input.name.clone()));
        with_member(session, input, |session, member| compare(session, member, lines))
    })?;
    for line in of_file(None) {
        let none = Difference { hand: Some(line.count), total: None, what: NO_FILE };
        let file = line.file.as_deref().unwrap_or(".");
        report(session, file, &line.dimension, &line.leaf, none)?;
    }
    Ok(())
}

const NO_FILE: &str = "file not given";
const NOT_THERE: &str = "not in the member";
const NOT_COUNTED: &str = "not in the hand counts";
const DIFFERS: &str = "differs";

/// One difference between hand counts and totals.
struct Difference<'w> {
    hand: Option<u64>,
    total: Option<u64>,
    what: &'w str,
}

fn report(
    session: &mut Session,
    file: &str,
    dimension: &str,
    leaf: &str,
    difference: Difference,
) -> Written {
    session.set(Status::Refused);
    let Difference { hand, total, what } = difference;
    if session.options.json {
        let count = |count: Option<u64>| count.map_or("null".into(), |count| count.to_string());
        let object = Object::new().text("file", file).text("dimension", dimension);
        let object = object.text("leaf", leaf).plain("hand_count", count(hand));
        return session.line(object.plain("total", count(total)).text("what", what).end());
    }
    let count = |count: Option<u64>| count.map_or(".".into(), |count| count.to_string());
    session.fields(&[file, dimension, leaf, &count(hand), &count(total), what])
}

/// The hand counts of one member, by dimension and leaf.
type Counts<'h> = HashMap<(usize, usize), &'h HandLine>;

fn compare(session: &mut Session, member: &Member, lines: &[HandLine]) -> Written {
    if lines.is_empty() {
        let none = Difference { hand: None, total: None, what: NOT_COUNTED };
        return report(session, member.file, ".", ".", none);
    }
    let mut counts: Counts = HashMap::new();
    let mut places = Places::new(member);
    for line in lines {
        match places.of(&line.dimension, &line.leaf) {
            Ok(Some(at)) => {
                if let Some(first) = counts.insert(at, line) {
                    let (line, first) = (line.number, first.number);
                    let why =
                        format!("line {line} of the hand counts says again what line {first} says");
                    session.say_failed(member.file, &why);
                }
            }
            Ok(None) => {
                let none = Difference { hand: Some(line.count), total: None, what: NOT_THERE };
                report(session, member.file, &line.dimension, &line.leaf, none)?;
            }
            Err(why) => {
                let why = format!("line {} of the hand counts: {why}", line.number);
                session.say_failed(member.file, &why);
            }
        }
    }
    for dimension in places.dimensions() {
        compare_dimension(session, member, dimension, &counts)?;
    }
    Ok(())
}

fn compare_dimension(
    session: &mut Session,
    member: &Member,
    dimension: usize,
    counts: &Counts,
) -> Written {
    let names = &member.names[dimension];
    // the dimension is there, so nothing is refused
    for (leaf, total) in member.table.totals(dimension).unwrap_or_default().iter().enumerate() {
        let hand = counts.get(&(dimension, leaf)).map(|line| line.count);
        let refused = total.as_ref().err().map(Refusal::to_string);
        if let Some(difference) = difference(hand, total, refused.as_deref()) {
            report(session, member.file, &names.name, &names.path(leaf), difference)?;
        }
    }
    Ok(())
}

fn difference<'w>(
    hand: Option<u64>,
    total: &Result<Total, Refusal>,
    refused: Option<&'w str>,
) -> Option<Difference<'w>> {
    let found = total.as_ref().ok().map(|total| total.total);
    let what = match (hand, refused) {
        (Some(hand), None) if Some(hand) == found => return None,
        (Some(_), None) => DIFFERS,
        (Some(_), Some(refused)) => refused,
        (None, None) => NOT_COUNTED,
        // neither side has a count
        (None, Some(_)) => return None,
    };
    Some(Difference { hand, total: found, what })
}
