//! Areas and Borders made from a look by both writers, with lent areas of several lengths, and put
//! into real members.

use std::collections::BTreeSet;

use digarumbi::lent::{
    self, CELL_AREA, CELL_RECORD, LONGEST_SECTIONS, LOOK_VERSION_PLACE, MEMBER_ANSWER, NODE_AREA,
    NODE_RECORD, SECTIONS_ANSWER,
};
use digarumbi_bench::generate::{look_bytes, styled_look_bytes};
use digarumbi_bench::look::{look_sections, read_with_places, Places, StylePlaces};
use digarumbi_bench::member::section_ends;
use digarumbi_bench::random::Random;
use digarumbi_bench::refusal::{Refusal, LIMIT, NO_MEANING, ZERO_BYTE};

use crate::area::Area;
use crate::difference::Difference;
use crate::inputs::{Check, Inputs};
use crate::stored;
use crate::tally::Tally;
use crate::words;

/// Looks of any numbers, and looks whose numbers mostly have a meaning.
const ANY_LOOKS: u64 = 5_000;
const STYLED_LOOKS: u64 = 20_000;
/// Looks of each version in which faults are put at every place, and at every two.
const LOOKS_WITH_FAULTS: usize = 3;
/// Every so many sections are put into all members; the others into one.
const ALL_MEMBERS_EVERY: u64 = 200;
/// Dimensions in the answer of a member, each with the place of its name in the first of four words.
const DIMENSIONS: std::ops::Range<usize> = 8..72;
const DIMENSION_RECORD: usize = 4;

/// Makes sections from many looks, with the same seed from the same ones.
pub fn check(seed: u64) -> Result<SectionsCheck, Difference> {
    let mut inputs = Inputs::new(SectionsCheck::default(), seed);
    inputs.stored(&stored::looks())?;
    inputs.generated(ANY_LOOKS, look_bytes)?;
    inputs.generated(STYLED_LOOKS, styled_look_bytes)?;
    for version in [0, 2] {
        let mut looks = looks_with_sections(seed, version).take(LOOKS_WITH_FAULTS);
        looks.try_for_each(|look| inputs.check.faults(&look))?;
    }
    Ok(inputs.check)
}

/// Generated looks from which sections can be made, of that version.
fn looks_with_sections(seed: u64, version: u8) -> impl Iterator<Item = Vec<u8>> {
    let looks = (seed..).map(|seed| styled_look_bytes(&mut Random::new(seed)));
    looks.filter(move |look| look[LOOK_VERSION_PLACE] == version && made(look).is_ok())
}

pub struct SectionsCheck {
    answer: [Area<u32>; 2],
    out: [Area<u8>; 2],
    members: Vec<Host>,
    /// What looks got with an output of the right length.
    pub looks: Tally,
    /// What they got with outputs of all lengths.
    pub calls: Tally,
    /// The refusals of accepted looks, with their places.
    pub refusals: BTreeSet<(u32, usize)>,
    /// Members that sections were put into.
    pub put: u64,
}

impl Default for SectionsCheck {
    fn default() -> SectionsCheck {
        SectionsCheck {
            answer: [Area::words("answer"), Area::words("answer")],
            out: [Area::bytes("out"), Area::bytes("out")],
            members: stored::real_members().iter().filter_map(|m| Host::new(&m.bytes)).collect(),
            looks: Tally::default(),
            calls: Tally::default(),
            refusals: BTreeSet::new(),
            put: 0,
        }
    }
}

impl Check for SectionsCheck {
    fn check(&mut self, look: &[u8], _original: &[u8]) -> Result<(), Difference> {
        let sections = made(look);
        self.looks.count(sections.as_ref().map_or_else(|refusal| refusal.number, |_| 0));
        if let Err(refusal) = sections {
            if read_with_places(look).is_ok() {
                self.refusals.insert((refusal.number, refusal.place));
            }
        }
        let length = sections.as_ref().map_or(LONGEST_SECTIONS, Vec::len);
        for out_length in [length, length - 1, 0, length + 9, LONGEST_SECTIONS] {
            for answer_words in 0..SECTIONS_ANSWER + 3 {
                let lengths = format_args!("{out_length} bytes, {answer_words} words");
                self.compare(look, out_length, answer_words)
                    .map_err(|difference| difference.with(lengths))?;
            }
        }
        let found = digarumbi::look_sections(look).map_err(|refusal| refusal.to_string());
        if let Ok(sections) = &found {
            self.put_into_members(sections)?;
        }
        let expected = sections.map_err(|refusal| refusal.to_string());
        Difference::compare("the bindings' sections", &expected, &found)
    }

    fn damage_starts(&self, _original: &[u8]) -> Vec<usize> {
        vec![0]
    }
}

/// The sections that the independent writer makes.
fn made(look: &[u8]) -> Result<Vec<u8>, Refusal> {
    let mut out = vec![0; LONGEST_SECTIONS];
    let length = look_sections(look, &mut out)?;
    out.truncate(length);
    Ok(out)
}

impl SectionsCheck {
    fn compare(
        &mut self,
        look: &[u8],
        out_length: usize,
        answer_words: usize,
    ) -> Result<(), Difference> {
        self.answer.iter_mut().for_each(|area| area.fill(answer_words));
        self.out.iter_mut().for_each(|area| area.fill(out_length));
        let [expected_answer, found_answer] = &mut self.answer;
        let [expected_out, found_out] = &mut self.out;
        let found = lent::look_sections(look, found_out.lent(), found_answer.lent());
        let mut expected = 0;
        if answer_words >= SECTIONS_ANSWER {
            let result = look_sections(look, expected_out.lent());
            self.calls.count(result.map_or_else(|refusal| refusal.number, |_| 0));
            let words = words::written_answer(&result);
            expected_answer.lent()[..SECTIONS_ANSWER].copy_from_slice(&words);
            expected = SECTIONS_ANSWER;
        }
        Difference::compare("making sections returned", &expected, &found)?;
        found_answer.compare(expected_answer)?;
        found_out.compare(expected_out)
    }

    /// What the library made, in the place of the two sections of real members.
    fn put_into_members(&mut self, sections: &[u8]) -> Result<(), Difference> {
        let number = self.looks.total();
        let members: &[Host] = match self.members.len() as u64 {
            0 => return Ok(()),
            _ if number % ALL_MEMBERS_EVERY == 0 => &self.members,
            members => {
                let one = (number % members) as usize;
                &self.members[one..=one]
            }
        };
        self.put += members.len() as u64;
        members.iter().try_for_each(|member| member.check(sections))
    }

    /// An accepted look with one or two faults in it, at every place where there can be one: the first
    /// is refused, with its number. One in the look itself is refused before them, wherever it stands.
    pub fn faults(&mut self, look: &[u8]) -> Result<(), Difference> {
        let (_, places) = read_with_places(look).map_err(|_| Difference::missing("a look"))?;
        Difference::compare("whether it has sections", &true, &made(look).is_ok())?;
        let faults = all_faults(look, &places);
        for (i, first) in faults.iter().enumerate() {
            for second in &faults[i..] {
                let input = second.put(&first.put(look));
                self.check_fault(&input, first)?;
            }
            let longer = [first.put(look), vec![0]].concat();
            self.check_fault(&longer, &Fault::new(11, look.len(), look.len(), &[]))?;
        }
        Ok(())
    }

    fn check_fault(&mut self, input: &[u8], fault: &Fault) -> Result<(), Difference> {
        let expected = Err(Refusal::new(fault.number, fault.place));
        Difference::compare("the refusal of a fault", &expected, &made(input))
            .and_then(|()| self.check(input, input))
            .map_err(|difference| difference.for_input("a look with faults", input))
    }

    /// Whether each of the numbers that sections alone get was seen at so many places of files.
    pub fn seen_at_places(&self, least: usize) -> Result<(), Difference> {
        for number in [NO_MEANING, LIMIT, ZERO_BYTE] {
            let places = self.refusals.iter().filter(|(seen, _)| *seen == number).count();
            Difference::compare(
                format_args!("{number} at {least} places"),
                &true,
                &(places >= least),
            )?;
        }
        Ok(())
    }
}

/// Bytes that make a look's sections refused.
struct Fault {
    /// The refusal.
    number: u32,
    place: usize,
    /// The bytes, and where they are put.
    at: usize,
    bytes: Vec<u8>,
}

impl Fault {
    fn new(number: u32, place: usize, at: usize, bytes: &[u8]) -> Fault {
        Fault { number, place, at, bytes: bytes.to_vec() }
    }

    fn put(&self, look: &[u8]) -> Vec<u8> {
        let mut look = look.to_vec();
        look[self.at..][..self.bytes.len()].copy_from_slice(&self.bytes);
        look
    }
}

/// A fault for each drawn separator, each alignment, each font's size and each name with a letter, in
/// the order of the file.
fn all_faults(look: &[u8], places: &Places) -> Vec<Fault> {
    let separators = places.separators1.iter().chain(&places.separators2);
    let mut faults: Vec<Fault> = Vec::new();
    faults.extend(separators.filter_map(|&place| separator_fault(look, place)));
    faults.extend(style_faults(look, &places.title_style));
    faults.extend(places.most_areas.iter().flat_map(|places| style_faults(look, places)));
    // a file of version 00 has none of these, and 0 for their places
    let v2_separators = places.v2_separators.iter().filter(|&&place| place > 0);
    faults.extend(v2_separators.filter_map(|&place| separator_fault(look, place)));
    faults
}

/// Style 3, behind the type, a byte and the color.
fn separator_fault(look: &[u8], place: usize) -> Option<Fault> {
    (look[place] == 1).then(|| Fault::new(NO_MEANING, place, place + 6, &[3]))
}

fn style_faults(look: &[u8], places: &StylePlaces) -> Vec<Fault> {
    let mut faults = vec![
        Fault::new(NO_MEANING, places.valign, places.valign, &[3]),
        Fault::new(NO_MEANING, places.halign, places.halign, &[5]),
        Fault::new(LIMIT, places.font_size, places.font_size, &[0; 4]),
    ];
    let length = usize::from(look[places.font_name]);
    if length > 0 {
        let last = places.font_name + length;
        faults.push(Fault::new(ZERO_BYTE, places.font_name, last, &[0]));
    }
    faults
}

/// A version 3 member whose Areas and Borders can be replaced.
struct Host {
    member: Vec<u8>,
    /// Where they begin and end.
    start: usize,
    end: usize,
    records: Records,
}

/// The answer for a member and its records.
#[derive(Clone, PartialEq, Debug)]
struct Records {
    answer: Vec<u32>,
    nodes: Vec<u32>,
    cells: Vec<u32>,
}

impl Host {
    /// None if the member isn't accepted or is of another version.
    fn new(member: &[u8]) -> Option<Host> {
        let records = Records::read(member);
        if records.answer[0] != 0 || member[2] != 3 {
            return None;
        }
        // after Header, Titles and Footnotes; after these and Areas and Borders
        let (ends, _) = section_ends(member);
        Some(Host { member: member.to_vec(), start: ends[2], end: ends[4], records })
    }

    /// The member with these sections is accepted, with the same records but for the places.
    fn check(&self, sections: &[u8]) -> Result<(), Difference> {
        let member = [&self.member[..self.start], sections, &self.member[self.end..]].concat();
        let moved = (member.len() as u32).wrapping_sub(self.member.len() as u32);
        let (expected, found) = (self.records.clone().moved(moved), Records::read(&member));
        Difference::compare("a member with these sections", &expected, &found)
    }
}

impl Records {
    /// By the library.
    fn read(member: &[u8]) -> Records {
        let (mut answer, mut nodes, mut cells) =
            (vec![0; MEMBER_ANSWER], vec![0; NODE_AREA], vec![0; CELL_AREA]);
        lent::read_member(member, &mut answer, &mut nodes, &mut cells);
        nodes.truncate(NODE_RECORD * answer[3] as usize);
        cells.truncate(CELL_RECORD * answer[4] as usize);
        Records { answer, nodes, cells }
    }

    /// With all places further behind.
    fn moved(mut self, by: u32) -> Records {
        let dimensions = DIMENSION_RECORD * self.answer[2] as usize;
        let names = self.answer[DIMENSIONS][..dimensions].iter_mut().step_by(DIMENSION_RECORD);
        let nodes = self.nodes.iter_mut().skip(3).step_by(NODE_RECORD);
        let cells = self.cells.iter_mut().skip(1).step_by(CELL_RECORD);
        names.chain(nodes).chain(cells).for_each(|place| *place = place.wrapping_add(by));
        self
    }
}
