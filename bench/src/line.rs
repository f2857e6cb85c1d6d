//! The printed forms of an answer.

use crate::limits::{CELLS, LINE_BYTES, LOOK_BYTES, NODES};
use crate::look::{file_version, read_look, write_look};
use crate::member::{read_member, section_ends, Answer, CELL_WORDS, NODE_WORDS};
use crate::refusal::{Refusal, TOO_LONG};

/// An answer with the areas that were lent for it.
pub struct Reading {
    pub answer: Answer,
    pub nodes: Vec<u32>,
    pub cells: Vec<u32>,
}

/// Reads a member as the test program does, with areas for every accepted member.
pub fn read(member: &[u8]) -> Reading {
    let mut nodes = vec![0; NODE_WORDS * NODES];
    let mut cells = vec![0; CELL_WORDS * CELLS as usize];
    let answer = if member.len() > LINE_BYTES {
        Answer { refusal: TOO_LONG, ..Answer::default() }
    } else {
        read_member(member, &mut nodes, &mut cells)
    };
    Reading { answer, nodes, cells }
}

/// The line that the test program prints, without its newline.
pub fn line(answer: &Answer) -> String {
    if answer.refusal != 0 {
        return Refusal::new(answer.refusal, answer.place as usize).to_string();
    }
    format!(
        "accepted {} dims {} nodes {} cells",
        answer.dimension_count, answer.node_count, answer.cell_count
    )
}

/// The records of an accepted member, one to a line; none for a refused one.
pub fn record_lines(reading: &Reading) -> Vec<String> {
    let answer = &reading.answer;
    if answer.refusal != 0 {
        return Vec::new();
    }
    let dimension_count = answer.dimension_count as usize;
    let mut lines = Vec::new();
    for dimension in &answer.dimensions[..dimension_count] {
        let words =
            [dimension.name_place, dimension.name_length, dimension.leaves, dimension.first_node];
        lines.push(words_line("dimension", &words));
    }
    lines.push(words_line("axes", &answer.axis_counts));
    lines.push(words_line("order", &answer.axis_order[..dimension_count]));
    lines.extend(area_lines("node", &reading.nodes, NODE_WORDS, answer.node_count));
    lines.extend(area_lines("cell", &reading.cells, CELL_WORDS, answer.cell_count));
    lines
}

/// A line for each node of an accepted member: its number, the node after it and all that is below
/// it, the length of its name and the name's bytes; none for a refused one.
pub fn name_lines(member: &[u8], reading: &Reading) -> Vec<String> {
    if reading.answer.refusal != 0 {
        return Vec::new();
    }
    let records = reading.nodes.chunks(NODE_WORDS).take(reading.answer.node_count as usize);
    records.enumerate().map(|(i, record)| name_line(member, i, record)).collect()
}

fn name_line(member: &[u8], i: usize, record: &[u32]) -> String {
    let [.., place, length, _, size] = record else { unreachable!("a record of a node") };
    let name = &member[*place as usize..][..*length as usize];
    let mut line = format!("name {i} {} {length}", i + *size as usize);
    for byte in name {
        line.push_str(&format!(" {byte:02x}"));
    }
    line
}

fn area_lines(name: &str, area: &[u32], words: usize, count: u32) -> Vec<String> {
    area.chunks(words).take(count as usize).map(|record| words_line(name, record)).collect()
}

fn words_line(name: &str, words: &[u32]) -> String {
    let mut line = name.to_string();
    for word in words {
        line.push_str(&format!(" {word}"));
    }
    line
}

/// The place after each section before Dimensions, or the refusal of the first refused one.
pub fn section_line(member: &[u8]) -> String {
    let (ends, refusal) = section_ends(member);
    let mut fields: Vec<String> = ends.iter().map(|end| end.to_string()).collect();
    fields.extend(refusal.map(|refusal| refusal.to_string()));
    fields.join(" ")
}

/// The version of a look's file, or its refusal.
pub fn look_line(file: &[u8]) -> String {
    match read_look(file).and_then(|_| file_version(file)) {
        Ok(version) => format!("accepted version {version:02}"),
        Err(refusal) => refusal.to_string(),
    }
}

/// The file that a look is rewritten as, or the line of its refusal.
pub fn rewritten_look(file: &[u8]) -> Vec<u8> {
    let mut out = vec![0; LOOK_BYTES];
    match read_look(file).and_then(|look| write_look(&look, file, &mut out)) {
        Ok(length) => out[..length].to_vec(),
        Err(refusal) => format!("{refusal}\n").into_bytes(),
    }
}
