//! Small members that each show one point of the layout, with the expected line.

mod cells;
mod dimensions;
mod front;
mod selection;
mod settings;
mod values;
mod version_1;
mod zeros;

use crate::parts::{Parts, Section};

pub struct Case {
    /// File name: number, what the case shows, extension.
    pub name: String,
    /// Whether the case belongs to the small set.
    pub small_set: bool,
    pub bytes: Vec<u8>,
    pub line: String,
}

#[derive(Default)]
pub struct Cases(Vec<Case>);

impl Cases {
    fn add(&mut self, name: &str, bytes: Vec<u8>, line: String) {
        let small_set = selection::SMALL_SET.contains(&name);
        let name = format!("v{:03}_{name}.bin", self.0.len() + 1);
        self.0.push(Case { name, small_set, bytes, line });
    }

    /// An accepted member with these numbers of dimensions, nodes and cells.
    fn accept(&mut self, name: &str, parts: &Parts, counts: [usize; 3]) {
        let [dimensions, nodes, cells] = counts;
        let line = format!("accepted {dimensions} dims {nodes} nodes {cells} cells");
        self.add(name, parts.bytes(), line);
    }

    /// Refused with `number` at `offset` from the start of a section.
    fn refuse(&mut self, name: &str, number: u32, parts: &Parts, section: Section, offset: usize) {
        let place = parts.start(section) + offset;
        self.add(name, parts.bytes(), format!("refused {number} at {place}"));
    }

    /// As `refuse`, with the member cut so that it ends `more` bytes after the refused place.
    fn refuse_cut(
        &mut self,
        name: &str,
        number: u32,
        parts: &Parts,
        (section, offset): (Section, usize),
        more: usize,
    ) {
        let place = parts.start(section) + offset;
        let mut bytes = parts.bytes();
        bytes.truncate(place + more);
        assert_eq!(bytes.len(), place + more);
        self.add(name, bytes, format!("refused {number} at {place}"));
    }

    /// Bytes that are refused before the header is complete.
    fn refuse_bytes(&mut self, name: &str, number: u32, bytes: &[u8], place: usize) {
        self.add(name, bytes.to_vec(), format!("refused {number} at {place}"));
    }
}

/// All cases, numbered in this order.
pub fn cases() -> Vec<Case> {
    let mut cases = Cases::default();
    front::add(&mut cases);
    values::add(&mut cases);
    settings::add(&mut cases);
    dimensions::add(&mut cases);
    cells::add(&mut cases);
    zeros::add(&mut cases);
    version_1::add(&mut cases);
    cases.0
}

#[cfg(test)]
mod tests {
    use super::*;
    use crate::line::{line, read};

    #[test]
    fn each_name_of_the_small_set_is_a_case() {
        let found = cases().iter().filter(|case| case.small_set).count();
        assert_eq!(found, selection::SMALL_SET.len());
    }

    #[test]
    fn the_reader_gives_each_expected_line() {
        let mut differing = Vec::new();
        for case in cases() {
            let found = line(&read(&case.bytes).answer);
            if found != case.line {
                differing.push(format!("{}: {}, found {found}", case.name, case.line));
            }
        }
        assert_eq!(differing, Vec::<String>::new());
    }
}
