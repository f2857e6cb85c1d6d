//! A night's members in one call (document 02, T-09): a list of members in one buffer, each read
//! with its share of the two record areas.

use crate::member::{read_member, Answer, Refused};
use crate::refusal::*;

/// Most members of a list.
pub const MEMBERS: usize = 64;

/// The answers of all members, or why the list is refused.
pub fn read_members(
    buffer: &[u8],
    list: &[u32],
    nodes: &mut [u32],
    cells: &mut [u32],
) -> Result<Vec<Answer>, Refusal> {
    let entries = list.chunks_exact(2);
    let odd = !entries.remainder().is_empty();
    let count = entries.len();
    refuse_if(odd || count > MEMBERS, MEMBER_LIST, 0)?;
    if count == 0 {
        return Ok(Vec::new());
    }
    let (node_share, cell_share) = (nodes.len() / count, cells.len() / count);
    let answer = |(i, entry): (usize, &[u32])| {
        let nodes = &mut nodes[node_share * i..][..node_share];
        let cells = &mut cells[cell_share * i..][..cell_share];
        match member(buffer, entry[0], entry[1]) {
            Some(member) => read_member(member, nodes, cells),
            None => Refused::from(Refusal::new(DOES_NOT_FIT, 0)).into(),
        }
    };
    Ok(entries.enumerate().map(answer).collect())
}

/// The bytes of a member, if it is inside the buffer.
fn member(buffer: &[u8], start: u32, length: u32) -> Option<&[u8]> {
    let end = u64::from(start) + u64::from(length);
    (end <= buffer.len() as u64).then(|| &buffer[start as usize..end as usize])
}

#[cfg(test)]
mod tests {
    use super::*;
    use crate::limits::MEMBER_BYTES;
    use crate::member::{CELL_WORDS, NODE_WORDS};

    const SPINE_18: &[u8] = include_bytes!("../../examples/spine_18.bin");
    /// Nodes and cells of that member.
    const NODES: usize = 9;
    const CELLS: usize = 10;

    fn refusals(buffer: &[u8], list: &[u32]) -> Result<Vec<(u32, u32)>, Refusal> {
        let (mut nodes, mut cells) = (vec![0; 4_096], vec![0; 4_096]);
        let answers = read_members(buffer, list, &mut nodes, &mut cells)?;
        Ok(answers.iter().map(|answer| (answer.refusal, answer.place)).collect())
    }

    #[test]
    fn odd_and_long_lists_are_26() {
        for words in [1, 3, 127, 129, 130, 131] {
            assert_eq!(refusals(&[], &vec![0; words]), Err(Refusal::new(26, 0)), "{words}");
        }
        assert_eq!(refusals(&[], &[0; 128]), Ok(vec![(2, 0); 64]));
        assert_eq!(refusals(&[], &[]), Ok(vec![]));
    }

    #[test]
    fn outside_the_buffer_is_2_before_1() {
        let buffer = vec![1; MEMBER_BYTES + 1];
        let long = buffer.len() as u32;
        let list = [0, long, 1, long, 1, long - 1, long, 0, long + 1, 0, u32::MAX, u32::MAX];
        let expected = vec![(1, 0), (2, 0), (3, 1), (2, 0), (2, 0), (2, 0)];
        assert_eq!(refusals(&buffer, &list), Ok(expected));
    }

    #[test]
    fn shares_are_cut_by_whole_division() {
        let length = SPINE_18.len() as u32;
        // The second member is refused; one word is left over of each area.
        let mut nodes = vec![7; 3 * NODE_WORDS * NODES + 1];
        let mut cells = vec![7; 3 * CELL_WORDS * CELLS + 1];
        let list = [0, length, 1, length - 1, 0, length];
        let answers = read_members(SPINE_18, &list, &mut nodes, &mut cells).unwrap();
        let (mut node_words, mut cell_words) = ([0; NODE_WORDS * NODES], [0; CELL_WORDS * CELLS]);
        let answer = read_member(SPINE_18, &mut node_words, &mut cell_words);
        assert_eq!((answers[0], answers[1].refusal, answers[2]), (answer, 3, answer));
        let untouched = [7; NODE_WORDS * NODES];
        assert_eq!(nodes, [&node_words[..], &untouched, &node_words, &[7]].concat());
        let untouched = [7; CELL_WORDS * CELLS];
        assert_eq!(cells, [&cell_words[..], &untouched, &cell_words, &[7]].concat());
    }

    #[test]
    fn a_share_one_word_short_is_12_or_13() {
        let list = [0, SPINE_18.len() as u32].repeat(2);
        for (nodes, cells, number) in [(125, 60, 12), (126, 59, 13), (126, 60, 0)] {
            let (mut nodes, mut cells) = (vec![0; nodes], vec![0; cells]);
            let answers = read_members(SPINE_18, &list, &mut nodes, &mut cells).unwrap();
            assert!(answers.iter().all(|answer| answer.refusal == number));
        }
    }
}
