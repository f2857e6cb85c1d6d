//! A night's members, read in one call.

use crate::lent::{self, CELL_AREA, MEMBERS, MEMBER_ANSWER, NODE_AREA};
use crate::table::{part, table};
use crate::{Refusal, Table};

/// Reads members of one buffer, each given by its start and its length. The words of all of them
/// are one allocation, in which each has areas that always suffice.
///
/// A list of more than 64 members is refused as a whole, with 26; a member that is not inside the
/// buffer is refused alone, with 2 at 0.
///
/// ```
/// let buffer = std::fs::read("../../examples/spine_18.bin")?;
/// let length = buffer.len() as u32;
/// let tables = digarumbi::read_members(&buffer, &[[0, length], [1, length], [0, 1_000]])?;
/// assert_eq!(tables[0], digarumbi::read_member(&buffer));
/// assert_eq!(tables[1].as_ref().unwrap_err().to_string(), "refused 2 at 0");
/// assert_eq!(tables[2].as_ref().unwrap_err().to_string(), "refused 2 at 911");
///
/// let refusal = digarumbi::read_members(&buffer, &[[0, length]; 65]).unwrap_err();
/// assert_eq!(refusal.to_string(), "refused 26 at 0");
/// # Ok::<(), Box<dyn std::error::Error>>(())
/// ```
pub fn read_members<'a>(
    buffer: &'a [u8],
    list: &[[u32; 2]],
) -> Result<Vec<Result<Table<'a>, Refusal>>, Refusal> {
    let count = list.len();
    let mut words = vec![0; MEMBERS + count * (MEMBER_ANSWER + NODE_AREA + CELL_AREA)];
    let (answers, areas) = words.split_at_mut(MEMBERS + count * MEMBER_ANSWER);
    let (nodes, cells) = areas.split_at_mut(count * NODE_AREA);
    lent::read_members(buffer, list.as_flattened(), answers, nodes, cells);
    if answers[0] != 0 {
        return Err(Refusal::new(answers[0], answers[1]));
    }
    let answers = answers[MEMBERS..].chunks_exact(MEMBER_ANSWER);
    let answers = answers.map(|words| words.try_into().expect("as many words as an answer has"));
    let areas = nodes.chunks(NODE_AREA).zip(cells.chunks(CELL_AREA));
    let members = list.iter().map(|&[start, length]| part(buffer, start as usize, length as usize));
    let tables = members.zip(answers).zip(areas);
    Ok(tables
        .map(|((member, answer), (nodes, cells))| table(member, answer, nodes, cells))
        .collect())
}
