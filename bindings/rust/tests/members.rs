//! Several members of one buffer, read in one call.

use digarumbi::lent::{self, MEMBERS, MEMBER_ANSWER};
use digarumbi::{read_member, read_members};

const SPINE_1: &[u8] = include_bytes!("../../../examples/spine_1.bin");
const SPINE_18: &[u8] = include_bytes!("../../../examples/spine_18.bin");

/// The two members, one after the other, and the entry of each.
fn night() -> (Vec<u8>, [[u32; 2]; 2]) {
    let [first, second] = [SPINE_1.len() as u32, SPINE_18.len() as u32];
    ([SPINE_1, SPINE_18].concat(), [[0, first], [first, second]])
}

fn refusal(buffer: &[u8], entry: [u32; 2]) -> String {
    let tables = read_members(buffer, &[entry]).expect("a list that is read");
    tables[0].as_ref().expect_err("a member that is refused").to_string()
}

#[test]
fn each_member_is_read_as_if_it_were_alone() {
    let (buffer, [first, second]) = night();
    let tables = read_members(&buffer, &[second, first, second, [0, 0]]).expect("four members");
    let [spine_1, spine_18] = [SPINE_1, SPINE_18].map(read_member);
    assert_eq!(tables, [spine_18.clone(), spine_1, spine_18, read_member(b"")]);
}

#[test]
fn an_empty_list_has_no_answers() {
    assert_eq!(read_members(SPINE_18, &[]), Ok(vec![]));
    let (mut answers, mut nodes, mut cells) = ([7; 3], [7; 5], [7; 5]);
    assert_eq!(lent::read_members(SPINE_18, &[], &mut answers, &mut nodes, &mut cells), MEMBERS);
    assert_eq!((answers, nodes, cells), ([0, 0, 7], [7; 5], [7; 5]));
}

#[test]
fn a_member_that_is_not_inside_is_2_at_0() {
    let length = SPINE_18.len() as u32;
    for entry in [[length, 1], [length + 1, 0], [0, length + 1], [u32::MAX, u32::MAX]] {
        assert_eq!(refusal(SPINE_18, entry), "refused 2 at 0");
    }
    // No bytes, at the end of the buffer: the first field does not fit.
    assert_eq!(refusal(SPINE_18, [length, 0]), "refused 2 at 0");
    // The sum of start and length is more than 32 bits hold.
    assert_eq!(refusal(SPINE_18, [2, u32::MAX]), "refused 2 at 0");
}

#[test]
fn a_member_too_long_is_1_where_it_is_inside() {
    let buffer = vec![1; 1_048_577];
    assert_eq!(refusal(&buffer, [0, 1_048_577]), "refused 1 at 0");
    assert_eq!(refusal(&buffer, [1, 1_048_577]), "refused 2 at 0");
    assert_eq!(refusal(&buffer, [1, 1_048_576]), "refused 3 at 1");
}

#[test]
fn shares_and_the_remainder() {
    let (buffer, [first, second]) = night();
    let list = [second, [0, 1], first];
    let mut answers = [0; MEMBERS + 3 * MEMBER_ANSWER];
    // Shares of 63 and 30 words, as many as spine_18 has; the second member is refused, and the
    // third has more nodes. Two words are left over of each area.
    let (mut nodes, mut cells) = ([7; 3 * 63 + 2], [7; 3 * 30 + 2]);
    lent::read_members(&buffer, list.as_flattened(), &mut answers, &mut nodes, &mut cells);
    let refusals: Vec<_> = answers[MEMBERS..].chunks(MEMBER_ANSWER).map(|words| words[0]).collect();
    assert_eq!(refusals, [0, 2, 12]);
    let (mut answer, mut alone, mut cells_alone) = ([0; MEMBER_ANSWER], [0; 63], [0; 30]);
    lent::read_member(SPINE_18, &mut answer, &mut alone, &mut cells_alone);
    assert_eq!((&nodes[..63], &cells[..30]), (&alone[..], &cells_alone[..]));
    assert_eq!((&nodes[63..], &cells[30..]), (&[7; 2 * 63 + 2][..], &[7; 2 * 30 + 2][..]));
}

#[test]
fn an_odd_list_and_one_of_65_members_are_26() {
    let (mut answers, mut nodes, mut cells) = ([7; 3], [7; 63], [7; 30]);
    for list in [&[0][..], &[0, 2_456, 0], &[0; 129], &[0; 130]] {
        let words = lent::read_members(SPINE_18, list, &mut answers, &mut nodes, &mut cells);
        assert_eq!((words, answers), (MEMBERS, [26, 0, 7]));
        assert_eq!((nodes, cells), ([7; 63], [7; 30]));
    }
}

#[test]
fn without_room_for_the_answers_nothing_is_read() {
    let (buffer, list) = night();
    let mut answers = [7; MEMBERS + 2 * MEMBER_ANSWER - 1];
    let (mut nodes, mut cells) = ([7; 500], [7; 500]);
    let list = list.as_flattened();
    assert_eq!(lent::read_members(&buffer, list, &mut answers, &mut nodes, &mut cells), 0);
    assert!(answers.iter().chain(&nodes).chain(&cells).all(|&word| word == 7));
    assert_eq!(lent::read_members(&buffer, &[0], &mut answers[..1], &mut nodes, &mut cells), 0);
    assert_eq!(answers[0], 7);
}
