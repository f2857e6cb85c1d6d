//! Areas and Borders of a member, made from the looks of examples/.

use digarumbi::lent::{self, SECTIONS_ANSWER};
use digarumbi::{look_sections, read_member, Reason, Refusal, Table};

const LOOK: &[u8] = include_bytes!("../../../examples/look_02.tlo");
const OLD_LOOK: &[u8] = include_bytes!("../../../examples/look_00.tlo");
const MEMBER: &[u8] = include_bytes!("../../../examples/spine_18.bin");
/// Where Areas and Borders of that member stand.
const SECTIONS: std::ops::Range<usize> = 271..1155;
/// Bytes of eight areas whose fonts have no names, and of both sections.
const AREAS: usize = 560;
const LENGTH: usize = 804;

/// A font 12 pixels high, bold and italic, not underlined; centered, at the bottom; colors of text and
/// background; no alternate rows, no margins.
const AREA: &[u8] = b"\x31\0\0\0\0\0\0\x40\x41\x03\0\0\0\0\0\0\0\0\x03\0\0\0\
    \x07\0\0\0#332211\x07\0\0\0#030201\0\0\0\0\0\0\0\0\0\
    \0\0\0\0\0\0\0\0\0\0\0\0\0\0\0\0";

fn sections(look: &[u8]) -> Vec<u8> {
    look_sections(look).expect("sections")
}

/// The refusal of the look of version 02 with other bytes at a place.
fn refused(place: usize, bytes: &[u8]) -> Refusal {
    let mut look = LOOK.to_vec();
    look[place..place + bytes.len()].copy_from_slice(bytes);
    look_sections(&look).unwrap_err()
}

/// The stroke of each border; all are black, and in the order of their numbers.
fn strokes(sections: &[u8]) -> Vec<u8> {
    let borders = &sections[AREAS..];
    assert_eq!(borders[..12], *b"\xf0\0\0\0\0\0\0\x01\0\0\0\x13");
    assert_eq!(borders[240..], [0; 4]);
    let stroke = |(number, entry): (u8, &[u8])| {
        assert_eq!(entry, [0, 0, 0, number, 0, 0, 0, entry[7], 0xff, 0, 0, 0]);
        entry[7]
    };
    (0..).zip(borders[12..240].chunks(12)).map(stroke).collect()
}

#[test]
fn of_version_02() {
    let made = sections(LOOK);
    assert_eq!(made.len(), LENGTH);
    let areas: Vec<u8> = (1..=8).flat_map(|index| [&[index], AREA].concat()).collect();
    assert_eq!(made[..AREAS], areas);
    assert_eq!(strokes(&made), [0; 19]);
}

/// Its inner frame is solid.
#[test]
fn of_version_00() {
    let made = sections(OLD_LOOK);
    assert_eq!(made[..AREAS], sections(LOOK)[..AREAS]);
    assert_eq!(strokes(&made), [0, 0, 0, 0, 0, 1, 1, 1, 1, 0, 0, 0, 0, 0, 0, 0, 0, 0, 0]);
}

#[test]
fn in_a_member() {
    let made = sections(OLD_LOOK);
    let new = [&MEMBER[..SECTIONS.start], &made, &MEMBER[SECTIONS.end..]].concat();
    let (old, new) = (read_member(MEMBER).unwrap(), read_member(&new).unwrap());
    assert_eq!(Table { member: MEMBER, ..new }, old);
}

#[test]
fn refusals() {
    // the title's alignments stand at 124 and 126, its font's size at 142
    assert_eq!(refused(124, &[3]).to_string(), "refused 29 at 124");
    assert_eq!(refused(126, &[5]).reason(), Some(Reason::NoMeaning));
    assert_eq!(refused(142, &[0; 4]).to_string(), "refused 7 at 142");
    // the look's own
    assert_eq!(refused(104, &[11]).to_string(), "refused 7 at 104");
    assert_eq!(look_sections(&LOOK[..712]).unwrap_err().to_string(), "refused 2 at 709");
}

#[test]
fn areas_of_other_lengths() {
    let mut out = [9; LENGTH + 1];
    let mut answer = [9; SECTIONS_ANSWER + 1];
    assert_eq!(lent::look_sections(LOOK, &mut out, &mut answer[..2]), 0);
    assert_eq!(lent::look_sections(LOOK, &mut out[..LENGTH - 1], &mut answer), SECTIONS_ANSWER);
    assert_eq!(answer, [15, 0, 0, 9]);
    assert_eq!(out, [9; LENGTH + 1]);
    lent::look_sections(LOOK, &mut out, &mut answer);
    assert_eq!((answer, out[LENGTH]), ([0, 0, LENGTH as u32, 9], 9));
    assert_eq!(out[..LENGTH], sections(LOOK));
}
