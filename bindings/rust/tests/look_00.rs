//! A look of version 00, examples/look_00.tlo, which comes back as a version 02 look with 002's defaults.

use digarumbi::{lent, rewrite_look, Continuation, Frame, Look, Separator};

const FILE: &[u8] = include_bytes!("../../../examples/look_00.tlo");
/// The same but for its V2Styles, in which nothing is drawn and the continuation is empty.
const OTHER: &[u8] = include_bytes!("../../../examples/look_02.tlo");

/// What a version 02 file has more: 11 separators, 4 of them drawn, the continuation and its length,
/// and four numbers.
const V2_BYTES: usize = 7 * 2 + 4 * 10 + 8 + 16;

fn look(file: &[u8]) -> Look {
    Look::read(file).expect("an accepted look")
}

#[test]
fn versions() {
    assert_eq!(FILE[lent::LOOK_VERSION_PLACE], 0);
    assert_eq!((Look::file_version(FILE), look(FILE).version), (Ok(0), 2));
    assert_eq!(Look::file_version(&FILE[..20]).unwrap_err().to_string(), "refused 2 at 20");
}

#[test]
fn defaults() {
    let v2 = look(FILE).v2;
    let solid = Separator::Drawn { color: 0, style: 0, width: 1 };
    let frame = |side: Separator| Frame { left: side, right: side, top: side, bottom: side };
    assert_eq!((v2.inner_frame, v2.outer_frame), (frame(solid), frame(Separator::NotDrawn)));
    assert_eq!([v2.title, v2.data_left, v2.data_top], [Separator::NotDrawn; 3]);
    assert!(matches!(v2.continuation, Continuation::Default));
    assert_eq!(v2.continuation.bytes(), b"(Cont.)");
    assert_eq!((v2.min_col_width, v2.max_col_width), (36, 72));
    assert_eq!((v2.min_row_height, v2.max_row_height), (36, 120));
}

/// What stands before V2Styles is as in the version 02 file.
#[test]
fn other_fields() {
    assert_eq!(Look { v2: look(FILE).v2, ..look(OTHER) }, look(FILE));
}

#[test]
fn rewritten_as_version_02() {
    let new = rewrite_look(FILE).expect("a look that is written");
    assert_eq!((new.len(), Look::file_version(&new)), (FILE.len() + V2_BYTES, Ok(2)));
    assert_eq!((&new[..17], &new[18..FILE.len()]), (&FILE[..17], &FILE[18..]));
    assert_eq!(new[FILE.len() + 54..][..8], *b"\x07(Cont.)");
    // the stored letters are the default's
    assert!(matches!(look(&new).v2.continuation, Continuation::Stored(_)));
    assert_eq!(look(&new), look(FILE));
    assert_eq!(rewrite_look(&new), Ok(new));
}

#[test]
fn too_short_an_output() {
    let mut out = [9; 674 + V2_BYTES - 1];
    let mut answer = [9; lent::REWRITE_ANSWER];
    assert_eq!(lent::rewrite_look(FILE, &mut out, &mut answer), lent::REWRITE_ANSWER);
    assert_eq!(answer, [15, 0, 0]);
    assert!(out.iter().all(|&byte| byte == 9));
}

#[test]
fn bytes_behind_it() {
    let longer = [FILE, &[0]].concat();
    assert_eq!(Look::read(&longer).unwrap_err().to_string(), "refused 11 at 674");
    assert_eq!(rewrite_look(&longer).unwrap_err().to_string(), "refused 11 at 674");
}
