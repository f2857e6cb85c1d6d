//! A look of version 02, examples/look_02.tlo.

use digarumbi::{font_height, rewrite_look, Continuation, Look, Separator};

const FILE: &[u8] = include_bytes!("../../../examples/look_02.tlo");

#[test]
fn fields() {
    let look = Look::read(FILE).expect("an accepted look");
    assert_eq!((look.version, look.flags), (2, 0x01fe));
    assert_eq!((look.nested_row_labels, look.footnote_marker_subscripts), (true, false));
    assert_eq!(look.columns.vertical_category, Separator::NotDrawn);
    assert_eq!((look.title.color10, look.title.color0), (0x0001_0203, 0x00ff_eedd));
    assert_eq!((look.caption.valign, look.caption.bottom_margin), (1, 7));
    assert_eq!((look.footer.font_size, look.footer.weight), (-12, 700));
    assert_eq!(font_height(look.footer.font_size), Ok(12));
    let widths = (look.v2.min_col_width, look.v2.max_col_width);
    assert_eq!((widths, look.v2.max_row_height), ((36, 72), 120));
    assert!(matches!(look.v2.continuation, Continuation::Stored(bytes) if bytes.is_empty()));
    assert_eq!(Look::file_version(FILE), Ok(2));
}

#[test]
fn rewritten_byte_for_byte() {
    assert_eq!(rewrite_look(FILE).as_deref(), Ok(FILE));
}

#[test]
fn refusals() {
    assert_eq!(Look::read(&FILE[..3]).unwrap_err().to_string(), "refused 2 at 3");
    assert_eq!(rewrite_look(&FILE[..712]).unwrap_err().to_string(), "refused 2 at 709");
}

#[test]
fn lengths_of_class_names() {
    for (place, length) in [(4, 11), (38, 16), (80, 11), (110, 11)] {
        assert_eq!(FILE[place..place + 2], [length, 0]);
        let mut file = FILE.to_vec();
        file[place] += 1;
        let refused = format!("refused 3 at {place}");
        assert_eq!(Look::read(&file).unwrap_err().to_string(), refused);
        assert_eq!(rewrite_look(&file[..place + 2]).unwrap_err().to_string(), refused);
    }
}
