//! The words of an accepted look's answer, taken one after the other.

use super::{Area, Continuation, Frame, Look, Separator, Separators, V2Styles};
use crate::lent::LOOK_DEFAULT_CONTINUATION;
use crate::part;

pub struct Words<'a> {
    words: std::slice::Iter<'a, u32>,
    /// The look's file, which holds its names.
    file: &'a [u8],
}

/// A field is no wider in the file than the type asked for, so no bits are lost.
macro_rules! narrow {
    ($name:ident, $type:ty) => {
        fn $name(&mut self) -> $type {
            self.word() as $type
        }
    };
}

impl<'a> Words<'a> {
    pub fn new(words: &'a [u32], file: &'a [u8]) -> Words<'a> {
        Words { words: words.iter(), file }
    }

    /// The answer has a word for each field.
    fn word(&mut self) -> u32 {
        *self.words.next().expect("a word for each field")
    }

    narrow!(byte, u8);
    narrow!(int16, u16);
    narrow!(signed, i32);

    fn bool(&mut self) -> bool {
        self.word() == 1
    }

    /// The bytes at a place of the file.
    fn bytes(&self, place: u32, length: u32) -> Vec<u8> {
        part(self.file, place as usize, length as usize).to_vec()
    }

    fn name(&mut self) -> Vec<u8> {
        let (place, length) = (self.word(), self.word());
        self.bytes(place, length)
    }

    /// A name, or the default, which has no place.
    fn continuation(&mut self) -> Continuation {
        let (place, length) = (self.word(), self.word());
        match place {
            LOOK_DEFAULT_CONTINUATION => Continuation::Default,
            _ => Continuation::Stored(self.bytes(place, length)),
        }
    }

    fn separator(&mut self) -> Separator {
        let drawn = self.bool();
        let (color, style, width) = (self.word(), self.int16(), self.int16());
        if drawn {
            Separator::Drawn { color, style, width }
        } else {
            Separator::NotDrawn
        }
    }

    fn separators(&mut self) -> Separators {
        Separators {
            horizontal_dimension: self.separator(),
            vertical_dimension: self.separator(),
            horizontal_category: self.separator(),
            vertical_category: self.separator(),
        }
    }

    fn frame(&mut self) -> Frame {
        Frame {
            left: self.separator(),
            right: self.separator(),
            top: self.separator(),
            bottom: self.separator(),
        }
    }

    fn area(&mut self) -> Area {
        Area {
            color10: self.word(),
            color0: self.word(),
            shading: self.byte(),
            valign: self.int16(),
            halign: self.int16(),
            decimal_offset: self.int16(),
            left_margin: self.int16(),
            right_margin: self.int16(),
            top_margin: self.int16(),
            bottom_margin: self.int16(),
            font_size: self.signed(),
            stretch: self.int16(),
            rotation_angle: self.word(),
            weight: self.int16(),
            italic: self.bool(),
            underline: self.bool(),
            strikethrough: self.bool(),
            rtf_charset_number: self.word(),
            x: self.byte(),
            font_name: self.name(),
            text_color: self.word(),
        }
    }

    fn v2_styles(&mut self) -> V2Styles {
        V2Styles {
            title: self.separator(),
            inner_frame: self.frame(),
            outer_frame: self.frame(),
            data_left: self.separator(),
            data_top: self.separator(),
            continuation: self.continuation(),
            min_col_width: self.word(),
            max_col_width: self.word(),
            min_row_height: self.word(),
            max_row_height: self.word(),
        }
    }

    /// The whole look.
    pub fn look(mut self) -> Look {
        Look {
            version: self.byte(),
            flags: self.int16(),
            nested_row_labels: self.bool(),
            footnote_marker_subscripts: self.bool(),
            rows: self.separators(),
            columns: self.separators(),
            title: self.area(),
            layers: self.area(),
            corner: self.area(),
            row_labels: self.area(),
            column_labels: self.area(),
            data: self.area(),
            caption: self.area(),
            footer: self.area(),
            v2: self.v2_styles(),
        }
    }
}

#[cfg(test)]
mod tests {
    use super::*;

    /// The words of a look, each its own number, but those that are 0 or 1 are 1.
    fn numbered_words() -> Vec<u32> {
        let mut words: Vec<u32> = (0..262).collect();
        let separators = (4..36).chain(212..256).step_by(4);
        let bools = (36..212).step_by(22).flat_map(|area| area + 14..area + 17);
        for word in separators.chain(bools).chain([2, 3]) {
            words[word] = 1;
        }
        words
    }

    fn numbered_look() -> Look {
        look(&numbered_words())
    }

    fn look(words: &[u32]) -> Look {
        Words::new(words, &[b'f'; 512]).look()
    }

    /// The separator whose first word is `word`.
    fn drawn(word: u16) -> Separator {
        Separator::Drawn { color: u32::from(word) + 1, style: word + 2, width: word + 3 }
    }

    #[test]
    fn separators() {
        let Look { rows, columns, v2, .. } = numbered_look();
        assert_eq!((rows.horizontal_dimension, rows.vertical_category), (drawn(4), drawn(16)));
        assert_eq!(
            (columns.vertical_dimension, columns.horizontal_category),
            (drawn(24), drawn(28))
        );
        assert_eq!((v2.title, v2.inner_frame.left), (drawn(212), drawn(216)));
        assert_eq!((v2.outer_frame.left, v2.outer_frame.bottom), (drawn(232), drawn(244)));
        assert_eq!((v2.data_left, v2.data_top), (drawn(248), drawn(252)));
    }

    #[test]
    fn areas() {
        let look = numbered_look();
        let areas = [
            look.title,
            look.layers,
            look.corner,
            look.row_labels,
            look.column_labels,
            look.data,
            look.caption,
            look.footer,
        ];
        for (area, first) in areas.iter().zip((36..).step_by(22)) {
            let word = |offset: u16| first + offset;
            assert_eq!((area.color10, area.shading), (word(0).into(), word(2) as u8));
            assert_eq!((area.valign, area.bottom_margin), (word(3), word(9)));
            assert_eq!((area.font_size, area.weight), (word(10).into(), word(13)));
            assert_eq!((area.rtf_charset_number, area.x), (word(17).into(), word(18) as u8));
            assert_eq!(area.font_name.len(), word(20).into());
            assert_eq!(area.text_color, word(21).into());
            assert!(area.italic && area.underline && area.strikethrough);
        }
    }

    #[test]
    fn other_fields() {
        let look = numbered_look();
        assert_eq!((look.version, look.flags), (0, 1));
        assert!(look.nested_row_labels && look.footnote_marker_subscripts);
        assert_eq!((look.v2.min_col_width, look.v2.max_row_height), (258, 261));
    }

    /// What the continuation is for these two words.
    fn continuation(place: u32, length: u32) -> Continuation {
        let mut words = numbered_words();
        words[256..258].copy_from_slice(&[place, length]);
        look(&words).v2.continuation
    }

    #[test]
    fn continuations() {
        let stored = |letters: &[u8], found| match found {
            Continuation::Stored(found) => found == letters,
            Continuation::Default => false,
        };
        assert!(stored(b"fff", continuation(9, 3)));
        assert!(stored(b"", continuation(9, 0)));
        // it would not lie inside the file
        assert!(stored(b"", continuation(256, 257)));
        let default = continuation(u32::MAX, 7);
        assert!(matches!(default, Continuation::Default));
        assert_eq!(default.bytes().len(), 7);
    }
}
