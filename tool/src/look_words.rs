//! A look in words: each field by its name, under the meanings that 002 gives.

use digarumbi::{font_height, Area, Continuation, Frame, Look, Separator, Separators};

use crate::encoding::Encoding;

/// A name and what it is, both in words; the name of a part has its field after a full stop.
pub type Field = (String, String);

/// The version of a look's file, and the fields of the look, in file order. What a file of version 00
/// doesn't have is there with its defaults.
pub fn fields(file_version: u8, look: &Look, encoding: Encoding) -> Vec<Field> {
    let mut words = Words { fields: Vec::new(), encoding };
    words.add("file version", format!("{file_version:02}"));
    words.add("version", format!("{:02}", look.version));
    words.flags(look.flags);
    words.yes_no("nested row labels", look.nested_row_labels);
    words.yes_no("footnote marker subscripts", look.footnote_marker_subscripts);
    words.separators("rows", &look.rows);
    words.separators("columns", &look.columns);
    let areas = [
        ("title", &look.title),
        ("layers", &look.layers),
        ("corner", &look.corner),
        ("row labels", &look.row_labels),
        ("column labels", &look.column_labels),
        ("data", &look.data),
        ("caption", &look.caption),
        ("footer", &look.footer),
    ];
    for (name, area) in areas {
        words.area(name, area);
    }
    words.v2_styles(look);
    words.fields
}

struct Words {
    fields: Vec<Field>,
    encoding: Encoding,
}

impl Words {
    fn add(&mut self, name: &str, value: impl ToString) {
        self.fields.push((name.into(), value.to_string()));
    }

    fn yes_no(&mut self, name: &str, value: bool) {
        self.add(name, if value { "yes" } else { "no" });
    }

    fn flags(&mut self, flags: u16) {
        const FLAGS: [(u16, &str); 8] = [
            (0x2, "hide empty rows and columns"),
            (0x4, "numeric footnote markers"),
            (0x8, "print all layers"),
            (0x10, "scale to page width"),
            (0x20, "scale to page length"),
            (0x40, "each layer on a page"),
            (0x80, "continuation at the top"),
            (0x100, "continuation at the bottom"),
        ];
        self.add("flags", format!("{flags:#06x}"));
        for (bit, name) in FLAGS {
            self.yes_no(name, flags & bit != 0);
        }
    }

    fn separators(&mut self, part: &str, separators: &Separators) {
        let all = [
            ("horizontal dimension", separators.horizontal_dimension),
            ("vertical dimension", separators.vertical_dimension),
            ("horizontal category", separators.horizontal_category),
            ("vertical category", separators.vertical_category),
        ];
        for (name, separator) in all {
            self.add(&format!("{part}.{name}"), separator_words(separator));
        }
    }

    fn frame(&mut self, part: &str, frame: &Frame) {
        let all = [
            ("left", frame.left),
            ("right", frame.right),
            ("top", frame.top),
            ("bottom", frame.bottom),
        ];
        for (name, separator) in all {
            self.add(&format!("{part}.{name}"), separator_words(separator));
        }
    }

    fn area(&mut self, part: &str, area: &Area) {
        let mut add = |name: &str, value: String| self.add(&format!("{part}.{name}"), value);
        add("color10", color(area.color10));
        add("color0", color(area.color0));
        add("shading", format!("{} of 10", area.shading));
        add("vertical alignment", one_of(area.valign, &["top", "bottom", "center"]));
        let halign = ["left", "right", "center", "mixed", "decimal"];
        add("horizontal alignment", one_of(area.halign, &halign));
        let twentieths = [
            ("decimal offset", area.decimal_offset),
            ("left margin", area.left_margin),
            ("right margin", area.right_margin),
            ("top margin", area.top_margin),
            ("bottom margin", area.bottom_margin),
        ];
        for (name, twentieth) in twentieths {
            add(name, format!("{} pt", f64::from(twentieth) / 20.0));
        }
        add("font size", font_words(area.font_size));
        add("stretch", area.stretch.to_string());
        add("rotation angle", area.rotation_angle.to_string());
        add("weight", weight(area.weight));
        let yes_no = |value: bool| if value { "yes" } else { "no" }.to_string();
        add("italic", yes_no(area.italic));
        add("underline", yes_no(area.underline));
        add("strikethrough", yes_no(area.strikethrough));
        add("rtf charset number", area.rtf_charset_number.to_string());
        add("x", area.x.to_string());
        let font_name = self.encoding.show(&area.font_name);
        self.add(&format!("{part}.font name"), font_name);
        self.add(&format!("{part}.text color"), color(area.text_color));
    }

    fn v2_styles(&mut self, look: &Look) {
        let v2 = &look.v2;
        self.add("title separator", separator_words(v2.title));
        self.frame("inner frame", &v2.inner_frame);
        self.frame("outer frame", &v2.outer_frame);
        self.add("data.left separator", separator_words(v2.data_left));
        self.add("data.top separator", separator_words(v2.data_top));
        let continuation = self.encoding.show(v2.continuation.bytes());
        self.add("continuation", continuation);
        let is_default = matches!(v2.continuation, Continuation::Default);
        self.yes_no("default continuation", is_default);
        let points = [
            ("min column width", v2.min_col_width),
            ("max column width", v2.max_col_width),
            ("min row height", v2.min_row_height),
            ("max row height", v2.max_row_height),
        ];
        for (name, number) in points {
            self.add(name, format!("{number} pt"));
        }
    }
}

/// The lowest 8 bits of a color are red, the next green, the next blue.
fn color(color: u32) -> String {
    let [red, green, blue, _] = color.to_le_bytes();
    format!("#{red:02x}{green:02x}{blue:02x}")
}

/// A number by its meaning, where 002 gives one.
fn one_of(number: u16, meanings: &[&str]) -> String {
    match meanings.get(usize::from(number)) {
        Some(meaning) => meaning.to_string(),
        None => format!("{number} (no meaning given)"),
    }
}

fn separator_words(separator: Separator) -> String {
    let Separator::Drawn { color: number, style, width } = separator else {
        return "not drawn".into();
    };
    let line = match (style, width) {
        (0, 0) => "thin line",
        (0, 1) => "solid line",
        (0, 2 | 3) => "thick line",
        (1, 0 | 1) => "double line",
        (2, _) => "dashed line",
        _ => "line (no meaning given)",
    };
    format!("{line}, style {style}, width {width}, {}", color(number))
}

fn font_words(size: i32) -> String {
    match font_height(size) {
        Ok(height) => format!("{size} ({height} px)"),
        Err(_) => format!("{size} (no height)"),
    }
}

fn weight(weight: u16) -> String {
    match weight {
        400 => "400 (normal)".into(),
        700 => "700 (bold)".into(),
        _ => weight.to_string(),
    }
}
