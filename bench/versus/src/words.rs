//! The answers of the independent readers, as the words that include/digarumbi.h describes.

use digarumbi_bench::contents::{ArgumentContents, Contents, Form, Number, Text};
use digarumbi_bench::cursor::Span;
use digarumbi_bench::look::{AreaColor, AreaStyle, Continuation, Look, Name, Separator};
use digarumbi_bench::member::{Answer, Refused};
use digarumbi_bench::refusal::{Refusal, OUTPUT_TOO_SHORT};
use digarumbi_bench::totals::{Found, LeafTotal, Total};

/// The words of a member's answer.
pub fn member_answer(answer: &Answer) -> Vec<u32> {
    let counts = [answer.dimension_count, answer.node_count, answer.cell_count];
    let dimensions = answer.dimensions.iter().flat_map(|dimension| {
        [dimension.name_place, dimension.name_length, dimension.leaves, dimension.first_node]
    });
    let mut words = vec![answer.refusal, answer.place];
    words.extend(counts);
    words.extend(answer.axis_counts);
    words.extend(dimensions);
    words.extend(answer.axis_order);
    words
}

/// The words of a look's answer; those of the look are 0 after a refusal.
pub fn look_answer(result: &Result<Look, Refusal>) -> Vec<u32> {
    match result {
        Ok(look) => [vec![0, 0], look_words(look)].concat(),
        Err(refusal) => {
            let mut words = refusal_words(refusal);
            words.resize(digarumbi::lent::LOOK_ANSWER, 0);
            words
        }
    }
}

/// The words of what was written from a look: refusal, place, length.
pub fn written_answer(result: &Result<usize, Refusal>) -> Vec<u32> {
    match result {
        Ok(length) => vec![0, 0, *length as u32],
        Err(refusal) => [refusal_words(refusal), vec![0]].concat(),
    }
}

/// The words of a Value's answer; those of its contents are 0 after a refusal.
pub fn value_answer(result: &Result<Contents, Refusal>) -> [u32; 22] {
    let mut words = [0; 22];
    let contents = match result {
        Ok(contents) => contents,
        Err(refusal) => {
            words[..2].copy_from_slice(&refusal_words(refusal));
            return words;
        }
    };
    words[2] = contents.length as u32;
    words[3] = contents.zeros as u32;
    let (form, fields) = value_fields(&contents.form);
    words[4] = form;
    for (first, field) in fields {
        words[first..][..2].copy_from_slice(&field);
    }
    match contents.form {
        Form::Number(number) | Form::LabelledNumber { number, .. } => words[5] = number.format,
        Form::String { format, .. } => words[5] = format,
        _ => {}
    }
    match contents.form {
        Form::LabelledNumber { show, .. }
        | Form::String { show, .. }
        | Form::Variable { show, .. } => words[8] = show.into(),
        Form::Text { fixed, .. } => words[9] = fixed.into(),
        _ => {}
    }
    words
}

/// The number of a form, and its fields of two words with the number of the first.
fn value_fields(form: &Form) -> (u32, Vec<(usize, [u32; 2])>) {
    let bits = |number: Number| (6, [number.bits as u32, (number.bits >> 32) as u32]);
    let text = |text: Text| vec![(10, span(text.local)), (16, span(text.id)), (18, span(text.c))];
    match *form {
        Form::Number(number) => (1, vec![bits(number)]),
        Form::LabelledNumber { number, var_name, value_label, .. } => {
            (2, vec![bits(number), (12, span(var_name)), (14, span(value_label))])
        }
        Form::Text { text: strings, .. } => (3, text(strings)),
        Form::String { s, var_name, value_label, .. } => {
            (4, vec![(10, span(s)), (12, span(var_name)), (14, span(value_label))])
        }
        Form::Variable { var_name, var_label, .. } => {
            (5, vec![(12, span(var_name)), (14, span(var_label))])
        }
        Form::FixedText(strings) => (6, text(strings)),
        Form::Template { template, arguments, first } => {
            (7, vec![(10, span(template)), (20, [arguments, first as u32])])
        }
    }
}

fn span(span: Span) -> [u32; 2] {
    [span.place as u32, span.length as u32]
}

/// The words of an argument's answer; all but the refusal are 0 after one.
pub fn argument_answer(result: &Result<ArgumentContents, Refusal>) -> [u32; 5] {
    match result {
        Ok(argument) => [0, 0, argument.length as u32, argument.values, argument.first as u32],
        Err(refusal) => [refusal.number, refusal.place as u32, 0, 0, 0],
    }
}

/// The words of the answer for one leaf.
pub fn total_answer(result: &Result<Found<Total>, Refused>) -> [u32; 13] {
    let mut words = [0; 13];
    words[..4].copy_from_slice(&call_words(result));
    if let Ok(found) = result {
        words[4..].copy_from_slice(&total_words(&found.found));
    }
    words
}

/// The words of the answer for all leaves of a dimension that has `n`.
pub fn totals_answer(result: &Result<Found<Vec<LeafTotal>>, Refused>, n: u32) -> [u32; 5] {
    let counted = match result {
        Ok(_) => true,
        Err(refused) => refused.refusal.number == OUTPUT_TOO_SHORT,
    };
    let [refusal, place, nodes, cells] = call_words(result);
    [refusal, place, nodes, cells, if counted { n } else { 0 }]
}

/// A total record.
pub fn total_record(leaf: &LeafTotal) -> [u32; 11] {
    let mut words = [0; 11];
    match leaf {
        Ok(total) => words[2..].copy_from_slice(&total_words(total)),
        Err(refusal) => words[..2].copy_from_slice(&refusal_words(refusal)),
    }
    words
}

/// Refusal, place, and the counts of nodes and cells.
fn call_words<T>(result: &Result<Found<T>, Refused>) -> [u32; 4] {
    match result {
        Ok(Found { counts: [nodes, cells], .. }) => [0, 0, *nodes, *cells],
        Err(Refused { refusal, counts: [nodes, cells] }) => {
            [refusal.number, refusal.place as u32, *nodes, *cells]
        }
    }
}

fn total_words(total: &Total) -> [u32; 9] {
    let pair = |number: u64| [number as u32, (number >> 32) as u32];
    let [low, high] = pair(total.total);
    let [smallest_low, smallest_high] = pair(total.smallest.to_bits());
    let [largest_low, largest_high] = pair(total.largest.to_bits());
    let Total { numbers, texts, missing, .. } = *total;
    [low, high, numbers, texts, missing, smallest_low, smallest_high, largest_low, largest_high]
}

fn refusal_words(refusal: &Refusal) -> Vec<u32> {
    vec![refusal.number, refusal.place as u32]
}

fn look_words(look: &Look) -> Vec<u32> {
    let mut words = vec![u32::from(look.version), u32::from(look.flags)];
    words.extend([look.nested_row_labels, look.footnote_marker_subscripts].map(u32::from));
    words.extend(look.separators1.iter().chain(&look.separators2).flat_map(separator));
    words.extend(area(&look.title_color, &look.title_style));
    words.extend(look.most_areas.iter().flat_map(|(color, style)| area(color, style)));
    words.extend(look.v2.separators.iter().flat_map(separator));
    words.extend(continuation(&look.v2.continuation));
    words.extend([look.v2.min_col_width, look.v2.max_col_width]);
    words.extend([look.v2.min_row_height, look.v2.max_row_height]);
    words
}

fn separator(separator: &Separator) -> [u32; 4] {
    match *separator {
        Separator::NotDrawn => [0; 4],
        Separator::Drawn { color, style, width } => [1, color, style.into(), width.into()],
    }
}

fn area(color: &AreaColor, style: &AreaStyle) -> Vec<u32> {
    let mut words = vec![color.color10, color.color0, u32::from(color.shading)];
    words.extend([style.valign, style.halign, style.decimal_offset].map(u32::from));
    words.extend([style.left_margin, style.right_margin].map(u32::from));
    words.extend([style.top_margin, style.bottom_margin].map(u32::from));
    words.extend([style.font_size as u32, style.stretch.into()]);
    words.extend([style.rotation_angle, style.weight.into()]);
    words.extend([style.italic, style.underline, style.strikethrough].map(u32::from));
    words.extend([style.rtf_charset_number, style.x.into()]);
    words.extend(name(&style.font_name));
    words.push(style.text_color);
    words
}

fn name(name: &Name) -> [u32; 2] {
    [name.place, name.length]
}

/// The default has the last of all words for a place, and the length of its 7 letters.
fn continuation(continuation: &Continuation) -> [u32; 2] {
    match continuation {
        Continuation::Default => [u32::MAX, 7],
        Continuation::Stored(stored) => name(stored),
    }
}
