//! Header, Titles, Footnotes and the end of the member.

use super::Cases;
use crate::encode::*;
use crate::parts::*;
use Section::*;

pub fn add(cases: &mut Cases) {
    header_cases(cases);
    ending_cases(cases);
    title_cases(cases);
    footnote_cases(cases);
}

fn header_cases(cases: &mut Cases) {
    cases.refuse_bytes("empty", 2, &[], 0);
    cases.refuse_bytes("header_one_byte", 2, &[1], 1);
    cases.refuse_bytes("header_first_byte", 3, &[0], 0);
    cases.refuse_bytes("header_second_byte", 3, &[1, 1, 3, 0, 0, 0], 1);
    cases.refuse_bytes("header_version_1", 2, &[1, 0, 1, 0, 0, 0], 6);
    cases.refuse_bytes("header_version_cut", 2, &[1, 0, 1, 0, 0], 2);
    cases.refuse_bytes("header_bool", 5, &[1, 0, 3, 0, 0, 0, 2], 6);
    let shortest = Parts::shortest();
    cases.refuse("header_last_bool", 5, &shortest.clone().with_byte(Header, 10, 2), Header, 10);
    cases.refuse_cut("header_table_id_cut", 2, &shortest, (Header, 31), 7);
    cases.refuse_cut("titles_absent", 2, &shortest, (Titles, 0), 0);
}

fn ending_cases(cases: &mut Cases) {
    let ending = |bytes: &[u8]| Parts::shortest_with(Ending, bytes.to_vec());
    cases.accept("shortest", &ending(&[]), [0, 0, 0]);
    cases.accept("shortest_final_01", &ending(&[1]), [0, 0, 0]);
    cases.refuse("final_01_twice", 11, &ending(&[1, 1]), Ending, 1);
    cases.refuse("final_00", 11, &ending(&[0]), Ending, 0);
}

fn title_cases(cases: &mut Cases) {
    let titles = |parts: &[Vec<u8>]| Parts::shortest_with(Titles, parts.concat());
    let number = || [vec![1, 0x58], int32(0x0005_2800), vec![0; 8]].concat();
    let t = template;

    let all = [t(), vec![1], t(), vec![1, 0x31], t(), vec![1, 0x31], t(), vec![0x31], t()];
    cases.accept("titles_all_marks_corner_caption", &titles(&all), [0, 0, 0]);
    let mark = [t(), vec![1], t(), vec![0x31], t(), vec![0x58, 0x58]];
    cases.accept("titles_mark_then_template", &titles(&mark), [0, 0, 0]);
    let caption = [t(), t(), vec![0x31], t(), vec![0x58, 0x31], t()];
    cases.accept("titles_caption_without_corner", &titles(&caption), [0, 0, 0]);
    let marked = [t(), vec![1], number(), vec![0x31], t(), vec![0x58, 0x58]];
    cases.accept("titles_mark_then_number", &titles(&marked), [0, 0, 0]);
    // The first byte of the subtype is taken as the mark, so the format becomes a string length.
    let unmarked = [t(), number(), vec![0x31], t(), vec![0x58, 0x58]];
    cases.refuse("titles_number_without_mark", 2, &titles(&unmarked), Titles, 11);
    let twice = [t(), t(), vec![1, 1, 0x31], t(), vec![0x58, 0x58]];
    cases.refuse("titles_second_mark_twice", 3, &titles(&twice), Titles, 19);
    let third = [t(), t(), vec![0x31], t(), vec![1, 1, 0x58, 0x58]];
    cases.refuse("titles_third_mark_twice", 3, &titles(&third), Titles, 29);
    let shortest = Parts::shortest();
    let changed = |offset, byte| shortest.clone().with_byte(Titles, offset, byte);
    cases.refuse("titles_no_user_title", 3, &changed(18, 0x58), Titles, 18);
    cases.refuse("titles_corner_mark", 3, &changed(28, 0x30), Titles, 28);
    cases.refuse("titles_caption_mark", 3, &changed(29, 0x00), Titles, 29);
}

fn footnote_cases(cases: &mut Cases) {
    let plain = |mark: u8| [template(), vec![mark], int32(1)].concat();
    let marked = [template(), vec![0x31], template(), int32(u32::MAX)].concat();
    let footnotes = |entries: &[Vec<u8>]| Parts::shortest_with(Footnotes, list(entries));
    let three = [plain(0x58), marked, plain(0x58)];
    cases.accept("footnotes_with_and_without_marker", &footnotes(&three), [0, 0, 0]);
    let bad = [plain(0x58), plain(0x59)];
    cases.refuse("footnote_marker_mark", 3, &footnotes(&bad), Footnotes, 4 + 14 + 9);
    let many = |number| Parts::shortest_with(Footnotes, int32(number));
    cases.refuse("footnotes_257", 7, &many(257), Footnotes, 0);
    cases.refuse_cut("footnotes_256_cut", 2, &many(256), (Footnotes, 4), 0);
    cases.refuse_cut("footnotes_257_cut", 2, &many(257), (Footnotes, 0), 3);
}
