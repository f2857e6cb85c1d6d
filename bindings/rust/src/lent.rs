//! The library's functions over lent slices, with nothing allocated.
//!
//! What the words of an answer and of the records mean stands in `include/digarumbi.h`.
//!
//! Each call is safe: the functions take any bytes and areas of any length, every pointer comes
//! with the length of its slice, and Rust's borrows keep a slice that is written from overlapping
//! the others.
//!
//! The functions over members, their records and looks panic if the archive has another interface than these declarations.

use std::iter::successors;

use crate::ffi;

/// The version of the interface that these declarations are for.
pub const ABI: u32 = 3;

/// Words of a member's answer.
pub const MEMBER_ANSWER: usize = 88;
/// Words of the answer of [`read_members`] before those of its members.
pub const MEMBERS: usize = 2;
/// Most members of a list.
pub const MOST_MEMBERS: usize = 64;
/// Words of a Value's answer.
pub const VALUE_WORDS: usize = 22;
/// Words of an argument's answer.
pub const ARGUMENT_WORDS: usize = 5;
/// Words of the answer of [`position`].
pub const POSITION_WORDS: usize = 5;
/// Words of the answer of [`index`].
pub const INDEX_WORDS: usize = 3;
/// Words of the answer of [`total`].
pub const TOTAL_ANSWER: usize = 13;
/// Words of the answer of [`totals`].
pub const TOTALS_ANSWER: usize = 5;
/// Words of a look's answer.
pub const LOOK_ANSWER: usize = 264;
/// Words of the answer of [`rewrite_look`].
pub const REWRITE_ANSWER: usize = 3;
/// Words of the answer of [`look_sections`].
pub const SECTIONS_ANSWER: usize = 3;

/// Words of the answer of [`to_utf8`] and [`from_utf8`].
pub const TEXT_ANSWER: usize = 3;

/// Words of a node record.
pub const NODE_RECORD: usize = 7;
/// Words of a cell record.
pub const CELL_RECORD: usize = 3;
/// Words of a total record.
pub const TOTAL_RECORD: usize = 11;

/// Words that always suffice for the node records.
pub const NODE_AREA: usize = 28_672;
/// Words that always suffice for the cell records.
pub const CELL_AREA: usize = 12_288;
/// Words that always suffice for the total records.
pub const TOTALS_AREA: usize = 45_056;

/// Words of a state of case data.
pub const CASES_STATE: usize = 268;
/// Words of the answers of [`cases_start`] and [`cases_end`].
pub const CASES_ANSWER: usize = 2;
/// Words of the answer of [`cases_feed`].
pub const CASES_FEED_ANSWER: usize = 4;

/// Bytes of stack in which a thread can call any of these functions.
pub const STACK: usize = 524_288;
/// Bytes of stack in which a thread can call [`read_member`] with at most [`SMALL_MEMBER`] bytes.
pub const SMALL_STACK: usize = 32_768;
/// Bytes of a member for which [`SMALL_STACK`] is enough.
pub const SMALL_MEMBER: usize = 2_560;

/// Bytes of the longest look.
pub const LONGEST_LOOK: usize = 3_160;
/// Bytes of the longest sections that are made from a look.
pub const LONGEST_SECTIONS: usize = 2_844;
/// Where the version of a look's file stands, 0 or 2 if the file is accepted.
pub const LOOK_VERSION_PLACE: usize = 17;
/// Stands for the place of a look's continuation where that is the default, which is in no file.
pub const LOOK_DEFAULT_CONTINUATION: u32 = u32::MAX;
/// The letters of the default continuation.
pub const LOOK_DEFAULT_CONTINUATION_LETTERS: &[u8] = b"(Cont.)";

/// The version of the interface that the archive has.
///
/// ```
/// assert_eq!(digarumbi::lent::abi(), digarumbi::lent::ABI);
/// ```
pub fn abi() -> u32 {
    unsafe { ffi::digarumbi_abi() }
}

/// Panics if the records of the archive are not those of these declarations.
fn test_abi() {
    assert_eq!(abi(), ABI, "the archive has another interface than these bindings");
}

/// Reads a member. Returns [`MEMBER_ANSWER`], or 0 if `answer` has fewer words.
pub fn read_member(
    member: &[u8],
    answer: &mut [u32],
    nodes: &mut [u32],
    cells: &mut [u32],
) -> usize {
    test_abi();
    unsafe {
        ffi::digarumbi_read_member(
            member.as_ptr(),
            member.len(),
            answer.as_mut_ptr(),
            answer.len(),
            nodes.as_mut_ptr(),
            nodes.len(),
            cells.as_mut_ptr(),
            cells.len(),
        )
    }
}

/// Reads the members of a list, start and length in turn, each with its share of the two areas.
/// Returns the words of the answer, [`MEMBERS`] and [`MEMBER_ANSWER`] for each member, or
/// [`MEMBERS`] where the list is refused; 0 if `answers` has fewer.
///
/// ```
/// use digarumbi::lent::read_members;
/// let mut answers = [7; 2 + 88 + 1];
/// // a member that is not inside the buffer
/// assert_eq!(read_members(b"member", &[3, 4], &mut answers, &mut [], &mut []), 90);
/// assert_eq!((&answers[..5], answers[90]), (&[0, 0, 2, 0, 0][..], 7));
/// // a list of an odd number of words
/// assert_eq!(read_members(b"member", &[3], &mut answers, &mut [], &mut []), 2);
/// assert_eq!(answers[..2], [26, 0]);
/// ```
pub fn read_members(
    buffer: &[u8],
    list: &[u32],
    answers: &mut [u32],
    nodes: &mut [u32],
    cells: &mut [u32],
) -> usize {
    test_abi();
    unsafe {
        ffi::digarumbi_read_members(
            buffer.as_ptr(),
            buffer.len(),
            list.as_ptr(),
            list.len(),
            answers.as_mut_ptr(),
            answers.len(),
            nodes.as_mut_ptr(),
            nodes.len(),
            cells.as_mut_ptr(),
            cells.len(),
        )
    }
}

/// The place and length of the name of node `i`, both 0 if there is none.
/// Of `nodes` only the words of `count` records are looked at; an area with fewer has none filled.
///
/// ```
/// use digarumbi::lent::node_name;
/// let nodes = [0, 0, u32::MAX, 2, 3, 0, 1];
/// assert_eq!(node_name(b"member", &nodes, 1, 0), (2, 3));
/// assert_eq!(node_name(b"member", &nodes, 0, 0), (0, 0));
/// assert_eq!(node_name(b"member", &nodes, 2, 0), (0, 0));
/// ```
pub fn node_name(member: &[u8], nodes: &[u32], count: usize, i: usize) -> (usize, usize) {
    test_abi();
    let mut place = 0;
    let length = unsafe {
        ffi::digarumbi_node_name(
            member.as_ptr(),
            member.len(),
            nodes.as_ptr(),
            nodes.len(),
            count,
            i,
            &mut place,
        )
    };
    (place, length)
}

/// The node after node `i` and all the nodes below it, `count` where there is none.
/// Of `nodes` the same words are looked at as by [`node_name`]. For every `i` below `count` the
/// answer is greater than `i` and at most `count`, whatever the words are.
///
/// ```
/// use digarumbi::lent::node_after;
/// let nodes = [[1, 0, u32::MAX, 0, 0, 1, 2], [0, 0, 0, 0, 0, 0, 1], [0, 0, u32::MAX, 0, 0, 1, 1]];
/// assert_eq!(node_after(nodes.as_flattened(), 3, 0), 2);
/// assert_eq!(node_after(nodes.as_flattened(), 3, 2), 3);
/// assert_eq!(node_after(nodes.as_flattened(), 1, 0), 1);
/// assert_eq!(node_after(&[], 3, 0), 3);
/// ```
pub fn node_after(nodes: &[u32], count: usize, i: usize) -> usize {
    test_abi();
    unsafe { ffi::digarumbi_node_after(nodes.as_ptr(), nodes.len(), count, i) }
}

/// The direct children of node `i`, each skipped with all that is below it. None if there is no
/// node `i`. It ends, whatever the words are.
///
/// ```
/// use digarumbi::lent::children;
/// let nodes = [[1, 0, u32::MAX, 0, 0, 1, 3], [1, 0, 0, 0, 0, 1, 2], [0, 0, 1, 0, 0, 0, 1]];
/// assert_eq!(children(nodes.as_flattened(), 3, 0).collect::<Vec<_>>(), [1]);
/// assert_eq!(children(nodes.as_flattened(), 3, 2).count(), 0);
/// ```
pub fn children(nodes: &[u32], count: usize, i: usize) -> impl Iterator<Item = usize> + '_ {
    let end = if i < count { node_after(nodes, count, i) } else { 0 };
    let inside = move |i: usize| (i < end).then_some(i);
    successors(i.checked_add(1).and_then(inside), move |&child| {
        inside(node_after(nodes, count, child))
    })
}

/// The length of the part of the member at `place`: `length`, or 0 if it does not lie inside.
pub fn part(member: &[u8], place: usize, length: usize) -> usize {
    unsafe { ffi::digarumbi_part(member.as_ptr(), member.len(), place, length) }
}

/// Reads the Value at the start of the bytes, by the version of its member. Returns
/// [`VALUE_WORDS`], or 0 if `answer` has fewer words.
///
/// ```
/// use digarumbi::lent::{value, VALUE_WORDS};
/// let mut answer = [7; VALUE_WORDS];
/// assert_eq!(value(3, b"\0\x58\x02\0\0\0^1\0\0\0\0, and more", &mut answer), VALUE_WORDS);
/// // no refusal, 12 bytes, one of them 00, a template
/// assert_eq!(answer[..5], [0, 0, 12, 1, 7]);
/// // its text, no arguments
/// assert_eq!((&answer[10..12], &answer[20..]), (&[6, 2][..], &[0, 12][..]));
/// assert_eq!(value(3, b"", &mut answer[1..]), 0);
/// ```
pub fn value(version: u32, value: &[u8], answer: &mut [u32]) -> usize {
    unsafe {
        ffi::digarumbi_value(
            version,
            value.as_ptr(),
            value.len(),
            answer.as_mut_ptr(),
            answer.len(),
        )
    }
}

/// Reads the Argument at the start of the bytes, by the version of its member. Returns
/// [`ARGUMENT_WORDS`], or 0 if `answer` has fewer words.
///
/// ```
/// use digarumbi::lent::{argument, ARGUMENT_WORDS};
/// let mut answer = [7; ARGUMENT_WORDS];
/// let one = b"\0\0\0\0\x58\0\0\0\0\0\0\0\0";
/// assert_eq!(argument(3, one, &mut answer), ARGUMENT_WORDS);
/// // no refusal, 13 bytes, one Value, which starts at 4
/// assert_eq!(answer, [0, 0, 13, 1, 4]);
/// argument(3, &one[..3], &mut answer);
/// assert_eq!(answer, [2, 0, 0, 0, 0]);
/// ```
pub fn argument(version: u32, argument: &[u8], answer: &mut [u32]) -> usize {
    unsafe {
        ffi::digarumbi_argument(
            version,
            argument.as_ptr(),
            argument.len(),
            answer.as_mut_ptr(),
            answer.len(),
        )
    }
}

/// 1 and the double of these bits, or 0 and 0 where they are a NaN's.
///
/// ```
/// use digarumbi::lent::number;
/// assert_eq!(number(0, 0x4004_0000), (1, 2.5));
/// assert_eq!(number(0, 0x7ff8_0000), (0, 0.0));
/// ```
pub fn number(low: u32, high: u32) -> (u32, f64) {
    let mut number = 0.0;
    let given = unsafe { ffi::digarumbi_number(low, high, &mut number) };
    (given, number)
}

/// Reads a member and totals the cells under a leaf. Returns [`TOTAL_ANSWER`], or 0 if `answer` has
/// fewer words.
///
/// ```
/// use digarumbi::lent::{total, CELL_AREA, NODE_AREA, TOTAL_ANSWER};
/// let member = std::fs::read("../../examples/spine_18.bin")?;
/// let (mut nodes, mut cells) = (vec![0; NODE_AREA], vec![0; CELL_AREA]);
/// let mut answer = [7; TOTAL_ANSWER];
/// assert_eq!(total(&member, 2, 0, &mut answer, &mut nodes, &mut cells), TOTAL_ANSWER);
/// // there is no dimension 2
/// assert_eq!(answer, [19, 0, 0, 0, 0, 0, 0, 0, 0, 0, 0, 0, 0]);
/// # Ok::<(), std::io::Error>(())
/// ```
pub fn total(
    member: &[u8],
    dimension: u32,
    leaf: u32,
    answer: &mut [u32],
    nodes: &mut [u32],
    cells: &mut [u32],
) -> usize {
    test_abi();
    unsafe {
        ffi::digarumbi_total(
            member.as_ptr(),
            member.len(),
            dimension,
            leaf,
            answer.as_mut_ptr(),
            answer.len(),
            nodes.as_mut_ptr(),
            nodes.len(),
            cells.as_mut_ptr(),
            cells.len(),
        )
    }
}

/// Reads a member once and totals the cells under each leaf of a dimension, [`TOTAL_RECORD`] words
/// a leaf. Returns [`TOTALS_ANSWER`], or 0 if `answer` has fewer words.
///
/// ```
/// use digarumbi::lent::{totals, CELL_AREA, NODE_AREA, TOTALS_ANSWER};
/// let member = std::fs::read("../../examples/spine_18.bin")?;
/// let (mut nodes, mut cells) = (vec![0; NODE_AREA], vec![0; CELL_AREA]);
/// let mut answer = [7; TOTALS_ANSWER];
/// assert_eq!(totals(&member, 0, &mut answer, &mut [], &mut nodes, &mut cells), TOTALS_ANSWER);
/// // 5 leaves have no place in an area without words
/// assert_eq!(answer, [15, 0, 0, 0, 5]);
/// # Ok::<(), std::io::Error>(())
/// ```
pub fn totals(
    member: &[u8],
    dimension: u32,
    answer: &mut [u32],
    totals: &mut [u32],
    nodes: &mut [u32],
    cells: &mut [u32],
) -> usize {
    test_abi();
    unsafe {
        ffi::digarumbi_totals(
            member.as_ptr(),
            member.len(),
            dimension,
            answer.as_mut_ptr(),
            answer.len(),
            totals.as_mut_ptr(),
            totals.len(),
            nodes.as_mut_ptr(),
            nodes.len(),
            cells.as_mut_ptr(),
            cells.len(),
        )
    }
}

/// The position of the cell with this index, on axes that have so many of the order's entries:
/// layers, rows, columns. Returns [`POSITION_WORDS`], or 0 if `answer` has fewer words.
///
/// ```
/// use digarumbi::lent::{position, POSITION_WORDS};
/// let mut answer = [7; POSITION_WORDS];
/// // the second dimension in rows; in columns the other two, the third the inner one
/// assert_eq!(position(&[3, 4, 5], [0, 1, 2], &[1, 2, 0], 33, &mut answer), POSITION_WORDS);
/// assert_eq!(answer, [0, 0, 0, 2, 8]);
/// position(&[3, 4, 5], [0, 1, 2], &[1, 2, 0], 60, &mut answer);
/// assert_eq!(answer, [10, 0, 0, 0, 0]);
/// ```
pub fn position(
    ns: &[u32],
    counts: [u32; 3],
    order: &[u32],
    index: u32,
    answer: &mut [u32],
) -> usize {
    let [layers, rows, columns] = counts;
    unsafe {
        ffi::digarumbi_position(
            ns.as_ptr(),
            ns.len(),
            layers,
            rows,
            columns,
            order.as_ptr(),
            order.len(),
            index,
            answer.as_mut_ptr(),
            answer.len(),
        )
    }
}

/// The index of the cell at this layer, row and column position. Returns [`INDEX_WORDS`], or 0 if
/// `answer` has fewer words.
///
/// ```
/// use digarumbi::lent::{index, INDEX_WORDS};
/// let mut answer = [7; INDEX_WORDS];
/// assert_eq!(index(&[3, 4, 5], [0, 1, 2], &[1, 2, 0], [0, 2, 8], &mut answer), INDEX_WORDS);
/// assert_eq!(answer, [0, 0, 33]);
/// index(&[3, 4, 5], [0, 1, 2], &[1, 2, 0], [1, 2, 8], &mut answer);
/// assert_eq!(answer, [10, 0, 0]);
/// ```
pub fn index(
    ns: &[u32],
    counts: [u32; 3],
    order: &[u32],
    position: [u32; 3],
    answer: &mut [u32],
) -> usize {
    let [layers, rows, columns] = counts;
    let [layer, row, column] = position;
    unsafe {
        ffi::digarumbi_index(
            ns.as_ptr(),
            ns.len(),
            layers,
            rows,
            columns,
            order.as_ptr(),
            order.len(),
            layer,
            row,
            column,
            answer.as_mut_ptr(),
            answer.len(),
        )
    }
}

/// Reads a look. Returns [`LOOK_ANSWER`], or 0 if `answer` has fewer words. The words are those of a
/// version 02 look, of a version 00 file too.
pub fn read_look(file: &[u8], answer: &mut [u32]) -> usize {
    test_abi();
    unsafe {
        ffi::digarumbi_read_look(file.as_ptr(), file.len(), answer.as_mut_ptr(), answer.len())
    }
}

/// Reads a look and writes it into `out`, always as a version 02 file. Returns [`REWRITE_ANSWER`], or
/// 0 if `answer` has fewer words.
pub fn rewrite_look(file: &[u8], out: &mut [u8], answer: &mut [u32]) -> usize {
    test_abi();
    unsafe {
        ffi::digarumbi_rewrite_look(
            file.as_ptr(),
            file.len(),
            out.as_mut_ptr(),
            out.len(),
            answer.as_mut_ptr(),
            answer.len(),
        )
    }
}

/// Reads a look and writes the Areas and Borders of a version 3 member into `out`. Returns
/// [`SECTIONS_ANSWER`], or 0 if `answer` has fewer words.
///
/// ```
/// use digarumbi::lent::{look_sections, LONGEST_SECTIONS, SECTIONS_ANSWER};
/// let look = std::fs::read("../../examples/look_02.tlo")?;
/// let (mut out, mut answer) = ([7; LONGEST_SECTIONS], [7; SECTIONS_ANSWER]);
/// assert_eq!(look_sections(&look, &mut out, &mut answer), SECTIONS_ANSWER);
/// // 804 bytes, since its fonts have no names; the first area has index 1
/// assert_eq!((answer, &out[..2], out[804]), ([0, 0, 804], &[1, 0x31][..], 7));
/// look_sections(&look, &mut out[..803], &mut answer);
/// assert_eq!(answer, [15, 0, 0]);
/// # Ok::<(), std::io::Error>(())
/// ```
pub fn look_sections(look: &[u8], out: &mut [u8], answer: &mut [u32]) -> usize {
    test_abi();
    unsafe {
        ffi::digarumbi_look_sections(
            look.as_ptr(),
            look.len(),
            out.as_mut_ptr(),
            out.len(),
            answer.as_mut_ptr(),
            answer.len(),
        )
    }
}

/// Converts text in a code page to UTF-8, in `out`. Returns [`TEXT_ANSWER`], or 0 if `answer` has fewer words.
pub fn to_utf8(page: u32, input: &[u8], out: &mut [u8], answer: &mut [u32]) -> usize {
    unsafe {
        ffi::digarumbi_to_utf8(
            page,
            input.as_ptr(),
            input.len(),
            out.as_mut_ptr(),
            out.len(),
            answer.as_mut_ptr(),
            answer.len(),
        )
    }
}

/// Converts UTF-8 to text in a code page, in `out`. Returns [`TEXT_ANSWER`], or 0 if `answer` has fewer words.
pub fn from_utf8(page: u32, input: &[u8], out: &mut [u8], answer: &mut [u32]) -> usize {
    unsafe {
        ffi::digarumbi_from_utf8(
            page,
            input.as_ptr(),
            input.len(),
            out.as_mut_ptr(),
            out.len(),
            answer.as_mut_ptr(),
            answer.len(),
        )
    }
}

/// The refusal number, 0 if there is none, and the pixels.
pub fn pt_to_px(points: u32) -> (u32, u32) {
    let mut pixels = 0;
    let refusal = unsafe { ffi::digarumbi_pt_to_px(points, &mut pixels) };
    (refusal, pixels)
}

/// The refusal number, 0 if there is none, and the points.
pub fn px_to_pt(pixels: u32) -> (u32, u32) {
    let mut points = 0;
    let refusal = unsafe { ffi::digarumbi_px_to_pt(pixels, &mut points) };
    (refusal, points)
}

/// The refusal number, 0 if there is none, and the height.
pub fn font_height(size: i32) -> (u32, u32) {
    let mut height = 0;
    let refusal = unsafe { ffi::digarumbi_font_height(size, &mut height) };
    (refusal, height)
}

/// Starts a stream of case data. Returns [`CASES_ANSWER`], or 0 if `answer` or `state` has too few
/// words.
pub fn cases_start(kinds: &[u8], bias: u32, state: &mut [u32], answer: &mut [u32]) -> usize {
    unsafe {
        ffi::digarumbi_cases_start(
            kinds.as_ptr(),
            kinds.len(),
            bias,
            state.as_mut_ptr(),
            state.len(),
            answer.as_mut_ptr(),
            answer.len(),
        )
    }
}

/// Takes bytes of the input and writes elements. Returns [`CASES_FEED_ANSWER`], or 0 if `answer`
/// or `state` has too few words.
pub fn cases_feed(state: &mut [u32], input: &[u8], output: &mut [u8], answer: &mut [u32]) -> usize {
    unsafe {
        ffi::digarumbi_cases_feed(
            state.as_mut_ptr(),
            state.len(),
            input.as_ptr(),
            input.len(),
            output.as_mut_ptr(),
            output.len(),
            answer.as_mut_ptr(),
            answer.len(),
        )
    }
}

/// Tells of the end of a stream. Returns [`CASES_ANSWER`], or 0 if `answer` or `state` has too few
/// words.
pub fn cases_end(state: &[u32], answer: &mut [u32]) -> usize {
    unsafe {
        ffi::digarumbi_cases_end(state.as_ptr(), state.len(), answer.as_mut_ptr(), answer.len())
    }
}
