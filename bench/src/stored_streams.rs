//! Hand-chosen streams of case data: the stored input of `cases_main`, and what it prints for it.

use std::fmt::Write;

use crate::cases::Decoder;

const NUMERIC: u8 = 0;
const STRING: u8 = 1;

/// How many calls the program makes for a stream at most.
const CALLS: usize = 512;

struct Stream {
    kinds: Vec<u8>,
    bias: u16,
    /// How many bytes a call is offered.
    cut: u8,
    /// For how many elements it has room: 0, 1 or 8.
    room: u8,
    bytes: Vec<u8>,
}

/// Kinds, bias and bytes of each.
fn chosen() -> Vec<(Vec<u8>, u16, Vec<u8>)> {
    let number = vec![NUMERIC];
    let string = vec![STRING];
    let both = vec![NUMERIC, STRING];
    let block = 98.6f64.to_le_bytes();
    let with_block = |codes: [u8; 8], blocks: &[&[u8]]| [&codes[..], &blocks.concat()].concat();
    vec![
        // starts that are refused, and the largest bias
        (vec![], 100, vec![]),
        (vec![2], 100, vec![]),
        (number.clone(), 256, vec![]),
        (number.clone(), 255, vec![1, 251, 0, 0, 0, 0, 0, 252]),
        (vec![NUMERIC; 255], 100, vec![101; 16]),
        // numbers: code minus bias, missing, 0s skipped, the end of the data
        (number.clone(), 100, vec![]),
        (number.clone(), 100, vec![101, 100, 99, 251, 1, 255, 0, 252]),
        (number.clone(), 0, vec![1, 251, 0, 0, 255, 0, 0, 252]),
        (number.clone(), 100, vec![252, 101, 254, 0, 0, 0, 0, 0, 101, 101]),
        // no 252, the last group padded with 0s, as the open-source counterpart writes
        (number.clone(), 100, vec![110, 111, 112, 0, 0, 0, 0, 0]),
        // every case padded with 0s, and a 252 at the end, as another writer does
        (both.clone(), 100, vec![101, 254, 0, 0, 0, 0, 0, 0, 102, 254, 0, 0, 0, 0, 0, 252]),
        // blocks, of numbers and of strings, in their order
        (
            number.clone(),
            100,
            with_block([101, 253, 102, 253, 0, 0, 0, 252], &[&block, b"\x01\0\0\0\0\0\xf0\x7f"]),
        ),
        (
            both.clone(),
            100,
            with_block([253, 253, 101, 253, 0, 0, 0, 252], &[&block, b"Wojcicka", b"Novak   "]),
        ),
        // strings: the bias, spaces
        (string.clone(), 100, vec![100, 254, 100, 254, 0, 0, 0, 252]),
        (string.clone(), 0, vec![254, 0, 0, 0, 0, 0, 0, 1]),
        (string.clone(), 252, vec![251, 0, 0, 0, 0, 0, 0, 0]),
        // a 252 in the middle of a case
        (both.clone(), 100, vec![101, 254, 102, 252, 254, 0, 0, 0]),
        // 22: 254 as a number, 255 and a code that isn't the bias as a string
        (number.clone(), 100, vec![101, 102, 254, 103, 0, 0, 0, 0]),
        (string.clone(), 100, vec![100, 255, 254, 0, 0, 0, 0, 0]),
        (both.clone(), 100, with_block([253, 254, 101, 99, 0, 0, 0, 0], &[&block])),
        // 23: within a group, within a block, within a case, a code that waits for its block
        (number.clone(), 100, vec![101, 102, 103]),
        (number.clone(), 100, with_block([101, 253, 0, 0, 0, 0, 0, 0], &[&block[..5]])),
        (both.clone(), 100, vec![101, 254, 102, 0, 0, 0, 0, 0]),
        (number, 100, vec![101, 253, 0, 0, 0, 0, 0, 0]),
    ]
}

fn streams() -> Vec<Stream> {
    let mut all = Vec::new();
    for (kinds, bias, bytes) in chosen() {
        for (cut, room) in [(255, 8), (255, 1), (1, 8), (3, 1), (255, 0)] {
            all.push(Stream { kinds: kinds.clone(), bias, cut, room, bytes: bytes.clone() });
        }
    }
    all
}

/// The stored input.
pub fn input() -> Vec<u8> {
    let mut out = Vec::new();
    for stream in streams() {
        out.push(stream.kinds.len() as u8);
        out.extend(&stream.kinds);
        out.extend(stream.bias.to_le_bytes());
        out.extend([stream.cut, stream.room]);
        out.extend((stream.bytes.len() as u16).to_le_bytes());
        out.extend(&stream.bytes);
    }
    out
}

/// What the program prints for it.
pub fn output() -> String {
    streams().iter().map(lines).collect()
}

fn lines(stream: &Stream) -> String {
    let mut decoder = match Decoder::start(&stream.kinds, u32::from(stream.bias)) {
        Err(refusal) => return format!("start {} {}\n", refusal.number, refusal.place),
        Ok(decoder) => decoder,
    };
    let mut text = String::from("start 0 0\n");
    let mut rest = &stream.bytes[..];
    for _ in 0..CALLS {
        let offered = &rest[..rest.len().min(usize::from(stream.cut))];
        let mut elements = vec![0; 8 * usize::from(stream.room)];
        let fed = decoder.feed(offered, &mut elements);
        rest = &rest[fed.taken..];
        let (number, place) = decoder.refusal().map_or((0, 0), |r| (r.number, r.place));
        write!(text, "feed {number} {place} {} {}", fed.taken, fed.written).expect("a string");
        for element in elements.chunks(8).take(fed.written) {
            let bits = u64::from_le_bytes(element.try_into().expect("eight bytes"));
            write!(text, " {bits}").expect("a string");
        }
        text.push('\n');
        if number != 0 || (fed.taken == 0 && fed.written == 0) {
            break;
        }
    }
    let (number, place) = decoder.end().map_or((0, 0), |r| (r.number, r.place));
    text + &format!("end {number} {place}\n")
}
