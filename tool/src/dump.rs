//! Bytes in hexadecimal with a field marked.

/// Bytes to a line.
const WIDTH: usize = 16;
/// Lines of a long field that are shown.
const MOST_LINES: usize = 6;

/// The lines around a field, with its bytes in brackets. Places are decimal, as in refusals.
pub fn dump(bytes: &[u8], place: usize, length: usize) -> Vec<String> {
    let end = (place + length.max(1)).min(bytes.len()).max(place);
    let first = (place / WIDTH).saturating_sub(1);
    let last = (end.max(place + 1) - 1) / WIDTH + 1;
    let lines = first..=last.min(first + MOST_LINES);
    let dumped = lines
        .filter(|line| line * WIDTH < bytes.len() || line * WIDTH == place)
        .map(|line| dump_line(bytes, line * WIDTH, place, end));
    dumped.collect()
}

fn dump_line(bytes: &[u8], start: usize, place: usize, end: usize) -> String {
    let mut hex = String::new();
    for at in start..start + WIDTH {
        hex.push(match at {
            _ if at == place => '[',
            _ if at == end && end > place && at > start => ']',
            _ => ' ',
        });
        match bytes.get(at) {
            Some(byte) => hex.push_str(&format!("{byte:02x}")),
            // the field would stand here
            None if at == place => hex.push_str("end of file]"),
            None => break,
        }
    }
    let line_end = start + WIDTH;
    if end > place && end == line_end {
        hex.push(']');
    }
    let shown = &bytes[start.min(bytes.len())..line_end.min(bytes.len())];
    let text: String = shown.iter().map(|&byte| printable(byte)).collect();
    format!("  {start:>8} {hex:<50}  {text}").trim_end().to_string()
}

fn printable(byte: u8) -> char {
    match byte {
        b' '..=b'~' => byte as char,
        _ => '.',
    }
}

#[cfg(test)]
mod tests {
    use super::*;

    #[test]
    fn a_field_in_the_middle() {
        let bytes: Vec<u8> = (0..64).collect();
        let lines = dump(&bytes, 33, 4);
        assert_eq!(lines.len(), 3);
        assert!(lines[1].starts_with("        32  20[21 22 23 24]25 26"), "{}", lines[1]);
        assert!(lines[1].ends_with(" !\"#$%&'()*+,-./"));
    }

    #[test]
    fn a_field_over_two_lines() {
        let bytes: Vec<u8> = (0..64).collect();
        let lines = dump(&bytes, 30, 4);
        assert!(lines[1].contains(" 1d[1e 1f "), "{}", lines[1]);
        assert!(lines[2].starts_with("        32  20 21]22"), "{}", lines[2]);
        let lines = dump(&bytes, 28, 4);
        assert!(lines[1].contains("[1c 1d 1e 1f]"), "{}", lines[1]);
        assert!(lines[2].starts_with("        32  20 21"), "{}", lines[2]);
    }

    #[test]
    fn the_end() {
        assert_eq!(dump(&[], 0, 1), ["         0 [end of file]"]);
        let lines = dump(&[1, 2, 3], 1, 4);
        assert_eq!(lines, ["         0  01[02 03]                                          ..."]);
        let lines = dump(&[0; 16], 16, 4);
        assert_eq!(lines.last().unwrap().trim(), "16 [end of file]");
    }
}
