//! Templates with their arguments put in (003, Value).

/// A longer text is not made, and not with more steps: a few bytes of nested templates could ask
/// for gigabytes, or for hours.
const LONGEST: usize = 4_096;
const MOST_STEPS: usize = 65_536;

/// The template with the values of its arguments; None if the text would be too long.
///
/// `^I` is argument I, `[A:B:]I` all values of argument I, the first ones by A (where `%J` is the
/// Jth) and the others by B (where `^J` is), and a backslash takes the next character as it is, but
/// for `\n`. A `^I` or a bracket that asks for an argument that is not there stays as it is.
pub fn expand(template: &[u8], arguments: &[Vec<Vec<u8>>]) -> Option<Vec<u8>> {
    let mut out = Text::default();
    let mut rest = template;
    while let Some(&byte) = rest.first() {
        if out.is_over() {
            return None;
        }
        rest = match byte {
            b'\\' => out.push_escape(rest),
            b'^' => match number_after(&rest[1..]) {
                Some((i, after)) if i >= 1 && i <= arguments.len() => {
                    out.push(arguments[i - 1].first().map_or(&[], |value| value));
                    after
                }
                _ => out.push_byte(rest),
            },
            b'[' => match List::read(&rest[1..]) {
                Some((list, after)) if list.argument >= 1 && list.argument <= arguments.len() => {
                    out.push_list(&list, &arguments[list.argument - 1]);
                    after
                }
                _ => out.push_byte(rest),
            },
            _ => out.push_byte(rest),
        };
    }
    (!out.is_over()).then_some(out.bytes)
}

/// `[A:B:]I` after its first byte.
struct List<'a> {
    first: &'a [u8],
    others: &'a [u8],
    argument: usize,
}

impl<'a> List<'a> {
    fn read(text: &'a [u8]) -> Option<(List<'a>, &'a [u8])> {
        let (first, text) = until_colon(text)?;
        let (others, text) = until_colon(text)?;
        let (argument, after) = number_after(text.strip_prefix(b"]")?)?;
        Some((List { first, others, argument }, after))
    }
}

/// The text before the next colon that has no backslash before it, and the text after it.
fn until_colon(text: &[u8]) -> Option<(&[u8], &[u8])> {
    let mut at = 0;
    loop {
        match text.get(at)? {
            b'\\' => at += 2,
            b':' => return Some((&text[..at], &text[at + 1..])),
            _ => at += 1,
        }
    }
}

/// The decimal number at the start of a text, and the text after it.
fn number_after(text: &[u8]) -> Option<(usize, &[u8])> {
    let digits = text.iter().take(4).take_while(|byte| byte.is_ascii_digit()).count();
    let number = std::str::from_utf8(&text[..digits]).ok()?.parse().ok()?;
    Some((number, &text[digits..]))
}

#[derive(Default)]
struct Text {
    bytes: Vec<u8>,
    steps: usize,
}

impl Text {
    fn is_over(&self) -> bool {
        self.bytes.len() > LONGEST || self.steps > MOST_STEPS
    }

    fn push(&mut self, bytes: &[u8]) {
        self.steps += 1;
        if !self.is_over() {
            self.bytes.extend(bytes);
        }
    }

    fn push_byte<'a>(&mut self, text: &'a [u8]) -> &'a [u8] {
        self.push(&text[..1]);
        &text[1..]
    }

    /// A backslash and the character after it.
    fn push_escape<'a>(&mut self, text: &'a [u8]) -> &'a [u8] {
        match text.get(1) {
            Some(b'n') => self.push(b"\n"),
            Some(&byte) => self.push(&[byte]),
            None => self.push(b"\\"),
        }
        text.get(2..).unwrap_or_default()
    }

    fn push_list(&mut self, list: &List, values: &[Vec<u8>]) {
        let mut left = values;
        if !list.first.is_empty() {
            left = self.push_some(list.first, b'%', left);
        }
        while !left.is_empty() && !self.is_over() {
            let before = left.len();
            left = self.push_some(list.others, b'^', left);
            if left.len() == before {
                return;
            }
        }
    }

    /// A part of a list with the values that it asks for; gives the values after them.
    fn push_some<'v>(&mut self, part: &[u8], sign: u8, values: &'v [Vec<u8>]) -> &'v [Vec<u8>] {
        let mut used = 0;
        let mut rest = part;
        while let Some(&byte) = rest.first().filter(|_| !self.is_over()) {
            rest = match number_after(&rest[1..]) {
                Some((j, after)) if byte == sign && j >= 1 => {
                    self.push(values.get(j - 1).map_or(&[], |value| value));
                    used = used.max(j);
                    after
                }
                _ if byte == b'\\' => self.push_escape(rest),
                _ => self.push_byte(rest),
            };
        }
        values.get(used..).unwrap_or_default()
    }
}

#[cfg(test)]
mod tests {
    use super::*;

    fn text(template: &str, arguments: &[&[&str]]) -> String {
        let arguments: Vec<Vec<Vec<u8>>> = arguments
            .iter()
            .map(|values| values.iter().map(|value| value.as_bytes().to_vec()).collect())
            .collect();
        String::from_utf8(expand(template.as_bytes(), &arguments).unwrap()).unwrap()
    }

    /// The examples of 003.
    #[test]
    fn lists() {
        let three: &[&[&str]] = &[&["1", "2", "3"]];
        assert_eq!(text("[:^1:]1", three), "123");
        assert_eq!(text("[:^1\\n:]1", three), "1\n2\n3\n");
        assert_eq!(text("[:^1 = ^2:]2", &[&[], &["X", "Y"]]), "X = Y");
        assert_eq!(text("[%1:*^1:]1", three), "1*2*3");
        let pairs: &[&[&str]] = &[&["X", "1", "Y", "2", "Z", "3"]];
        assert_eq!(text("[%1 = %2:, ^1 = ^2:]1", pairs), "X = 1, Y = 2, Z = 3");
    }

    #[test]
    fn others() {
        assert_eq!(text("^1 and ^2", &[&["a"], &["b"]]), "a and b");
        assert_eq!(text("100\\%\\[x\\]\\:", &[]), "100%[x]:");
        assert_eq!(text("^3 [:^1:]2 ^ [x \\", &[&["a"]]), "^3 [:a:]2 ^ [x \\");
        assert_eq!(text("[:no values:]1", &[&["a"]]), "no values");
    }

    #[test]
    fn too_long() {
        let long = vec![vec![b'a'; 3_000]];
        assert!(expand(b"^1", std::slice::from_ref(&long)).is_some());
        assert_eq!(expand(b"^1^1^1", &[long]), None);
        let empty = vec![Vec::new(); 1_000];
        let long_list = [b"[:", &b"^1".repeat(1_000)[..], b":]1"].concat();
        assert_eq!(expand(&long_list, &[empty]), None);
    }
}
