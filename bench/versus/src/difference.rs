//! What differs between the proved library and the independent reader, and for which input.

use std::fmt;

pub struct Difference(String);

impl Difference {
    /// No difference if both are equal.
    pub fn compare<T: fmt::Debug + PartialEq>(
        what: impl fmt::Display,
        expected: &T,
        found: &T,
    ) -> Result<(), Difference> {
        if expected == found {
            return Ok(());
        }
        Err(Difference(format!("{what}: expected {expected:?}, found {found:?}")))
    }

    /// Something that should be there and is not.
    pub fn missing(what: impl fmt::Display) -> Difference {
        Difference(format!("{what} is missing"))
    }

    /// Says where it was found.
    pub fn with(self, place: impl fmt::Display) -> Difference {
        Difference(format!("{place}: {}", self.0))
    }

    /// Adds the input, in hex.
    pub fn for_input(self, name: &str, input: &[u8]) -> Difference {
        Difference(format!("{}\n{name}, {} bytes:\n{}", self.0, input.len(), hex(input)))
    }
}

impl fmt::Display for Difference {
    fn fmt(&self, f: &mut fmt::Formatter) -> fmt::Result {
        write!(f, "{}", self.0)
    }
}

/// 32 bytes to a line, as `xxd -r -p` takes them.
fn hex(bytes: &[u8]) -> String {
    let line = |bytes: &[u8]| bytes.iter().map(|byte| format!("{byte:02x}")).collect::<String>();
    bytes.chunks(32).map(line).collect::<Vec<_>>().join("\n")
}
