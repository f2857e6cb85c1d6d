//! Files and standard input.

use std::ffi::OsStr;
use std::fs::File;
use std::io::{self, Read};
use std::os::unix::ffi::OsStrExt;

use crate::encoding::show_utf8;

/// More bytes are not read: neither a member nor a look has so many, and both are refused alike
/// whatever stands after them.
const MOST: u64 = 1_048_577;

pub struct Input {
    /// As it is shown.
    pub name: String,
    pub bytes: Vec<u8>,
}

/// Reads a file, or standard input for `-`.
pub fn read(argument: &OsStr) -> io::Result<Input> {
    let bytes = read_most(argument, MOST)?;
    Ok(Input { name: shown(argument), bytes })
}

/// All the bytes of a file that is neither member nor look.
pub fn read_whole(argument: &OsStr) -> io::Result<Vec<u8>> {
    read_most(argument, u64::MAX)
}

fn read_most(argument: &OsStr, most: u64) -> io::Result<Vec<u8>> {
    let mut bytes = Vec::new();
    if argument == "-" {
        io::stdin().lock().take(most).read_to_end(&mut bytes)?;
    } else {
        File::open(argument)?.take(most).read_to_end(&mut bytes)?;
    }
    Ok(bytes)
}

/// The name of a file as it is shown.
pub fn shown(argument: &OsStr) -> String {
    show_utf8(argument.as_bytes())
}
