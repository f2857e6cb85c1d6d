//! Encodings of single fields and counted regions.

pub fn int16(number: u16) -> Vec<u8> {
    number.to_le_bytes().to_vec()
}

pub fn int32(number: u32) -> Vec<u8> {
    number.to_le_bytes().to_vec()
}

pub fn be32(number: u32) -> Vec<u8> {
    number.to_be_bytes().to_vec()
}

pub fn int64(number: u64) -> Vec<u8> {
    number.to_le_bytes().to_vec()
}

/// Several little-endian 32-bit numbers.
pub fn int32s(numbers: &[u32]) -> Vec<u8> {
    numbers.iter().flat_map(|&number| int32(number)).collect()
}

/// Several big-endian 32-bit numbers.
pub fn be32s(numbers: &[u32]) -> Vec<u8> {
    numbers.iter().flat_map(|&number| be32(number)).collect()
}

pub fn string(text: &[u8]) -> Vec<u8> {
    [&int32(text.len() as u32)[..], text].concat()
}

pub fn bestring(text: &[u8]) -> Vec<u8> {
    [&be32(text.len() as u32)[..], text].concat()
}

/// A little-endian count and its region.
pub fn count(content: &[u8]) -> Vec<u8> {
    string(content)
}

/// A big-endian count and its region.
pub fn becount(content: &[u8]) -> Vec<u8> {
    bestring(content)
}

/// The number of entries and the entries.
pub fn list(entries: &[Vec<u8>]) -> Vec<u8> {
    [int32(entries.len() as u32), entries.concat()].concat()
}

/// The number of entries, big-endian, and the entries.
pub fn be_list(entries: &[Vec<u8>]) -> Vec<u8> {
    [be32(entries.len() as u32), entries.concat()].concat()
}
