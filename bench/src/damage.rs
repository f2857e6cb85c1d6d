//! Damages a run of bytes: bytes changed, cut off, inserted or removed.

use crate::random::Random;

/// A damaged copy; it may by chance be the same or still be acceptable.
pub fn damaged(bytes: &[u8], random: &mut Random) -> Vec<u8> {
    let mut damaged = bytes.to_vec();
    match random.below(8) {
        0 => damaged.truncate(random.size(bytes.len())),
        1 => insert(&mut damaged, random),
        2 => remove(&mut damaged, random),
        _ => change(&mut damaged, random),
    }
    damaged
}

/// Changes 1 to 4 bytes.
fn change(bytes: &mut [u8], random: &mut Random) {
    if bytes.is_empty() {
        return;
    }
    for _ in 0..=random.size(3) {
        let place = random.size(bytes.len() - 1);
        bytes[place] = match random.below(5) {
            0 => bytes[place].wrapping_add(1),
            1 => bytes[place].wrapping_sub(1),
            2 => 0,
            _ => random.byte(),
        };
    }
}

/// Inserts 1 to 4 bytes.
fn insert(bytes: &mut Vec<u8>, random: &mut Random) {
    let place = random.size(bytes.len());
    let length = 1 + random.size(3);
    let inserted = random.bytes(length);
    bytes.splice(place..place, inserted);
}

/// Removes up to 4 bytes.
fn remove(bytes: &mut Vec<u8>, random: &mut Random) {
    let place = random.size(bytes.len());
    let end = bytes.len().min(place + 1 + random.size(3));
    bytes.drain(place..end);
}
