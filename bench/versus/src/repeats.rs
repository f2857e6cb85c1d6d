//! Made members in which cell indexes stand twice.

use crate::large::{
    alike_in_low_bits, large_unordered, member_with_large_indexes, shuffled, LARGE_PLACES,
};

/// Bytes to leave out at the end: none; so many that the last Value is cut, missing, or missing
/// with some of its index; and the same of the cell before.
pub const CUT_BYTES: [usize; 6] = [0, 1, 14, 15, 23, 36];

/// The numbers of cells: those at which the test of repeats goes another way, and ones next to
/// them.
const NUMBERS_OF_CELLS: [u64; 9] = [2, 16, 17, 32, 33, 34, 512, 513, 4_096];

/// Large indexes in no order, where none repeats another or one does; and the same with an index
/// that is too large besides.
pub fn members_with_repeats() -> Vec<(String, Vec<u8>)> {
    let mut members = Vec::new();
    for cells in NUMBERS_OF_CELLS {
        for (order, indexes) in [
            ("unordered", large_unordered(cells)),
            ("alike in low bits", alike_in_low_bits(cells)),
            ("small but for the last", small_but_for_the_last(cells)),
        ] {
            let mut add = |name: String, indexes: &[u64]| {
                members.push((name, member_with_large_indexes(indexes)));
            };
            let name = format!("{cells} indexes, {order}");
            add(name.clone(), &indexes);
            let last = cells as usize - 1;
            for (from, to) in places_of_repeats(last) {
                let mut repeated = indexes.clone();
                repeated[to] = repeated[from];
                add(format!("{name}, {to} as {from}"), &repeated);
                // An index past the table after the repeat, and before it.
                for bad in [last, to.saturating_sub(1)] {
                    let mut bad_too = repeated.clone();
                    bad_too[bad] = LARGE_PLACES;
                    add(format!("{name}, {to} as {from}, {bad} too large"), &bad_too);
                }
                let mut twice = repeated.clone();
                twice[last] = twice[last / 2];
                add(format!("{name}, {to} as {from}, {last} as {}", last / 2), &twice);
            }
        }
    }
    members
}

/// Small indexes in no order, and a large one.
fn small_but_for_the_last(cells: u64) -> Vec<u64> {
    let mut indexes = shuffled(cells);
    indexes[cells as usize - 1] = LARGE_PLACES - 1;
    indexes
}

/// An earlier place and a later one, up to the last.
fn places_of_repeats(last: usize) -> Vec<(usize, usize)> {
    let mut places =
        vec![(0, 1), (0, last), (last - 1, last), (last / 2, last / 2 + 1), (0, last / 2)];
    places.retain(|(from, to)| from < to);
    places
}
