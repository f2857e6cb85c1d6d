//! Made members of a chosen size.

use std::collections::HashSet;
use std::iter;

use digarumbi_bench::encode::{count, int32, int32s, int64, list, string};
use digarumbi_bench::parts::*;
use digarumbi_bench::random::Random;

/// The shortest member whose title is the Value `title`.
fn titled(title: Vec<u8>) -> Vec<u8> {
    let rest = titles()[template().len()..].to_vec();
    Parts::shortest_with(Section::Titles, [title, rest].concat()).bytes()
}

/// The Value of a number, 14 bytes.
fn number(x: f64) -> Vec<u8> {
    [vec![0x01, 0x58], int32(0x0005_2802), x.to_bits().to_le_bytes().to_vec()].concat()
}

/// A member with a table of these dimensions and cells with these indexes, each with a number.
fn table_with_cells(leaves: &[u32], indexes: &[u64]) -> Vec<u8> {
    let cells: Vec<Vec<u8>> =
        indexes.iter().map(|&index| [int64(index), number(index as f64)].concat()).collect();
    table(leaves, &[]).with(Section::Cells, list(&cells)).bytes()
}

/// A member with a table of 64 by 64 and cells with these indexes.
pub fn member_with_cells(indexes: &[u64]) -> Vec<u8> {
    table_with_cells(&[64, 64], indexes)
}

/// The places of the table of `member_with_large_indexes`.
pub const LARGE_PLACES: u64 = 3 << 30;

/// A member with a table of 16 dimensions, which has `LARGE_PLACES` places, and cells with these
/// indexes.
pub fn member_with_large_indexes(indexes: &[u64]) -> Vec<u8> {
    let mut leaves = [4; 16];
    leaves[0] = 3;
    table_with_cells(&leaves, indexes)
}

/// The same in version 1, with five zero bytes before the raw form of each cell's Value.
pub fn version_1_with_cells(indexes: &[u64]) -> Vec<u8> {
    let value = |index: u64| [vec![0; 5], number(index as f64)].concat();
    let cells: Vec<Vec<u8>> =
        indexes.iter().map(|&index| [int64(index), value(index)].concat()).collect();
    table(&[64, 64], &[]).in_version_1().with(Section::Cells, list(&cells)).bytes()
}

/// A member of version 1 of exactly this many bytes, at least 1,000, nearly all in the free region
/// of TableSettings.
pub fn version_1_with_free_bytes(bytes: usize) -> Vec<u8> {
    let shortest = Parts::shortest_version_1();
    let free = Random::new(1).bytes(bytes - shortest.bytes().len());
    shortest.with(Section::TableSettings, count(&free)).bytes()
}

/// Indexes from 0 on, in ascending order.
pub fn ascending(cells: u64) -> Vec<u64> {
    (0..cells).collect()
}

/// The same indexes in another order.
pub fn shuffled(cells: u64) -> Vec<u64> {
    let mut indexes = ascending(cells);
    Random::new(1).shuffle(&mut indexes);
    indexes
}

/// Different indexes below `LARGE_PLACES`, in no order.
pub fn large_unordered(cells: u64) -> Vec<u64> {
    let mut random = Random::new(2);
    let mut seen = HashSet::new();
    iter::repeat_with(|| random.below(LARGE_PLACES))
        .filter(|&index| seen.insert(index))
        .take(cells as usize)
        .collect()
}

/// Different indexes in no order whose 18 low bits are 0.
pub fn alike_in_low_bits(cells: u64) -> Vec<u64> {
    shuffled(cells).into_iter().map(|index| index << 18).collect()
}

/// A member with this many nodes, which is a multiple of 8: leaves that each stand in seven groups.
pub fn member_with_nested_categories(nodes: u32) -> Vec<u8> {
    let nested = |index| (0..7).fold(leaf(index), |category, _| group(&[category]));
    let categories: Vec<Vec<u8>> = (0..nodes / 8).map(nested).collect();
    table_of(&[dimension(&categories)], &[]).bytes()
}

/// A member with one dimension, whose categories are leaves with these indexes.
pub fn member_with_leaves(indexes: impl Iterator<Item = u32>) -> Vec<u8> {
    let categories: Vec<Vec<u8>> = indexes.map(leaf).collect();
    table_of(&[dimension(&categories)], &[]).bytes()
}

/// A member in which the name of a leaf that stands in seven groups is a Value with seven others
/// inside it: both limits of depth at once.
pub fn deepest_member() -> Vec<u8> {
    let level = [vec![0x58], string(b""), int32s(&[1, 0])].concat();
    let name = [level.repeat(7), template()].concat();
    let nested = (0..7).fold(named_leaf(&name, 0), |category, _| group(&[category]));
    table_of(&[dimension(&[nested])], &[0]).bytes()
}

/// The shortest title with these subscripts, each a string.
fn title_with_subscripts(subscripts: &[Vec<u8>]) -> Vec<u8> {
    let styles = [count(&[]), vec![0x58, 0x58]].concat();
    let modifiers = [vec![0x31], list(&[]), list(subscripts), count(&styles)].concat();
    [modifiers, string(b""), list(&[])].concat()
}

/// A member of exactly this many bytes, at least 1,000, nearly all in strings of 12 letters.
pub fn member_of_strings(bytes: usize) -> Vec<u8> {
    let letters = string(b"twelve bytes");
    let rest = bytes - titled(title_with_subscripts(&[])).len();
    let mut subscripts = vec![letters.clone(); rest / letters.len() - 1];
    // The last string is longer by what is left.
    let last = 12 + rest % letters.len();
    subscripts.push(string(&vec![b'x'; last]));
    titled(title_with_subscripts(&subscripts))
}

#[cfg(test)]
mod tests {
    use super::*;
    use digarumbi_bench::line::{line, read};

    fn read_line(member: &[u8]) -> String {
        line(&read(member).answer)
    }

    #[test]
    fn cells() {
        let expected = "accepted 2 dims 128 nodes 256 cells";
        assert_eq!(read_line(&member_with_cells(&ascending(256))), expected);
        assert_eq!(read_line(&member_with_cells(&shuffled(256))), expected);
    }

    #[test]
    fn version_1() {
        let expected = "accepted 2 dims 128 nodes 256 cells";
        assert_eq!(read_line(&version_1_with_cells(&shuffled(256))), expected);
        let member = version_1_with_free_bytes(65_536);
        assert_eq!(member.len(), 65_536);
        assert_eq!(read_line(&member), "accepted 0 dims 0 nodes 0 cells");
    }

    #[test]
    fn large_indexes() {
        let expected = "accepted 16 dims 63 nodes 256 cells";
        assert_eq!(read_line(&member_with_large_indexes(&large_unordered(256))), expected);
        assert_eq!(read_line(&member_with_large_indexes(&alike_in_low_bits(256))), expected);
    }

    #[test]
    fn nested_categories() {
        let expected = "accepted 1 dims 1024 nodes 0 cells";
        assert_eq!(read_line(&member_with_nested_categories(1_024)), expected);
    }

    #[test]
    fn deepest() {
        assert_eq!(read_line(&deepest_member()), "accepted 1 dims 8 nodes 1 cells");
    }

    #[test]
    fn strings() {
        for bytes in [1_000, 1_001, 40_000, 65_535, 65_536] {
            let member = member_of_strings(bytes);
            assert_eq!(member.len(), bytes);
            assert_eq!(read_line(&member), "accepted 0 dims 0 nodes 0 cells");
        }
    }
}
