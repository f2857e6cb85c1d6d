//! Where `table` shows each cell: leaves in file order, and cells where the library says.

mod common;

use common::{file, folder, run};
use digarumbi_bench::encode::{int32, int64, list, string};
use digarumbi_bench::parts::{axes, named_dimension, named_leaf, Parts, Section};

/// A Value that says this.
fn text(text: &str) -> Vec<u8> {
    [vec![0x58], string(text.as_bytes()), list(&[])].concat()
}

/// A dimension whose leaves stand in the file from the last leaf index to the first.
fn dimension(name: &str, n: u32) -> Vec<u8> {
    let leaf = |index| named_leaf(&text(&format!("{name}{index}")), index);
    let leaves: Vec<Vec<u8>> = (0..n).rev().map(leaf).collect();
    named_dimension(&text(name), &leaves)
}

/// A cell with a number.
fn cell(index: u32, number: f64) -> Vec<u8> {
    let value = [vec![0x01, 0x58], int32(0), number.to_le_bytes().to_vec()].concat();
    [int64(index.into()), value].concat()
}

/// What `table` shows of dimensions a, b and c of n leaves each, one on each axis, with cells by
/// their coordinates.
fn shown(test: &str, n: u32, cells: &[([u32; 3], f64)]) -> String {
    let dimensions = ["a", "b", "c"].map(|name| dimension(name, n));
    let cells: Vec<Vec<u8>> =
        cells.iter().map(|&([a, b, c], number)| cell((a * n + b) * n + c, number)).collect();
    let member = Parts::shortest_with(Section::Dimensions, list(&dimensions))
        .with(Section::Axes, axes([1, 1, 1], &[1, 2, 0]))
        .with(Section::Cells, list(&cells));
    let path = file(&folder(test), "m.bin", &member.bytes());
    let run = run(&["table", &path]);
    assert_eq!((&run.said[..], run.status), ("", 0));
    run.out
}

#[test]
fn all_lines() {
    let cells = [([0, 1, 1], 7.0), ([0, 0, 1], 5.0), ([1, 0, 0], 6.0)];
    let expected = "\
rows: c
columns: a

layer: b: b1
    a1  a0
----------
c1       7
c0

layer: b: b0
    a1  a0
----------
c1       5
c0   6
";
    assert_eq!(shown("all_lines", 2, &cells), expected);
}

/// 125,000 places: only lines with a cell are shown.
#[test]
fn lines_with_cells() {
    let cells = [([49, 30, 2], 1.0), ([7, 4, 49], 2.0), ([7, 30, 0], 3.0)];
    let expected = "\
rows: c
columns: a

layer: b: b30
     a49  a7
------------
c49
c2     1
c0         3

layer: b: b4
     a49  a7
------------
c49        2
c2
c0
";
    assert_eq!(shown("lines_with_cells", 50, &cells), expected);
}
