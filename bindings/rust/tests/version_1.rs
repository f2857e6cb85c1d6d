//! Members of version 1, made by hand: `bench/src/vectors/version_1.rs`.

use digarumbi::{read_member, Axes, NodeKind, Refusal, Value};

/// Two dimensions with two leaves each, one of them in a group, and two cells.
const ALL: &[u8] = include_bytes!("../../../crates/corpus_main/data/v320_v1_all.bin");
const SHORTEST: &[u8] = include_bytes!("../../../crates/corpus_main/data/v317_v1_shortest.bin");

fn refusal(member: &[u8]) -> String {
    read_member(member).map_err(|refusal: Refusal| refusal.to_string()).unwrap_err()
}

fn text(value: Result<Value, Refusal>) -> String {
    value.expect("a Value of an accepted member").to_string()
}

#[test]
fn the_table_says_its_version() {
    assert_eq!(read_member(ALL).expect("an accepted member").version, 1);
    assert_eq!(read_member(SHORTEST).expect("an accepted member").version, 1);
    let version_3 = include_bytes!("../../../crates/corpus_main/data/v011_shortest.bin");
    assert_eq!(read_member(version_3).expect("an accepted member").version, 3);
}

#[test]
fn dimensions_and_nodes() {
    let table = read_member(ALL).expect("an accepted member");
    let dimensions: Vec<_> = table.dimensions.iter().map(|d| (d.n, d.nodes.clone())).collect();
    assert_eq!(dimensions, [(2, 0..3), (2, 3..5)]);
    assert_eq!(text(table.dimensions[0].name()), "Vertebra");
    assert_eq!(table.axes, Axes { layers: vec![], rows: vec![0, 1], columns: vec![] });
    let kinds: Vec<_> = table.nodes.iter().map(|node| node.kind).collect();
    let leaf = |index| NodeKind::Leaf { index };
    let group = NodeKind::Group { children: 1 };
    assert_eq!(kinds, [leaf(1), group, leaf(0), leaf(0), leaf(1)]);
}

/// A cell's Value begins at the first of the five zero bytes.
#[test]
fn cells_with_five_zero_bytes() {
    let table = read_member(ALL).expect("an accepted member");
    let indexes: Vec<u32> = table.cells.iter().map(|cell| cell.index).collect();
    assert_eq!(indexes, [3, 0]);
    let value = table.cells[0].value_bytes.bytes;
    assert_eq!((value.len(), &value[..7]), (19, &[0, 0, 0, 0, 0, 1, 0x58][..]));
    assert_eq!(text(table.cells[0].value()), "3");
    assert_eq!(table.cells[1].value_bytes.bytes.len(), 9);
}

#[test]
fn refusals() {
    let changed = |place: usize, byte: u8| {
        let mut member = SHORTEST.to_vec();
        member[place] = byte;
        member
    };
    assert_eq!(refusal(&changed(2, 2)), "refused 4 at 2");
    assert_eq!(refusal(&changed(5, 1)), "refused 4 at 2");
    // The title begins with 58; with 31 it has a modifier that version 1 is without.
    assert_eq!(refusal(&changed(39, 0x31)), "refused 4 at 39");
    assert_eq!(refusal(&changed(39, 0x30)), "refused 3 at 39");
    // Read by version 3 the first area has margins, and the next area does not begin after them.
    assert_eq!(refusal(&changed(2, 3)), "refused 3 at 129");
}
