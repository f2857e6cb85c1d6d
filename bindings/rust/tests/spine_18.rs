//! A real member, examples/spine_18.bin: coefficients of a regression.

use digarumbi::{lent, part, read_member, Axes, NodeKind, Refusal, Table, Value};

const MEMBER: &[u8] = include_bytes!("../../../examples/spine_18.bin");

fn table() -> Table<'static> {
    read_member(MEMBER).expect("an accepted member")
}

fn text(value: Result<Value, Refusal>) -> String {
    value.expect("a Value of an accepted member").to_string()
}

#[test]
fn dimensions_and_axes() {
    let table = table();
    let dimensions: Vec<_> =
        table.dimensions.iter().map(|d| (text(d.name()), d.n, d.nodes.clone())).collect();
    let expected = [("Statistics".to_string(), 5, 0..7), ("Variables".to_string(), 2, 7..9)];
    assert_eq!(dimensions, expected);
    assert_eq!(table.axes, Axes { layers: vec![], rows: vec![1], columns: vec![0] });
    assert_eq!(table.version, 3);
}

#[test]
fn categories_in_file_order() {
    let table = table();
    let nodes: Vec<_> = table
        .categories(0)
        .iter()
        .map(|node| (table.depth(node), text(node.name()), node.kind, node.parent))
        .collect();
    let leaf = |index| NodeKind::Leaf { index };
    let group = |children| NodeKind::Group { children };
    let expected = [
        (0, "Unstandardized Coefficients", group(2), None),
        (1, "B", leaf(0), Some(0)),
        (1, "Std. Error", leaf(1), Some(0)),
        (0, "Standardized Coefficients", group(1), None),
        (1, "Beta", leaf(2), Some(3)),
        (0, "t", leaf(3), None),
        (0, "Sig.", leaf(4), None),
    ]
    .map(|(depth, name, kind, parent)| (depth, name.to_string(), kind, parent));
    assert_eq!(nodes, expected);
    assert!(table.nodes.iter().enumerate().all(|(i, node)| node.dimension == usize::from(i >= 7)));
}

#[test]
fn groups_are_skipped() {
    let table = table();
    let below: Vec<_> = table.nodes.iter().map(|node| node.below.len()).collect();
    assert_eq!(below, [2, 0, 0, 1, 0, 0, 0, 0, 0]);
    assert_eq!(table.top(0).collect::<Vec<_>>(), [0, 3, 5, 6]);
    assert_eq!(table.top(1).collect::<Vec<_>>(), [7, 8]);
    for (i, node) in table.nodes.iter().enumerate() {
        let children = (0..table.nodes.len()).filter(|&j| table.nodes[j].parent == Some(i));
        assert!(table.children(node).eq(children));
    }
}

#[test]
fn bad_words_are_not_followed() {
    let record = |size| [1, 0, u32::MAX, 0, 0, 0, size];
    let nodes = [record(0), record(4), record(u32::MAX), record(2)];
    let after = |count, i| lent::node_after(nodes.as_flattened(), count, i);
    assert_eq!([0, 1, 2, 3].map(|i| after(4, i)), [4; 4]);
    assert_eq!([after(4, 4), after(5, 0), after(0, 0), after(4, usize::MAX)], [4, 5, 0, 4]);
    assert_eq!(lent::children(nodes.as_flattened(), 4, 0).collect::<Vec<_>>(), [1]);
    assert_eq!(lent::children(nodes.as_flattened(), 4, usize::MAX).count(), 0);
}

#[test]
fn cells_and_their_coordinates() {
    let table = table();
    let indexes: Vec<u32> = table.cells.iter().map(|cell| cell.index).collect();
    assert_eq!(indexes, [2, 5, 9, 6, 7, 0, 8, 1, 3, 4]);
    assert_eq!(table.coordinates(&table.cells[2]), [4, 1]);
    assert_eq!(text(table.cells[9].value()), "0");
    for cell in &table.cells {
        let k = table
            .coordinates(cell)
            .iter()
            .zip(&table.dimensions)
            .fold(0, |k, (x, dimension)| dimension.n * k + x);
        assert_eq!(k, cell.index);
    }
}

#[test]
fn each_cell_is_under_one_leaf_of_each_dimension() {
    let table = table();
    for (number, dimension) in table.dimensions.iter().enumerate() {
        let found: usize =
            (0..dimension.n).map(|leaf| table.cells_under(number, leaf).count()).sum();
        assert_eq!(found, table.cells.len());
    }
    assert_eq!(table.cells_under(0, 5).count(), 0);
    assert_eq!(table.cells_under(2, 0).count(), 0);
}

#[test]
fn refusals() {
    assert_eq!(read_member(&[]).unwrap_err().to_string(), "refused 2 at 0");
    assert_eq!(read_member(&[1, 0, 1, 0, 0, 0]).unwrap_err().to_string(), "refused 2 at 6");
    assert_eq!(read_member(&[1, 0, 2, 0, 0, 0]).unwrap_err().to_string(), "refused 4 at 2");
    let longer = [MEMBER, &[0]].concat();
    assert_eq!(read_member(&longer).unwrap_err().to_string(), "refused 11 at 2456");
}

#[test]
fn lent_areas_that_are_too_small() {
    let refused = |node_words: usize, cell_words: usize| {
        let mut answer = [7; lent::MEMBER_ANSWER];
        let (mut nodes, mut cells) = (vec![7; node_words], vec![7; cell_words]);
        assert_eq!(lent::read_member(MEMBER, &mut answer, &mut nodes, &mut cells), answer.len());
        assert!(nodes.iter().chain(&cells).all(|&word| word == 7));
        answer[..5].to_vec()
    };
    assert_eq!(refused(62, 30), [12, 0, 0, 9, 10]);
    assert_eq!(refused(63, 29), [13, 0, 0, 9, 10]);
    assert_eq!(lent::read_member(MEMBER, &mut [7; 87], &mut [], &mut []), 0);
}

#[test]
fn parts() {
    assert_eq!(part(MEMBER, 0, 2), [1, 0]);
    assert_eq!(part(MEMBER, MEMBER.len() - 1, 1), [0]);
    assert_eq!(part(MEMBER, MEMBER.len(), 1), []);
    assert_eq!(part(MEMBER, usize::MAX, usize::MAX), []);
}

#[test]
fn numbers_out_of_range_give_nothing() {
    let table = table();
    for dimension in [2, usize::MAX] {
        assert!(table.categories(dimension).is_empty());
        assert_eq!(table.top(dimension).count(), 0);
        assert_eq!(table.cells_under(dimension, 0).count(), 0);
    }
    let mut node = table.nodes[0].clone();
    node.below = 5..usize::MAX;
    assert_eq!(table.children(&node).collect::<Vec<_>>(), [5, 6, 7, 8]);
    node.below = usize::MAX..usize::MAX;
    assert_eq!(table.children(&node).count(), 0);
    node.parent = Some(usize::MAX);
    assert_eq!(table.depth(&node), 0);
}

#[test]
fn a_changed_table_is_gone_through_to_an_end() {
    let mut table = table();
    let cell = table.cells[0].clone();
    table.dimensions[0].n = 0;
    assert_eq!(table.coordinates(&cell), [0, 0]);
    table.nodes[0].parent = Some(0);
    assert_eq!(table.depth(&table.nodes[0]), table.nodes.len());
    table.nodes[0].below = 0..0;
    assert_eq!(table.top(0).collect::<Vec<_>>(), [0, 1, 2, 3, 5, 6]);
    table.dimensions[0].nodes = 3..100;
    assert!(table.categories(0).is_empty());
    assert_eq!(table.top(0).collect::<Vec<_>>(), [3, 5, 6, 7, 8]);
}
