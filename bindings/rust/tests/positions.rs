//! Positions of the cells of a real member, examples/spine_18.bin, on its own axes and on others.

use std::collections::HashSet;

use digarumbi::{lent, read_member, Axes, Position, Refusal, Table};

const MEMBER: &[u8] = include_bytes!("../../../examples/spine_18.bin");

fn table() -> Table<'static> {
    read_member(MEMBER).expect("an accepted member")
}

fn axes(layers: &[usize], rows: &[usize], columns: &[usize]) -> Axes {
    Axes { layers: layers.to_vec(), rows: rows.to_vec(), columns: columns.to_vec() }
}

/// All axes of two dimensions.
fn every_axes() -> Vec<Axes> {
    let mut every = Vec::new();
    for order in [[0, 1], [1, 0]] {
        for first in 0..=2 {
            for second in first..=2 {
                every.push(axes(&order[..first], &order[first..second], &order[second..]));
            }
        }
    }
    every
}

#[test]
fn variables_in_rows_and_statistics_in_columns() {
    let table = table();
    assert_eq!(table.axes, axes(&[], &[1], &[0]));
    for cell in &table.cells {
        let coordinates = table.coordinates(cell);
        let expected = Position { layer: 0, row: coordinates[1], column: coordinates[0] };
        assert_eq!(table.position(cell), Ok(expected));
    }
}

#[test]
fn turned_and_back() {
    let table = table();
    for axes in every_axes() {
        let turned = table.turned(axes.clone()).expect("axes of two dimensions");
        assert_eq!((&turned.axes, &turned.cells), (&axes, &table.cells));
        let positions: HashSet<Position> =
            table.cells.iter().map(|cell| turned.position(cell).unwrap()).collect();
        assert_eq!(positions.len(), table.cells.len());
        for cell in &table.cells {
            let position = turned.position(cell).expect("a cell of the table");
            assert_eq!(turned.index(position), Ok(cell.index));
        }
        assert_eq!(turned.turned(table.axes.clone()), Ok(table.clone()));
    }
}

#[test]
fn an_inner_dimension_changes_fastest() {
    let table = table();
    // statistic 2 of variable 1, of 5 statistics and 2 variables
    let cell = table.cells.iter().find(|cell| cell.index == 5).expect("a cell with index 5");
    assert_eq!(table.coordinates(cell), [2, 1]);
    let position = |axes| {
        let turned = table.turned(axes).expect("axes of two dimensions");
        let Position { layer, row, column } = turned.position(cell).expect("a cell of the table");
        (layer, row, column)
    };
    assert_eq!(position(axes(&[], &[0, 1], &[])), (0, 2 + 5, 0));
    assert_eq!(position(axes(&[], &[], &[1, 0])), (0, 0, 1 + 2 * 2));
    assert_eq!(position(axes(&[1], &[], &[0])), (1, 0, 2));
}

#[test]
fn axes_that_are_refused() {
    let table = table();
    let number = |axes| table.turned(axes).map_err(|refusal: Refusal| refusal.to_string());
    let refused = Err("refused 9 at 0".to_string());
    for wrong in [
        axes(&[], &[0], &[]),
        axes(&[], &[0], &[0]),
        axes(&[1], &[0], &[1]),
        axes(&[], &[0], &[2]),
        axes(&[], &[0], &[usize::MAX]),
        axes(&[], &[0], &[1 << 32]),
    ] {
        assert_eq!(number(wrong), refused);
    }
}

#[test]
fn positions_outside() {
    let table = table();
    for (layer, row, column) in [(1, 0, 0), (0, 2, 0), (0, 0, 5), (u32::MAX, 0, 0)] {
        let refusal = table.index(Position { layer, row, column }).unwrap_err();
        assert_eq!(refusal.to_string(), "refused 10 at 0");
    }
    assert_eq!(table.index(Position { layer: 0, row: 1, column: 4 }), Ok(9));
}

/// The refusals in their order, and answers that are too short.
#[test]
fn words() {
    let position = |ns: &[u32], counts, order: &[u32], index| {
        let mut answer = [7; 6];
        assert_eq!(lent::position(ns, counts, order, index, &mut answer), 5);
        assert_eq!(answer[5], 7);
        (answer[0], [answer[1], answer[2], answer[3], answer[4]])
    };
    assert_eq!(position(&[1; 17], [9, 9, 9], &[], 0), (7, [0; 4]));
    assert_eq!(position(&[65_536, 65_536], [9, 9, 9], &[], 0), (7, [0; 4]));
    assert_eq!(position(&[65_536, 65_536, 0], [1, 1, 1], &[0, 1, 1], 0), (9, [0; 4]));
    assert_eq!(position(&[65_536, 65_536, 0], [1, 1, 1], &[0, 2, 1], 0), (10, [0; 4]));
    assert_eq!(position(&[2], [u32::MAX, 1, 1], &[0], 0), (9, [0; 4]));
    assert_eq!(position(&[u32::MAX], [0, 0, 1], &[0], u32::MAX - 1), (0, [0, 0, 0, u32::MAX - 1]));
    assert_eq!(position(&[], [0; 3], &[], 0), (0, [0; 4]));
    assert_eq!(position(&[], [0; 3], &[], 1), (10, [0; 4]));
    let mut answer = [7; 4];
    assert_eq!((lent::position(&[], [0; 3], &[], 0, &mut answer), answer), (0, [7; 4]));
    let mut answer = [7; 2];
    assert_eq!((lent::index(&[], [0; 3], &[], [0; 3], &mut answer), answer), (0, [7; 2]));
    let mut answer = [7; 3];
    assert_eq!((lent::index(&[], [0; 3], &[], [0; 3], &mut answer), answer), (3, [0; 3]));
}
