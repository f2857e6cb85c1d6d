//! Totals under the leaves of real members.

use digarumbi::lent::{self, TOTALS_ANSWER, TOTAL_ANSWER, TOTAL_RECORD};
use digarumbi::{read_member, Refusal, Table, Total};

/// Descriptive statistics of three variables: 16 leaves in dimension 1.
const STATISTICS: &[u8] = include_bytes!("../../../examples/spine_1.bin");
/// Frequencies of one variable, with their percentages.
const FREQUENCIES: &[u8] =
    include_bytes!("../../../crates/corpus_main/data/personnel_00_frequencies_2.bin");
/// Coefficients of a regression, of which none under the first leaf is a count.
const COEFFICIENTS: &[u8] = include_bytes!("../../../examples/spine_18.bin");

fn table(member: &[u8]) -> Table<'_> {
    read_member(member).expect("an accepted member")
}

fn counted(total: u64, numbers: u32, smallest: f64, largest: f64) -> Total {
    Total { total, numbers, texts: 0, missing: 0, smallest, largest }
}

#[test]
fn totals_of_counts() {
    let table = table(STATISTICS);
    assert_eq!(table.total(1, 0), Ok(counted(21, 3, 7.0, 7.0)));
    assert_eq!(table.total(1, 1), Ok(counted(0, 3, 0.0, 0.0)));
    assert_eq!(table.total(1, 15), Ok(counted(67, 3, 13.0, 28.0)));
}

#[test]
fn a_missing_cell_is_counted_apart() {
    let found = table(STATISTICS).total(1, 5);
    assert_eq!(found, Ok(Total { missing: 1, ..counted(3, 2, 1.0, 2.0) }));
}

#[test]
fn the_total_is_the_sum_of_the_cells_under_the_leaf() {
    let table = table(FREQUENCIES);
    let numbers = table.cells_under(0, 0).map(|cell| cell.value().unwrap().number().unwrap());
    let total = table.total(0, 0).unwrap();
    assert_eq!(total, counted(112, 4, 2.0, 56.0));
    assert_eq!(numbers.sum::<f64>(), total.total as f64);
}

#[test]
fn a_number_that_is_no_count_is_refused_at_its_value() {
    let table = table(COEFFICIENTS);
    for leaf in 0..2 {
        let refusal = table.total(0, leaf).unwrap_err();
        let first = table.cells_under(0, leaf as u32).next().unwrap();
        let place = first.value_bytes.bytes.as_ptr() as usize - COEFFICIENTS.as_ptr() as usize;
        assert_eq!((refusal.number, refusal.place as usize), (20, place));
    }
}

#[test]
fn all_leaves_at_once_as_one_by_one() {
    for member in [STATISTICS, FREQUENCIES, COEFFICIENTS] {
        let table = table(member);
        for (number, dimension) in table.dimensions.iter().enumerate() {
            let totals = table.totals(number).unwrap();
            assert_eq!(totals.len(), dimension.n as usize);
            for (leaf, total) in totals.into_iter().enumerate() {
                assert_eq!(total, table.total(number, leaf));
            }
        }
    }
}

#[test]
fn numbers_out_of_range_are_refused() {
    let table = table(STATISTICS);
    let no = Refusal { number: 19, place: 0, nodes: 0, cells: 0 };
    let above = 1 << 32;
    for (dimension, leaf) in
        [(2, 0), (1, 16), (0, 3), (usize::MAX, 0), (1, usize::MAX), (above, 0), (1, above)]
    {
        assert_eq!(table.total(dimension, leaf), Err(no));
    }
    for dimension in [2, usize::MAX, above] {
        assert_eq!(table.totals(dimension), Err(no));
    }
}

#[test]
fn lent_areas_that_are_too_small() {
    let (nodes, cells) = (20 * 7, 48 * 3);
    let refused = |node_words: usize, cell_words: usize, total_words: usize| {
        let (mut one, mut all) = ([7; TOTAL_ANSWER], [7; TOTALS_ANSWER]);
        let (mut nodes, mut cells) = (vec![7; node_words], vec![7; cell_words]);
        let mut totals = vec![7; total_words];
        lent::totals(STATISTICS, 1, &mut all, &mut totals, &mut nodes, &mut cells);
        assert!(nodes.iter().chain(&cells).chain(&totals).all(|&word| word == 7));
        lent::total(STATISTICS, 1, 0, &mut one, &mut nodes, &mut cells);
        (one[..4].to_vec(), all)
    };
    let room = 16 * TOTAL_RECORD;
    assert_eq!(refused(nodes - 1, cells, room), (vec![12, 0, 20, 48], [12, 0, 20, 48, 0]));
    assert_eq!(refused(nodes, cells - 1, room), (vec![13, 0, 20, 48], [13, 0, 20, 48, 0]));
    assert_eq!(refused(nodes, cells, room - 1), (vec![0, 0, 20, 48], [15, 0, 0, 0, 16]));
}

#[test]
fn answers_that_are_too_short() {
    let mut answer = [7; TOTAL_ANSWER];
    let (one, all) = (TOTAL_ANSWER - 1, TOTALS_ANSWER - 1);
    assert_eq!(lent::total(STATISTICS, 1, 0, &mut answer[..one], &mut [], &mut []), 0);
    assert_eq!(lent::totals(STATISTICS, 1, &mut answer[..all], &mut [], &mut [], &mut []), 0);
    assert_eq!(answer, [7; TOTAL_ANSWER]);
}
