//! Cells and the number of places in the table.

use super::Cases;
use crate::encode::*;
use crate::parts::*;
use Section::*;

pub fn add(cases: &mut Cases) {
    cell_cases(cases);
    index_cases(cases);
    product_cases(cases);
}

fn cell_cases(cases: &mut Cases) {
    cases.refuse("cells_4097", 7, &Parts::shortest_with(Cells, int32(4_097)), Cells, 0);
    let cut = Parts::shortest_with(Cells, int32(4_096));
    cases.refuse("cells_4096_cut", 2, &cut, Cells, 4);
    // A late cell is refused after good dimensions and cells.
    let late = table(&[2], &[0, 1]).with_byte(Cells, 4 + 17 + 8, 0x07);
    cases.refuse("cell_value_of_last_cell", 3, &late, Cells, 4 + 17 + 8);
    // The cell's index is refused before its Value is read.
    let index = list(&[[int64(9), vec![0xff]].concat()]);
    cases.refuse("cell_index_before_value", 10, &table(&[2], &[]).with(Cells, index), Cells, 4);
    let value = [vec![0, 1, 0x58], int32(0), 3f64.to_le_bytes().to_vec()].concat();
    let content = list(&[[int64(1), value].concat(), cell(0)]);
    let numbers = table(&[2], &[]).with(Cells, content).with(Ending, vec![1]);
    cases.accept("cells_number_and_template", &numbers, [1, 2, 2]);
    cases.refuse("cells_one_left", 11, &numbers.with(Ending, cell(0)), Ending, 0);
}

fn index_cases(cases: &mut Cases) {
    cases.accept("cell_3_4_5_index_33_59", &table(&[3, 4, 5], &[33, 59]), [3, 12, 2]);
    cases.refuse("cell_3_4_5_index_60", 10, &table(&[3, 4, 5], &[59, 60]), Cells, 4 + 17);
    cases.refuse("cell_index_repeated_later", 10, &table(&[3], &[0, 1, 0]), Cells, 4 + 2 * 17);
    cases.refuse("cell_index_above_32_bits", 10, &table(&[3], &[1, (1 << 32) + 2]), Cells, 4 + 17);
    cases.refuse("cell_index_minus_1", 10, &table(&[3], &[u64::MAX]), Cells, 4);
    cases.accept("cell_no_dimensions_index_0", &table(&[], &[0]), [0, 0, 1]);
    cases.refuse("cell_no_dimensions_index_1", 10, &table(&[], &[1]), Cells, 4);
    cases.accept("cell_3_0_5_no_cells", &table(&[3, 0, 5], &[]), [3, 8, 0]);
    cases.refuse("cell_3_0_5_index_0", 10, &table(&[3, 0, 5], &[0]), Cells, 4);
}

/// These need 2,700 bytes and more: 16 dimensions can't pass the limit with fewer leaves.
fn product_cases(cases: &mut Cases) {
    let over = table(&[4; 16], &[]);
    cases.refuse("product_4_to_the_16", 7, &over, Axes, 0);
    cases.refuse_cut("product_4_to_the_16_no_byte_left", 7, &over, (Axes, 0), 0);
    let mut below = [4; 16];
    below[0] = 3;
    let last = 3 * (1 << 30) - 1;
    cases.accept("product_3_times_4_to_the_15", &table(&below, &[last]), [16, 63, 1]);
    // The product of the others passes the limit before the 0 is met.
    let mut zero = [5; 16];
    zero[..8].fill(4);
    zero[15] = 0;
    cases.accept("product_0_after_large_product", &table(&zero, &[]), [16, 67, 0]);
    // The product of the others does not fit in 64 bits.
    let mut zero = [20; 16];
    zero[15] = 0;
    cases.accept("product_0_after_64_bits", &table(&zero, &[]), [16, 300, 0]);
}
