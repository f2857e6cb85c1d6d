//! Dimensions, categories and axes.

use super::Cases;
use crate::encode::*;
use crate::parts::*;
use Section::*;

pub fn add(cases: &mut Cases) {
    dimension_cases(cases);
    category_cases(cases);
    leaf_index_cases(cases);
    depth_cases(cases);
    axis_cases(cases);
}

/// Where the categories of the first dimension start in Dimensions.
const FIRST: usize = 4 + 26;

fn dimension_cases(cases: &mut Cases) {
    cases.accept("dimensions_one_leaf_one_cell", &table(&[1], &[0]), [1, 1, 1]);
    cases.accept("dimensions_16_without_leaves", &table(&[0; 16], &[]), [16, 0, 0]);
    cases.refuse("dimensions_17", 7, &table(&[0; 17], &[]), Dimensions, 0);
    let one = table(&[1], &[]);
    let changed = |offset, byte| one.clone().with_byte(Dimensions, offset, byte);
    cases.refuse("dimension_hide_dim_label", 5, &changed(4 + 9 + 6, 2), Dimensions, 4 + 9 + 6);
    cases.refuse("dimension_hide_all_labels", 5, &changed(4 + 9 + 7, 2), Dimensions, 4 + 9 + 7);
    cases.refuse("dimension_fixed_01", 3, &changed(4 + 9 + 8, 0), Dimensions, 4 + 9 + 8);
    let name = [vec![0, 0, 5, 0x58], string(b"v"), string(b"Vertebra"), vec![0]].concat();
    let leaf_name = [vec![0; 4], template()].concat();
    let named = named_dimension(&name, &[named_leaf(&leaf_name, 0)]);
    cases.accept("dimension_names_with_zeros", &table_of(&[named], &[0]), [1, 1, 1]);
    cases.refuse_cut("dimension_categories_cut", 2, &table(&[2], &[]), (Dimensions, FIRST + 24), 0);
}

fn category_cases(cases: &mut Cases) {
    let one = table(&[1], &[]);
    let mark = |mark: [u8; 3]| {
        let bytes = [template(), mark.to_vec(), int32s(&[2, 0, 0])].concat();
        table_of(&[dimension(&[bytes])], &[])
    };
    cases.refuse("category_mark_01_00_00", 3, &mark([1, 0, 0]), Dimensions, FIRST + 9);
    cases.refuse("category_mark_02_00_01", 3, &mark([2, 0, 1]), Dimensions, FIRST + 9);
    cases.refuse("category_mark_00_01_01", 3, &mark([0, 1, 1]), Dimensions, FIRST + 9);
    cases.refuse_cut("category_mark_cut", 2, &mark([7, 7, 7]), (Dimensions, FIRST + 9), 2);
    let changed = |offset, byte| one.clone().with_byte(Dimensions, offset, byte);
    cases.refuse("leaf_number_not_2", 3, &changed(FIRST + 12, 0), Dimensions, FIRST + 12);
    cases.refuse("leaf_number_not_0", 3, &changed(FIRST + 23, 1), Dimensions, FIRST + 20);

    // The top-level count is 2, n is 4.
    let groups = [group(&[leaf(0), leaf(1)]), group(&[leaf(2), leaf(3)])];
    let grouped = |cells: &[u64]| table_of(&[dimension(&groups)], cells);
    cases.accept("groups_n_counts_leaves", &grouped(&[3, 2]), [1, 6, 2]);
    let cells = grouped(&[3, 4]);
    cases.refuse("groups_cell_not_below_n", 10, &cells, Cells, 4 + 17);
    let empty = [group(&[]), leaf(0), named_group(&template(), MERGED_GROUP, &[group(&[leaf(1)])])];
    cases.accept("groups_empty_merged_nested", &table_of(&[dimension(&empty)], &[1]), [1, 5, 1]);
    let other = table_of(&[dimension(&[group(&[])])], &[]);
    let minus_two = other.clone().with_byte(Dimensions, FIRST + 16, 0xfe);
    cases.refuse("group_number_not_minus_1", 3, &minus_two, Dimensions, FIRST + 16);
    let one_child = other.clone().with_byte(Dimensions, FIRST + 20, 1);
    // The axis counts are read as the child's name.
    cases.refuse("group_child_absent", 3, &one_child, Dimensions, FIRST + 24 + 5);
    cases.refuse_cut("group_child_cut", 2, &one_child, (Dimensions, FIRST + 24), 0);
    let four_billion =
        (20..24).fold(other, |parts, offset| parts.with_byte(Dimensions, FIRST + offset, 0xff));
    cases.refuse_cut("group_four_billion", 2, &four_billion, (Dimensions, FIRST + 24), 0);
}

fn leaf_index_cases(cases: &mut Cases) {
    let flat = |indexes: &[u32]| {
        let leaves: Vec<Vec<u8>> = indexes.iter().map(|&index| leaf(index)).collect();
        dimension(&leaves)
    };
    let table = |indexes: &[u32]| table_of(&[flat(indexes)], &[]);
    let place = |number: usize| FIRST + 24 * number + 16;
    cases.accept("leaf_indexes_permuted", &table(&[2, 0, 3, 1]), [1, 4, 0]);
    cases.refuse("leaf_index_repeated_later", 8, &table(&[0, 1, 0]), Dimensions, place(2));
    cases.refuse("leaf_index_not_below_n", 8, &table(&[0, 3, 1]), Dimensions, place(1));
    cases.refuse("leaf_index_first_bad", 8, &table(&[1, 1, 9]), Dimensions, place(1));
    // The bad leaf index of a later dimension is not reached.
    let two = table_of(&[flat(&[0, 0]), flat(&[5])], &[]);
    cases.refuse("leaf_index_first_dimension", 8, &two, Dimensions, place(1));
    let second = table_of(&[flat(&[0, 1]), flat(&[1, 1])], &[]);
    let offset = FIRST + 2 * 24 + 26 + 24 + 16;
    cases.refuse("leaf_index_second_dimension", 8, &second, Dimensions, offset);
    // A broken field of the same dimension is refused before its bad leaf index.
    let late = table(&[7, 0]).with_byte(Dimensions, FIRST + 24 + 12, 3);
    cases.refuse("leaf_index_after_fields", 3, &late, Dimensions, FIRST + 24 + 12);
    // The index of a leaf in a group is compared with those outside of it.
    let grouped = [leaf(1), group(&[leaf(0), leaf(1)])];
    let repeated = table_of(&[dimension(&grouped)], &[]);
    let offset = FIRST + 24 + 24 + 24 + 16;
    cases.refuse("leaf_index_repeated_in_group", 8, &repeated, Dimensions, offset);
}

/// Groups one inside the other with a leaf in the last one, `depth` categories in all.
fn nested(depth: usize) -> Vec<u8> {
    (1..depth).fold(leaf(0), |inner, _| group(&[inner]))
}

fn depth_cases(cases: &mut Cases) {
    let table = |depth| table_of(&[dimension(&[nested(depth)])], &[0]);
    cases.accept("category_depth8", &table(8), [1, 8, 1]);
    cases.refuse("category_depth9", 7, &table(9), Dimensions, FIRST + 8 * 24);
    let place = (Dimensions, FIRST + 8 * 24);
    cases.refuse_cut("category_depth9_no_byte_left", 7, &table(9), place, 0);
    let empty = (1..8).fold(group(&[]), |inner, _| group(&[inner]));
    cases.accept("category_depth8_empty_group", &table_of(&[dimension(&[empty])], &[]), [1, 8, 0]);
}

fn axis_cases(cases: &mut Cases) {
    let axes = |counts: [u32; 3], entries: &[u32]| {
        table(&[1, 1, 2], &[1]).with(Axes, crate::parts::axes(counts, entries))
    };
    cases.accept("axes_layer_row_column", &axes([1, 1, 1], &[2, 0, 1]), [3, 4, 1]);
    cases.accept("axes_all_columns", &axes([0, 0, 3], &[1, 2, 0]), [3, 4, 1]);
    cases.refuse("axes_sum_too_small", 9, &axes([1, 1, 0], &[0, 1]), Axes, 0);
    // The sum is 3 in 32 bits.
    cases.refuse("axes_sum_overflow", 9, &axes([u32::MAX, 2, 2], &[0, 1, 2]), Axes, 0);
    cases.refuse("axes_entry_too_large", 9, &axes([1, 1, 1], &[0, 3, 1]), Axes, 16);
    cases.refuse("axes_entry_repeated_later", 9, &axes([1, 1, 1], &[0, 1, 0]), Axes, 20);
    cases.refuse_cut("axes_third_count_cut", 2, &axes([9, 9, 9], &[]), (Axes, 8), 3);
    cases.refuse_cut("axes_entry_cut", 2, &axes([1, 1, 1], &[0, 1, 2]), (Axes, 20), 0);
}
