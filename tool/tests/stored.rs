//! What each command writes, against the files in `tests/stored`.

mod common;

use common::{root, run};

/// Compares a run over files of the repository with what is stored under a name: what it writes,
/// and its status.
fn check(name: &str, status: i32, arguments: &str) {
    let arguments: Vec<&str> = arguments.split(' ').collect();
    let run = run(&arguments);
    let path = root().join("tool/tests/stored").join(name);
    let stored = std::fs::read_to_string(&path).unwrap_or_default();
    let said = if run.said.is_empty() { String::new() } else { format!("-- said\n{}", run.said) };
    assert_eq!(run.out + &said, stored, "{name}: digarumbi {}", arguments.join(" "));
    assert_eq!(run.status, status, "{name}");
}

macro_rules! stored {
    ($($name:ident $status:literal $arguments:literal;)*) => {
        $(#[test] fn $name() { check(stringify!($name), $status, $arguments); })*
    };
}

stored! {
    check_accepted 0 "check examples/spine_1.bin examples/spine_18.bin examples/spine_3.bin";
    check_refused 1 "check examples/spine_3.bin examples/spine_3_repeated.bin crates/corpus_main/data/v002_header_one_byte.bin";
    check_header 0 "check --header examples/spine_1.bin";
    check_json 1 "check --json examples/spine_1.bin examples/spine_3_repeated.bin";
    table_text_and_missing 0 "table examples/spine_1.bin";
    table_groups 0 "table examples/spine_18.bin";
    table_two_rows 0 "table crates/corpus_main/data/hotel_05_means_2.bin";
    table_two_columns 0 "table crates/corpus_main/data/repairs_06_examine_2.bin";
    table_several 1 "table examples/spine_3.bin examples/spine_3_repeated.bin examples/spine_18.bin";
    table_no_cells 0 "table crates/corpus_main/data/v182_cell_3_0_5_no_cells.bin";
    table_layers 0 "table tool/tests/members/hotel_05_means_2_layers.bin";
    table_1250 0 "table tool/tests/members/spine_3_1250.bin";
    table_1250_as_utf_8 0 "table --encoding utf-8 tool/tests/members/spine_3_1250.bin";
    table_json 0 "table --json examples/spine_18.bin";
    cells 0 "cells examples/spine_18.bin examples/spine_1.bin";
    cells_json 0 "cells --json examples/spine_1.bin";
    cells_1250_as_1252 0 "cells --encoding 1252 tool/tests/members/spine_3_1250.bin";
    cells_refused 1 "cells examples/spine_3_repeated.bin examples/spine_18.bin";
    totals 1 "totals examples/spine_3.bin crates/corpus_main/data/repairs_06_examine_2.bin";
    totals_of_a_name 0 "totals --header --dimension Cases crates/corpus_main/data/repairs_06_examine_2.bin";
    totals_of_a_number 0 "totals crates/corpus_main/data/repairs_06_examine_2.bin --dimension 1";
    totals_1250 1 "totals --encoding 1250 --dimension Statystyki tool/tests/members/spine_3_1250.bin";
    totals_of_no_dimension 1 "totals --dimension Spine examples/spine_3.bin";
    totals_json 1 "totals --json --dimension 0 examples/spine_3.bin";
    compare_differs 1 "compare examples/hand.tsv examples/spine_3.bin";
    compare_1250 1 "compare tool/tests/members/hand.tsv tool/tests/members/spine_3_1250.bin";
    why_repeated 1 "why examples/spine_3_repeated.bin";
    why_json 1 "why --json examples/spine_3_repeated.bin";
    why_accepted 0 "why examples/spine_3.bin";
    why_leaf_index 1 "why crates/corpus_main/data/v154_leaf_index_second_dimension.bin";
    why_cut 1 "why crates/corpus_main/data/v139_category_mark_cut.bin crates/corpus_main/data/v001_empty.bin";
    why_region 1 "why crates/corpus_main/data/v056_value_mod_region_left.bin";
    why_axes 1 "why crates/corpus_main/data/v164_axes_sum_overflow.bin crates/corpus_main/data/v184_product_4_to_the_16.bin";
    why_version_1 1 "why crates/corpus_main/data/v468_v1_31_in_cell_argument.bin";
    why_look 1 "why crates/looks_main/data/shading_11.tlo crates/looks_main/data/name_cut_short.tlo crates/looks_main/data/color_high_byte.tlo crates/looks_main/data/length_of_pvtextstyle.tlo crates/looks_main/data/bytes_left_00.tlo examples/look_02.tlo examples/look_00.tlo";
    look_02 0 "look examples/look_02.tlo";
    look_00 0 "look crates/looks_main/data/longest_00.tlo";
    look_json 0 "look --json crates/looks_main/data/longest_02.tlo";
    look_00_json 0 "look --json examples/look_00.tlo";
    look_refused 1 "look crates/looks_main/data/shading_11.tlo crates/looks_main/data/version_01.tlo";
    help 0 "--help";
    version 0 "--version";
    usage_no_command 2 "counts examples/spine_3.bin";
    usage_no_option 2 "check --all examples/spine_3.bin";
}
