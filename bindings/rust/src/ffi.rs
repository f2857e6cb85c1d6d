//! The C functions, as `include/digarumbi.h` declares them.
//!
//! A pointer with a length points to that many elements; where the length is 0 it may be null. An
//! area that is written overlaps nothing else that the call is given.

extern "C" {
    pub fn digarumbi_abi() -> u32;

    pub fn digarumbi_read_member(
        member: *const u8,
        member_length: usize,
        answer: *mut u32,
        answer_words: usize,
        nodes: *mut u32,
        node_words: usize,
        cells: *mut u32,
        cell_words: usize,
    ) -> usize;

    pub fn digarumbi_read_members(
        buffer: *const u8,
        buffer_length: usize,
        list: *const u32,
        list_words: usize,
        answers: *mut u32,
        answer_words: usize,
        nodes: *mut u32,
        node_words: usize,
        cells: *mut u32,
        cell_words: usize,
    ) -> usize;

    pub fn digarumbi_node_name(
        member: *const u8,
        member_length: usize,
        nodes: *const u32,
        node_words: usize,
        count: usize,
        i: usize,
        place: *mut usize,
    ) -> usize;

    pub fn digarumbi_node_after(
        nodes: *const u32,
        node_words: usize,
        count: usize,
        i: usize,
    ) -> usize;

    pub fn digarumbi_part(
        member: *const u8,
        member_length: usize,
        place: usize,
        length: usize,
    ) -> usize;

    pub fn digarumbi_value(
        version: u32,
        value: *const u8,
        value_length: usize,
        answer: *mut u32,
        answer_words: usize,
    ) -> usize;

    pub fn digarumbi_argument(
        version: u32,
        argument: *const u8,
        argument_length: usize,
        answer: *mut u32,
        answer_words: usize,
    ) -> usize;

    pub fn digarumbi_number(low: u32, high: u32, number: *mut f64) -> u32;

    pub fn digarumbi_total(
        member: *const u8,
        member_length: usize,
        dimension: u32,
        leaf: u32,
        answer: *mut u32,
        answer_words: usize,
        nodes: *mut u32,
        node_words: usize,
        cells: *mut u32,
        cell_words: usize,
    ) -> usize;

    pub fn digarumbi_totals(
        member: *const u8,
        member_length: usize,
        dimension: u32,
        answer: *mut u32,
        answer_words: usize,
        totals: *mut u32,
        total_words: usize,
        nodes: *mut u32,
        node_words: usize,
        cells: *mut u32,
        cell_words: usize,
    ) -> usize;

    pub fn digarumbi_position(
        ns: *const u32,
        dimensions: usize,
        layers: u32,
        rows: u32,
        columns: u32,
        order: *const u32,
        order_words: usize,
        index: u32,
        answer: *mut u32,
        answer_words: usize,
    ) -> usize;

    pub fn digarumbi_index(
        ns: *const u32,
        dimensions: usize,
        layers: u32,
        rows: u32,
        columns: u32,
        order: *const u32,
        order_words: usize,
        layer: u32,
        row: u32,
        column: u32,
        answer: *mut u32,
        answer_words: usize,
    ) -> usize;

    pub fn digarumbi_read_look(
        file: *const u8,
        file_length: usize,
        answer: *mut u32,
        answer_words: usize,
    ) -> usize;

    pub fn digarumbi_rewrite_look(
        file: *const u8,
        file_length: usize,
        out: *mut u8,
        out_length: usize,
        answer: *mut u32,
        answer_words: usize,
    ) -> usize;

    pub fn digarumbi_look_sections(
        look: *const u8,
        look_length: usize,
        out: *mut u8,
        out_length: usize,
        answer: *mut u32,
        answer_words: usize,
    ) -> usize;

    pub fn digarumbi_to_utf8(
        page: u32,
        input: *const u8,
        in_length: usize,
        out: *mut u8,
        out_length: usize,
        answer: *mut u32,
        answer_words: usize,
    ) -> usize;

    pub fn digarumbi_from_utf8(
        page: u32,
        input: *const u8,
        in_length: usize,
        out: *mut u8,
        out_length: usize,
        answer: *mut u32,
        answer_words: usize,
    ) -> usize;

    pub fn digarumbi_cases_start(
        kinds: *const u8,
        kinds_length: usize,
        bias: u32,
        state: *mut u32,
        state_words: usize,
        answer: *mut u32,
        answer_words: usize,
    ) -> usize;

    pub fn digarumbi_cases_feed(
        state: *mut u32,
        state_words: usize,
        input: *const u8,
        input_length: usize,
        output: *mut u8,
        output_length: usize,
        answer: *mut u32,
        answer_words: usize,
    ) -> usize;

    pub fn digarumbi_cases_end(
        state: *const u32,
        state_words: usize,
        answer: *mut u32,
        answer_words: usize,
    ) -> usize;

    pub fn digarumbi_pt_to_px(points: u32, pixels: *mut u32) -> u32;

    pub fn digarumbi_px_to_pt(pixels: u32, points: *mut u32) -> u32;

    pub fn digarumbi_font_height(size: i32, height: *mut u32) -> u32;
}
