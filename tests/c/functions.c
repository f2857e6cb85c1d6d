/* Each function over real inputs, by the header's names of words and refusals.
 *
 * usage: functions EXAMPLES */
#include "check.h"

static uint32_t answer[DIGARUMBI_LOOK_ANSWER];
static uint32_t nodes[DIGARUMBI_NODE_AREA];
static uint32_t cells[DIGARUMBI_CELL_AREA];

static double number_of(const uint32_t *low)
{
    double number;

    CHECK(digarumbi_number(low[0], low[1], &number) == 1);
    return number;
}

/* The double that a Value of a member says. */
static double cell_number(const uint8_t *member, const uint32_t *cell)
{
    uint32_t value[DIGARUMBI_VALUE_WORDS];

    digarumbi_value(member[2], member + cell[DIGARUMBI_CELL_VALUE], cell[DIGARUMBI_CELL_VALUE_LENGTH], value, DIGARUMBI_VALUE_WORDS);
    CHECK(value[DIGARUMBI_VALUE_REFUSAL] == 0 && value[DIGARUMBI_VALUE_LENGTH] == cell[DIGARUMBI_CELL_VALUE_LENGTH]);
    CHECK(value[DIGARUMBI_VALUE_FORM] == DIGARUMBI_NUMBER || value[DIGARUMBI_VALUE_FORM] == DIGARUMBI_LABELLED_NUMBER);
    return number_of(value + DIGARUMBI_VALUE_BITS_LOW);
}

static void read_all(struct bytes member)
{
    digarumbi_read_member(member.at, member.length, answer, DIGARUMBI_MEMBER_ANSWER, nodes, DIGARUMBI_NODE_AREA, cells,
                          DIGARUMBI_CELL_AREA);
}

/* Coefficients of a regression: 5 leaves in 7 nodes, then 2 leaves; 10 cells. */
static void records(struct bytes member)
{
    const uint32_t *first = answer + DIGARUMBI_DIMENSIONS, *second = first + DIGARUMBI_DIMENSION_RECORD;
    const uint32_t *group = nodes, *leaf = nodes + DIGARUMBI_NODE_RECORD;
    size_t place;

    read_all(member);
    CHECK(answer[DIGARUMBI_REFUSAL] == 0 && answer[DIGARUMBI_PLACE] == 0);
    CHECK(answer[DIGARUMBI_DIMENSION_COUNT] == 2 && answer[DIGARUMBI_NODE_COUNT] == 9 && answer[DIGARUMBI_CELL_COUNT] == 10);
    CHECK(answer[DIGARUMBI_LAYER_COUNT] == 0 && answer[DIGARUMBI_ROW_COUNT] == 1 && answer[DIGARUMBI_COLUMN_COUNT] == 1);
    CHECK(answer[DIGARUMBI_AXIS_ORDER] == 1 && answer[DIGARUMBI_AXIS_ORDER + 1] == 0);
    CHECK(first[DIGARUMBI_DIMENSION_N] == 5 && first[DIGARUMBI_DIMENSION_FIRST_NODE] == 0);
    CHECK(second[DIGARUMBI_DIMENSION_N] == 2 && second[DIGARUMBI_DIMENSION_FIRST_NODE] == 7);
    CHECK(group[DIGARUMBI_NODE_KIND] == DIGARUMBI_GROUP && group[DIGARUMBI_NODE_PARENT] == DIGARUMBI_NO_PARENT);
    CHECK(group[DIGARUMBI_NODE_INDEX] == 2 && group[DIGARUMBI_NODE_SIZE] == 3);
    CHECK(leaf[DIGARUMBI_NODE_KIND] == DIGARUMBI_LEAF && leaf[DIGARUMBI_NODE_PARENT] == 0 && leaf[DIGARUMBI_NODE_DIMENSION] == 0);
    CHECK(leaf[DIGARUMBI_NODE_INDEX] == 0 && leaf[DIGARUMBI_NODE_SIZE] == 1);
    CHECK(digarumbi_node_name(member.at, member.length, nodes, DIGARUMBI_NODE_AREA, 9, 1, &place) == leaf[DIGARUMBI_NODE_NAME_LENGTH]);
    CHECK(place == leaf[DIGARUMBI_NODE_NAME]);
    CHECK(digarumbi_node_after(nodes, DIGARUMBI_NODE_AREA, 9, 0) == 3);
    CHECK(cells[DIGARUMBI_CELL_INDEX] == 2);
    CHECK(cell_number(member.at, cells + DIGARUMBI_CELL_RECORD * 9) == 0);
    CHECK(digarumbi_part(member.at, member.length, 2, 4) == 4);
    CHECK(digarumbi_part(member.at, member.length, member.length, 1) == 0);
}

static void refusals(struct bytes member)
{
    memset(nodes, 7, sizeof nodes);
    digarumbi_read_member(member.at, 1000, answer, DIGARUMBI_MEMBER_ANSWER, nodes, DIGARUMBI_NODE_AREA, cells, DIGARUMBI_CELL_AREA);
    CHECK(answer[DIGARUMBI_REFUSAL] == DIGARUMBI_REFUSED_DOES_NOT_FIT && answer[DIGARUMBI_PLACE] == 911);
    CHECK(all(nodes, DIGARUMBI_NODE_AREA, 0x07070707));
    digarumbi_read_member(member.at, member.length, answer, DIGARUMBI_MEMBER_ANSWER, nodes, 7 * 9 - 1, cells, DIGARUMBI_CELL_AREA);
    CHECK(answer[DIGARUMBI_REFUSAL] == DIGARUMBI_REFUSED_NODE_AREA && answer[DIGARUMBI_NODE_COUNT] == 9);
    CHECK(all(nodes, DIGARUMBI_NODE_AREA, 0x07070707));
    CHECK(digarumbi_read_member(member.at, member.length, answer, DIGARUMBI_MEMBER_ANSWER - 1, nodes, 0, cells, 0) == 0);
}

/* Statistics of three variables: 3 leaves, then 16. */
static void totals(struct bytes member)
{
    static uint32_t leaves[DIGARUMBI_TOTALS_AREA];
    const uint32_t *mode = leaves + DIGARUMBI_TOTAL_RECORD * 5, *mean = leaves + DIGARUMBI_TOTAL_RECORD * 2;

    CHECK(digarumbi_total(member.at, member.length, 1, 5, answer, DIGARUMBI_TOTAL_ANSWER, nodes, DIGARUMBI_NODE_AREA, cells,
                          DIGARUMBI_CELL_AREA) == DIGARUMBI_TOTAL_ANSWER);
    CHECK(answer[DIGARUMBI_TOTAL_REFUSAL] == 0);
    CHECK(answer[DIGARUMBI_TOTAL_NODE_COUNT] == 20 && answer[DIGARUMBI_TOTAL_CELL_COUNT] == 48);
    CHECK(answer[DIGARUMBI_TOTAL_LOW] == 3 && answer[DIGARUMBI_TOTAL_HIGH] == 0);
    CHECK(answer[DIGARUMBI_TOTAL_NUMBERS] == 2 && answer[DIGARUMBI_TOTAL_TEXTS] == 0 && answer[DIGARUMBI_TOTAL_MISSING] == 1);
    CHECK(number_of(answer + DIGARUMBI_TOTAL_SMALLEST_LOW) == 1 && number_of(answer + DIGARUMBI_TOTAL_LARGEST_LOW) == 2);
    CHECK(digarumbi_totals(member.at, member.length, 1, answer, DIGARUMBI_TOTALS_ANSWER, leaves, DIGARUMBI_TOTALS_AREA, nodes,
                           DIGARUMBI_NODE_AREA, cells, DIGARUMBI_CELL_AREA) == DIGARUMBI_TOTALS_ANSWER);
    CHECK(answer[DIGARUMBI_TOTALS_REFUSAL] == 0 && answer[DIGARUMBI_TOTALS_LEAF_COUNT] == 16);
    CHECK(mode[DIGARUMBI_LEAF_REFUSAL] == 0 && mode[DIGARUMBI_LEAF_TOTAL_LOW] == 3 && mode[DIGARUMBI_LEAF_MISSING] == 1);
    CHECK(number_of(mode + DIGARUMBI_LEAF_SMALLEST_LOW) == 1 && number_of(mode + DIGARUMBI_LEAF_LARGEST_LOW) == 2);
    CHECK(mean[DIGARUMBI_LEAF_REFUSAL] == DIGARUMBI_REFUSED_NO_COUNT && mean[DIGARUMBI_LEAF_PLACE] == 2690);
    CHECK(all(mean + DIGARUMBI_LEAF_TOTAL_LOW, DIGARUMBI_TOTAL_RECORD - DIGARUMBI_LEAF_TOTAL_LOW, 0));
    digarumbi_total(member.at, member.length, 1, 16, answer, DIGARUMBI_TOTAL_ANSWER, nodes, DIGARUMBI_NODE_AREA, cells,
                    DIGARUMBI_CELL_AREA);
    CHECK(answer[DIGARUMBI_TOTAL_REFUSAL] == DIGARUMBI_REFUSED_NO_SUCH_LEAF);
}

/* The same member twice in one buffer, one that is cut, and one that is not inside. */
static void lists(struct bytes member)
{
    const uint32_t length = (uint32_t)member.length;
    const uint32_t list[] = {0, length, 0, length, 0, 1000, 1, length};
    static uint32_t answers[DIGARUMBI_MEMBERS + 4 * DIGARUMBI_MEMBER_ANSWER];
    const uint32_t *first = answers + DIGARUMBI_MEMBERS, *third = first + 2 * DIGARUMBI_MEMBER_ANSWER;
    const uint32_t *fourth = third + DIGARUMBI_MEMBER_ANSWER;
    const size_t words = sizeof answers / sizeof *answers;

    CHECK(digarumbi_read_members(member.at, member.length, list, 8, answers, words, nodes, DIGARUMBI_NODE_AREA, cells,
                                 DIGARUMBI_CELL_AREA) == words);
    CHECK(answers[DIGARUMBI_REFUSAL] == 0 && first[DIGARUMBI_REFUSAL] == 0 && first[DIGARUMBI_NODE_COUNT] == 9);
    CHECK(memcmp(first, first + DIGARUMBI_MEMBER_ANSWER, 4 * DIGARUMBI_MEMBER_ANSWER) == 0);
    CHECK(memcmp(nodes, nodes + DIGARUMBI_NODE_AREA / 4, 4 * 9 * 7) == 0);
    CHECK(third[DIGARUMBI_REFUSAL] == DIGARUMBI_REFUSED_DOES_NOT_FIT && third[DIGARUMBI_PLACE] == 911);
    CHECK(fourth[DIGARUMBI_REFUSAL] == DIGARUMBI_REFUSED_DOES_NOT_FIT && fourth[DIGARUMBI_PLACE] == 0);
    CHECK(digarumbi_read_members(member.at, member.length, list, 7, answers, words, nodes, 0, cells, 0) == DIGARUMBI_MEMBERS);
    CHECK(answers[DIGARUMBI_REFUSAL] == DIGARUMBI_REFUSED_BAD_LIST);
    CHECK(digarumbi_read_members(member.at, member.length, list, 8, answers, words - 1, nodes, 0, cells, 0) == 0);
}

/* Document 01's index 33 of n 3, 4, 5: the second dimension in rows, the others in columns with the third the inner one. */
static void positions(void)
{
    const uint32_t ns[] = {3, 4, 5}, order[] = {1, 2, 0};

    CHECK(digarumbi_position(ns, 3, 0, 1, 2, order, 3, 33, answer, DIGARUMBI_POSITION_WORDS) == DIGARUMBI_POSITION_WORDS);
    CHECK(answer[DIGARUMBI_POSITION_REFUSAL] == 0 && answer[DIGARUMBI_POSITION_LAYER] == 0);
    CHECK(answer[DIGARUMBI_POSITION_ROW] == 2 && answer[DIGARUMBI_POSITION_COLUMN] == 8);
    CHECK(digarumbi_index(ns, 3, 0, 1, 2, order, 3, 0, 2, 8, answer, DIGARUMBI_INDEX_WORDS) == DIGARUMBI_INDEX_WORDS);
    CHECK(answer[DIGARUMBI_INDEX_REFUSAL] == 0 && answer[DIGARUMBI_INDEX_INDEX] == 33);
    digarumbi_index(ns, 3, 0, 1, 2, order, 3, 1, 2, 8, answer, DIGARUMBI_INDEX_WORDS);
    CHECK(answer[DIGARUMBI_INDEX_REFUSAL] == DIGARUMBI_REFUSED_CELL_INDEX);
    digarumbi_position(ns, 3, 0, 1, 2, order, 2, 33, answer, DIGARUMBI_POSITION_WORDS);
    CHECK(answer[DIGARUMBI_POSITION_REFUSAL] == DIGARUMBI_REFUSED_AXES);
}

static void looks(struct bytes look)
{
    static uint8_t out[DIGARUMBI_LONGEST_LOOK];

    CHECK(digarumbi_read_look(look.at, look.length, answer, DIGARUMBI_LOOK_ANSWER) == DIGARUMBI_LOOK_ANSWER);
    CHECK(answer[DIGARUMBI_REFUSAL] == 0 && answer[DIGARUMBI_LOOK + DIGARUMBI_LOOK_VERSION] == 2);
    CHECK(digarumbi_rewrite_look(look.at, look.length, out, sizeof out, answer, DIGARUMBI_REWRITE_ANSWER) == DIGARUMBI_REWRITE_ANSWER);
    CHECK(answer[DIGARUMBI_REFUSAL] == 0 && answer[2] == look.length && memcmp(out, look.at, look.length) == 0);
}

/* The V2 words of a version 00 file: 002's defaults. */
static void old_look_words(const uint32_t *words)
{
    const uint32_t *separator;
    uint32_t i, inner;

    CHECK(words[DIGARUMBI_LOOK_VERSION] == 2);
    for (i = 0; i < 11; i++) {
        separator = words + DIGARUMBI_LOOK_V2_SEPARATORS + DIGARUMBI_SEPARATOR_RECORD * i;
        inner = i >= 1 && i <= 4;
        CHECK(separator[DIGARUMBI_SEPARATOR_DRAWN] == inner && separator[DIGARUMBI_SEPARATOR_WIDTH] == inner);
        CHECK(separator[DIGARUMBI_SEPARATOR_COLOR] == 0 && separator[DIGARUMBI_SEPARATOR_STYLE] == 0);
    }
    CHECK(words[DIGARUMBI_LOOK_CONTINUATION] == DIGARUMBI_LOOK_DEFAULT_CONTINUATION);
    CHECK(words[DIGARUMBI_LOOK_CONTINUATION_LENGTH] == strlen(DIGARUMBI_LOOK_DEFAULT_CONTINUATION_LETTERS));
    CHECK(words[DIGARUMBI_LOOK_MIN_COL_WIDTH] == 36 && words[DIGARUMBI_LOOK_MAX_COL_WIDTH] == 72);
    CHECK(words[DIGARUMBI_LOOK_MIN_ROW_HEIGHT] == 36 && words[DIGARUMBI_LOOK_MAX_ROW_HEIGHT] == 120);
}

/* A version 00 file comes back as a version 02 look, and is rewritten as a version 02 file. */
static void old_looks(struct bytes look)
{
    static uint8_t out[DIGARUMBI_LONGEST_LOOK], again[DIGARUMBI_LONGEST_LOOK];
    const char *letters = DIGARUMBI_LOOK_DEFAULT_CONTINUATION_LETTERS;
    size_t length = look.length + 78;

    CHECK(look.at[DIGARUMBI_LOOK_VERSION_PLACE] == 0);
    digarumbi_read_look(look.at, look.length, answer, DIGARUMBI_LOOK_ANSWER);
    CHECK(answer[DIGARUMBI_REFUSAL] == 0);
    old_look_words(answer + DIGARUMBI_LOOK);
    digarumbi_rewrite_look(look.at, look.length, out, length - 1, answer, DIGARUMBI_REWRITE_ANSWER);
    CHECK(answer[DIGARUMBI_REFUSAL] == DIGARUMBI_REFUSED_OUTPUT_TOO_SHORT && answer[DIGARUMBI_PLACE] == 0 && answer[2] == 0);
    digarumbi_rewrite_look(look.at, look.length, out, length, answer, DIGARUMBI_REWRITE_ANSWER);
    CHECK(answer[DIGARUMBI_REFUSAL] == 0 && answer[2] == length && out[DIGARUMBI_LOOK_VERSION_PLACE] == 2);

    digarumbi_read_look(out, length, answer, DIGARUMBI_LOOK_ANSWER);
    CHECK(answer[DIGARUMBI_REFUSAL] == 0 && answer[DIGARUMBI_LOOK + DIGARUMBI_LOOK_CONTINUATION_LENGTH] == strlen(letters));
    CHECK(memcmp(out + answer[DIGARUMBI_LOOK + DIGARUMBI_LOOK_CONTINUATION], letters, strlen(letters)) == 0);
    digarumbi_rewrite_look(out, length, again, sizeof again, answer, DIGARUMBI_REWRITE_ANSWER);
    CHECK(answer[DIGARUMBI_REFUSAL] == 0 && answer[2] == length && memcmp(again, out, length) == 0);
}

/* Areas and Borders from a look whose fonts have no names and whose separators are not drawn, in the place of a member's own: those stand from
 * 271 to 1155. */
static void sections(struct bytes look, struct bytes member)
{
    static uint8_t out[DIGARUMBI_LONGEST_SECTIONS], with[DIGARUMBI_MEMBER_BYTES];
    /* index and mark; no name; 12 as a float; bold and italic; not underlined; center, bottom */
    static const uint8_t first[] = {1, 0x31, 0, 0, 0, 0, 0, 0, 0x40, 0x41, 3, 0, 0, 0, 0, 0, 0, 0, 0, 3, 0, 0, 0};
    static const uint8_t borders[] = {0xf0, 0, 0, 0, 0, 0, 0, 1, 0, 0, 0, 19, 0, 0, 0, 0, 0, 0, 0, 0, 0xff, 0, 0, 0};
    const size_t length = 804, before = 271, after = 1155, rest = member.length - 1155;

    memset(out, 9, sizeof out);
    CHECK(digarumbi_look_sections(look.at, look.length, out, sizeof out, answer, DIGARUMBI_SECTIONS_ANSWER) == DIGARUMBI_SECTIONS_ANSWER);
    CHECK(answer[DIGARUMBI_REFUSAL] == 0 && answer[DIGARUMBI_PLACE] == 0 && answer[2] == length);
    CHECK(memcmp(out, first, sizeof first) == 0 && memcmp(out + sizeof first, "\7\0\0\0#332211\7\0\0\0#030201", 22) == 0);
    CHECK(memcmp(out + 560, borders, sizeof borders) == 0);
    CHECK(out[length] == 9 && out[sizeof out - 1] == 9);

    memcpy(with, member.at, before);
    memcpy(with + before, out, length);
    memcpy(with + before + length, member.at + after, rest);
    digarumbi_read_member(with, before + length + rest, answer, DIGARUMBI_MEMBER_ANSWER, nodes, DIGARUMBI_NODE_AREA, cells,
                          DIGARUMBI_CELL_AREA);
    CHECK(answer[DIGARUMBI_REFUSAL] == 0);
    CHECK(answer[DIGARUMBI_DIMENSION_COUNT] == 2 && answer[DIGARUMBI_NODE_COUNT] == 9 && answer[DIGARUMBI_CELL_COUNT] == 10);
    CHECK(cell_number(with, cells + DIGARUMBI_CELL_RECORD * 9) == 0);
}

/* Whether nothing is written, and the answer is a refusal at that place. */
static int is_refused(struct bytes look, size_t out_length, uint32_t number, uint32_t place)
{
    static uint8_t out[DIGARUMBI_LONGEST_SECTIONS];
    size_t i;

    memset(out, 9, sizeof out);
    digarumbi_look_sections(look.at, look.length, out, out_length, answer, DIGARUMBI_SECTIONS_ANSWER);
    for (i = 0; i < sizeof out; i++)
        if (out[i] != 9)
            return 0;
    return answer[DIGARUMBI_REFUSAL] == number && answer[DIGARUMBI_PLACE] == place && answer[2] == 0;
}

/* The title's alignment stands at 124, its font's size at 142. */
static void refused_sections(struct bytes look)
{
    uint8_t out[1] = {9};

    answer[0] = 9;
    CHECK(digarumbi_look_sections(look.at, look.length, out, 1, answer, DIGARUMBI_SECTIONS_ANSWER - 1) == 0);
    CHECK(answer[0] == 9 && out[0] == 9);
    CHECK(is_refused(look, 803, DIGARUMBI_REFUSED_OUTPUT_TOO_SHORT, 0));
    look.at[145] = 0x7f;
    CHECK(is_refused(look, DIGARUMBI_LONGEST_SECTIONS, DIGARUMBI_REFUSED_LIMIT, 142));
    look.at[124] = 3;
    CHECK(is_refused(look, 0, DIGARUMBI_REFUSED_NO_MEANING, 124));
    look.length--;
    CHECK(is_refused(look, 0, DIGARUMBI_REFUSED_DOES_NOT_FIT, 709));
}

static void texts(void)
{
    const uint8_t name[] = {0xa3, 0xf3, 'd', 0x9f};
    uint8_t utf8[12], back[12];

    digarumbi_to_utf8(DIGARUMBI_WINDOWS_1250, name, sizeof name, utf8, sizeof utf8, answer, DIGARUMBI_TEXT_ANSWER);
    CHECK(answer[DIGARUMBI_REFUSAL] == 0 && answer[DIGARUMBI_TEXT_LENGTH] == 7);
    CHECK(memcmp(utf8, "\xc5\x81\xc3\xb3\x64\xc5\xba", 7) == 0);
    digarumbi_from_utf8(DIGARUMBI_WINDOWS_1250, utf8, 7, back, sizeof back, answer, DIGARUMBI_TEXT_ANSWER);
    CHECK(answer[DIGARUMBI_REFUSAL] == 0 && answer[DIGARUMBI_TEXT_LENGTH] == 4 && memcmp(back, name, 4) == 0);
    digarumbi_to_utf8(1253, name, sizeof name, utf8, sizeof utf8, answer, DIGARUMBI_TEXT_ANSWER);
    CHECK(answer[DIGARUMBI_REFUSAL] == DIGARUMBI_REFUSED_UNKNOWN_PAGE);
}

static void cases(void)
{
    static uint32_t state[DIGARUMBI_CASES_STATE];
    const uint8_t kinds[] = {DIGARUMBI_CASES_NUMERIC, DIGARUMBI_CASES_STRING};
    const uint8_t codes[] = {101, 254, 252, 0, 0, 0, 0, 0};
    uint8_t out[16];

    digarumbi_cases_start(kinds, sizeof kinds, 100, state, DIGARUMBI_CASES_STATE, answer, DIGARUMBI_CASES_ANSWER);
    CHECK(answer[DIGARUMBI_REFUSAL] == 0);
    digarumbi_cases_feed(state, DIGARUMBI_CASES_STATE, codes, sizeof codes, out, sizeof out, answer, DIGARUMBI_CASES_FEED_ANSWER);
    CHECK(answer[0] == 0 && answer[2] == 8 && answer[3] == 2);
    CHECK(memcmp(out, "\0\0\0\0\0\0\xf0\x3f        ", 16) == 0);
    /* The first call stopped at its last element; in the second the 252 acts. */
    digarumbi_cases_feed(state, DIGARUMBI_CASES_STATE, NULL, 0, out, sizeof out, answer, DIGARUMBI_CASES_FEED_ANSWER);
    CHECK(all(answer, DIGARUMBI_CASES_FEED_ANSWER, 0));
    digarumbi_cases_end(state, DIGARUMBI_CASES_STATE, answer, DIGARUMBI_CASES_ANSWER);
    CHECK(answer[DIGARUMBI_REFUSAL] == 0);
}

static void units(void)
{
    uint32_t result;

    CHECK(digarumbi_pt_to_px(72, &result) == 0 && result == 96);
    CHECK(digarumbi_px_to_pt(96, &result) == 0 && result == 72);
    CHECK(digarumbi_font_height(-12, &result) == 0 && result == 12);
    CHECK(digarumbi_font_height(0, &result) == DIGARUMBI_REFUSED_LIMIT && result == 0);
}

/* Whether the number has the text of those that are no refusal's. */
static int is_no_refusal(uint32_t number)
{
    return strcmp(digarumbi_refusal_text(number), digarumbi_refusal_text(UINT32_MAX)) == 0;
}

/* Names that must agree with one another. */
static void names(void)
{
    uint32_t number, other;

    CHECK(digarumbi_abi() == DIGARUMBI_ABI);
    CHECK(DIGARUMBI_DIMENSIONS + DIGARUMBI_MOST_DIMENSIONS * DIGARUMBI_DIMENSION_RECORD == DIGARUMBI_AXIS_ORDER);
    CHECK(DIGARUMBI_AXIS_ORDER + DIGARUMBI_MOST_DIMENSIONS == DIGARUMBI_MEMBER_ANSWER);
    CHECK(DIGARUMBI_NODE_AREA == DIGARUMBI_NODE_RECORD * DIGARUMBI_MOST_NODES);
    CHECK(DIGARUMBI_CELL_AREA == DIGARUMBI_CELL_RECORD * DIGARUMBI_MOST_CELLS);
    CHECK(DIGARUMBI_TOTALS_AREA == DIGARUMBI_TOTAL_RECORD * DIGARUMBI_MOST_NODES);
    CHECK(strcmp(digarumbi_refusal_text(DIGARUMBI_REFUSED_CELL_INDEX), "cell index not below the product, or seen before") == 0);
    CHECK(is_no_refusal(16) && is_no_refusal(17) && !is_no_refusal(0) && !is_no_refusal(DIGARUMBI_REFUSED_NO_CHARACTER));
    CHECK(is_no_refusal(27) && is_no_refusal(28) && !is_no_refusal(DIGARUMBI_REFUSED_NO_MEANING));
    for (number = 0; number < 64; number++)
        for (other = 0; other < number; other++)
            CHECK(is_no_refusal(number) || strcmp(digarumbi_refusal_text(number), digarumbi_refusal_text(other)) != 0);
}

int main(int argc, char **argv)
{
    struct bytes coefficients, statistics, look, old_look;

    if (argc != 2) {
        fprintf(stderr, "usage: functions EXAMPLES\n");
        return 2;
    }
    coefficients = file(argv[1], "spine_18.bin");
    statistics = file(argv[1], "spine_1.bin");
    look = file(argv[1], "look_02.tlo");
    old_look = file(argv[1], "look_00.tlo");
    names();
    records(coefficients);
    refusals(coefficients);
    totals(statistics);
    lists(coefficients);
    positions();
    looks(look);
    old_looks(old_look);
    sections(look, coefficients);
    refused_sections(look);
    texts();
    cases();
    units();
    free(coefficients.at);
    free(statistics.at);
    free(look.at);
    free(old_look.at);
    return failures != 0;
}
