/* NULL stands for an empty input and for an area without words, in every function that takes a pointer with a length.
 *
 * usage: null EXAMPLES */
#include "check.h"

static uint32_t answer[DIGARUMBI_LOOK_ANSWER];
static uint32_t nodes[DIGARUMBI_NODE_AREA];
static uint32_t cells[DIGARUMBI_CELL_AREA];

static void members(const uint8_t *member, size_t length)
{
    uint32_t *no = NULL;

    CHECK(digarumbi_read_member(NULL, 0, answer, DIGARUMBI_MEMBER_ANSWER, no, 0, no, 0) == DIGARUMBI_MEMBER_ANSWER);
    CHECK(answer[DIGARUMBI_REFUSAL] == DIGARUMBI_REFUSED_DOES_NOT_FIT && answer[DIGARUMBI_PLACE] == 0);
    CHECK(digarumbi_read_member(member, length, answer, DIGARUMBI_MEMBER_ANSWER, no, 0, cells, DIGARUMBI_CELL_AREA) ==
          DIGARUMBI_MEMBER_ANSWER);
    CHECK(answer[DIGARUMBI_REFUSAL] == DIGARUMBI_REFUSED_NODE_AREA);
    CHECK(digarumbi_read_member(member, length, answer, DIGARUMBI_MEMBER_ANSWER, nodes, DIGARUMBI_NODE_AREA, no, 0) ==
          DIGARUMBI_MEMBER_ANSWER);
    CHECK(answer[DIGARUMBI_REFUSAL] == DIGARUMBI_REFUSED_CELL_AREA);
    CHECK(digarumbi_read_member(NULL, 0, no, 0, no, 0, no, 0) == 0);
    CHECK(digarumbi_part(NULL, 0, 0, 0) == 0);
    CHECK(digarumbi_part(NULL, 0, 1, 1) == 0);
}

static void names(void)
{
    size_t place = 7;

    CHECK(digarumbi_node_name(NULL, 0, NULL, 0, 0, 0, &place) == 0 && place == 0);
    CHECK(digarumbi_node_name(NULL, 0, NULL, 0, 1, 0, &place) == 0 && place == 0);
    CHECK(digarumbi_node_after(NULL, 0, 0, 0) == 0);
    CHECK(digarumbi_node_after(NULL, 0, 3, 0) == 3);
}

static void lists(const uint8_t *member, size_t length)
{
    uint32_t *no = NULL;
    uint32_t list[2] = {0, 0};
    static uint32_t answers[DIGARUMBI_MEMBERS + DIGARUMBI_MEMBER_ANSWER];

    list[1] = (uint32_t)length;
    CHECK(digarumbi_read_members(NULL, 0, NULL, 0, answers, DIGARUMBI_MEMBERS, no, 0, no, 0) == DIGARUMBI_MEMBERS);
    CHECK(answers[DIGARUMBI_REFUSAL] == 0 && answers[DIGARUMBI_PLACE] == 0);
    CHECK(digarumbi_read_members(NULL, 0, list, 2, answers, DIGARUMBI_MEMBERS + DIGARUMBI_MEMBER_ANSWER, no, 0, no, 0) ==
          DIGARUMBI_MEMBERS + DIGARUMBI_MEMBER_ANSWER);
    CHECK(answers[DIGARUMBI_MEMBERS + DIGARUMBI_REFUSAL] == DIGARUMBI_REFUSED_DOES_NOT_FIT);
    CHECK(digarumbi_read_members(member, length, list, 2, answers, DIGARUMBI_MEMBERS + DIGARUMBI_MEMBER_ANSWER, no, 0, no, 0) ==
          DIGARUMBI_MEMBERS + DIGARUMBI_MEMBER_ANSWER);
    CHECK(answers[DIGARUMBI_MEMBERS + DIGARUMBI_REFUSAL] == DIGARUMBI_REFUSED_NODE_AREA);
    CHECK(digarumbi_read_members(member, length, list, 2, no, 0, no, 0, no, 0) == 0);
}

static void positions(void)
{
    CHECK(digarumbi_position(NULL, 0, 0, 0, 0, NULL, 0, 0, answer, DIGARUMBI_POSITION_WORDS) == DIGARUMBI_POSITION_WORDS);
    CHECK(answer[DIGARUMBI_POSITION_REFUSAL] == 0 && answer[DIGARUMBI_POSITION_COLUMN] == 0);
    CHECK(digarumbi_position(NULL, 0, 0, 0, 0, NULL, 0, 1, answer, DIGARUMBI_POSITION_WORDS) == DIGARUMBI_POSITION_WORDS);
    CHECK(answer[DIGARUMBI_POSITION_REFUSAL] == DIGARUMBI_REFUSED_CELL_INDEX);
    CHECK(digarumbi_position(NULL, 0, 0, 0, 0, NULL, 0, 0, NULL, 0) == 0);
    CHECK(digarumbi_index(NULL, 0, 0, 0, 0, NULL, 0, 0, 0, 0, answer, DIGARUMBI_INDEX_WORDS) == DIGARUMBI_INDEX_WORDS);
    CHECK(answer[DIGARUMBI_INDEX_REFUSAL] == 0 && answer[DIGARUMBI_INDEX_INDEX] == 0);
    CHECK(digarumbi_index(NULL, 0, 0, 0, 0, NULL, 0, 0, 0, 0, NULL, 0) == 0);
}

static void totals(const uint8_t *member, size_t length)
{
    uint32_t *no = NULL;

    CHECK(digarumbi_total(NULL, 0, 0, 0, answer, DIGARUMBI_TOTAL_ANSWER, no, 0, no, 0) == DIGARUMBI_TOTAL_ANSWER);
    CHECK(answer[DIGARUMBI_TOTAL_REFUSAL] == DIGARUMBI_REFUSED_DOES_NOT_FIT);
    CHECK(digarumbi_total(member, length, 0, 0, answer, DIGARUMBI_TOTAL_ANSWER, no, 0, no, 0) == DIGARUMBI_TOTAL_ANSWER);
    CHECK(answer[DIGARUMBI_TOTAL_REFUSAL] == DIGARUMBI_REFUSED_NODE_AREA);
    CHECK(digarumbi_total(member, length, 0, 0, no, 0, no, 0, no, 0) == 0);
    CHECK(digarumbi_totals(NULL, 0, 0, answer, DIGARUMBI_TOTALS_ANSWER, no, 0, no, 0, no, 0) == DIGARUMBI_TOTALS_ANSWER);
    CHECK(answer[DIGARUMBI_TOTALS_REFUSAL] == DIGARUMBI_REFUSED_DOES_NOT_FIT);
    CHECK(digarumbi_totals(member, length, 0, answer, DIGARUMBI_TOTALS_ANSWER, no, 0, nodes, DIGARUMBI_NODE_AREA, cells,
                           DIGARUMBI_CELL_AREA) == DIGARUMBI_TOTALS_ANSWER);
    CHECK(answer[DIGARUMBI_TOTALS_REFUSAL] == DIGARUMBI_REFUSED_OUTPUT_TOO_SHORT);
    CHECK(digarumbi_totals(member, length, 0, no, 0, no, 0, no, 0, no, 0) == 0);
}

static void values(void)
{
    CHECK(digarumbi_value(3, NULL, 0, answer, DIGARUMBI_VALUE_WORDS) == DIGARUMBI_VALUE_WORDS);
    CHECK(answer[DIGARUMBI_VALUE_REFUSAL] == DIGARUMBI_REFUSED_DOES_NOT_FIT);
    CHECK(digarumbi_value(3, NULL, 0, NULL, 0) == 0);
    CHECK(digarumbi_argument(3, NULL, 0, answer, DIGARUMBI_ARGUMENT_WORDS) == DIGARUMBI_ARGUMENT_WORDS);
    CHECK(answer[DIGARUMBI_ARGUMENT_REFUSAL] == DIGARUMBI_REFUSED_DOES_NOT_FIT);
    CHECK(digarumbi_argument(3, NULL, 0, NULL, 0) == 0);
}

static void looks(const uint8_t *look, size_t length)
{
    CHECK(digarumbi_read_look(NULL, 0, answer, DIGARUMBI_LOOK_ANSWER) == DIGARUMBI_LOOK_ANSWER);
    CHECK(answer[DIGARUMBI_REFUSAL] == DIGARUMBI_REFUSED_DOES_NOT_FIT);
    CHECK(digarumbi_read_look(look, length, NULL, 0) == 0);
    CHECK(digarumbi_rewrite_look(NULL, 0, NULL, 0, answer, DIGARUMBI_REWRITE_ANSWER) == DIGARUMBI_REWRITE_ANSWER);
    CHECK(answer[DIGARUMBI_REFUSAL] == DIGARUMBI_REFUSED_DOES_NOT_FIT);
    CHECK(digarumbi_rewrite_look(look, length, NULL, 0, answer, DIGARUMBI_REWRITE_ANSWER) == DIGARUMBI_REWRITE_ANSWER);
    CHECK(answer[DIGARUMBI_REFUSAL] == DIGARUMBI_REFUSED_OUTPUT_TOO_SHORT);
    CHECK(digarumbi_rewrite_look(look, length, NULL, 0, NULL, 0) == 0);
    CHECK(digarumbi_look_sections(NULL, 0, NULL, 0, answer, DIGARUMBI_SECTIONS_ANSWER) == DIGARUMBI_SECTIONS_ANSWER);
    CHECK(answer[DIGARUMBI_REFUSAL] == DIGARUMBI_REFUSED_DOES_NOT_FIT);
    CHECK(digarumbi_look_sections(look, length, NULL, 0, answer, DIGARUMBI_SECTIONS_ANSWER) == DIGARUMBI_SECTIONS_ANSWER);
    CHECK(answer[DIGARUMBI_REFUSAL] == DIGARUMBI_REFUSED_OUTPUT_TOO_SHORT);
    CHECK(digarumbi_look_sections(look, length, NULL, 0, NULL, 0) == 0);
}

static void texts(void)
{
    const uint8_t letter = 'A';

    CHECK(digarumbi_to_utf8(1250, NULL, 0, NULL, 0, answer, DIGARUMBI_TEXT_ANSWER) == DIGARUMBI_TEXT_ANSWER);
    CHECK(all(answer, DIGARUMBI_TEXT_ANSWER, 0));
    CHECK(digarumbi_to_utf8(1250, &letter, 1, NULL, 0, answer, DIGARUMBI_TEXT_ANSWER) == DIGARUMBI_TEXT_ANSWER);
    CHECK(answer[DIGARUMBI_REFUSAL] == DIGARUMBI_REFUSED_OUTPUT_TOO_SHORT);
    CHECK(digarumbi_to_utf8(1250, NULL, 0, NULL, 0, NULL, 0) == 0);
    CHECK(digarumbi_from_utf8(1250, NULL, 0, NULL, 0, answer, DIGARUMBI_TEXT_ANSWER) == DIGARUMBI_TEXT_ANSWER);
    CHECK(all(answer, DIGARUMBI_TEXT_ANSWER, 0));
    CHECK(digarumbi_from_utf8(1250, &letter, 1, NULL, 0, answer, DIGARUMBI_TEXT_ANSWER) == DIGARUMBI_TEXT_ANSWER);
    CHECK(answer[DIGARUMBI_REFUSAL] == DIGARUMBI_REFUSED_OUTPUT_TOO_SHORT);
    CHECK(digarumbi_from_utf8(1250, NULL, 0, NULL, 0, NULL, 0) == 0);
}

static void cases(void)
{
    static uint32_t state[DIGARUMBI_CASES_STATE];
    const uint8_t kind = DIGARUMBI_CASES_NUMERIC, code = 101;

    CHECK(digarumbi_cases_start(NULL, 0, 100, state, DIGARUMBI_CASES_STATE, answer, DIGARUMBI_CASES_ANSWER) == DIGARUMBI_CASES_ANSWER);
    CHECK(answer[DIGARUMBI_REFUSAL] == DIGARUMBI_REFUSED_CASE_STATE);
    CHECK(digarumbi_cases_start(&kind, 1, 100, NULL, 0, answer, DIGARUMBI_CASES_ANSWER) == 0);
    CHECK(digarumbi_cases_start(&kind, 1, 100, state, DIGARUMBI_CASES_STATE, NULL, 0) == 0);
    CHECK(digarumbi_cases_start(&kind, 1, 100, state, DIGARUMBI_CASES_STATE, answer, DIGARUMBI_CASES_ANSWER) == DIGARUMBI_CASES_ANSWER);
    CHECK(answer[DIGARUMBI_REFUSAL] == 0);
    CHECK(digarumbi_cases_feed(state, DIGARUMBI_CASES_STATE, NULL, 0, NULL, 0, answer, DIGARUMBI_CASES_FEED_ANSWER) ==
          DIGARUMBI_CASES_FEED_ANSWER);
    CHECK(all(answer, DIGARUMBI_CASES_FEED_ANSWER, 0));
    CHECK(digarumbi_cases_feed(state, DIGARUMBI_CASES_STATE, &code, 1, NULL, 0, answer, DIGARUMBI_CASES_FEED_ANSWER) ==
          DIGARUMBI_CASES_FEED_ANSWER);
    CHECK(all(answer, DIGARUMBI_CASES_FEED_ANSWER, 0));
    CHECK(digarumbi_cases_feed(NULL, 0, NULL, 0, NULL, 0, NULL, 0) == 0);
    CHECK(digarumbi_cases_end(NULL, 0, answer, DIGARUMBI_CASES_ANSWER) == 0);
    CHECK(digarumbi_cases_end(state, DIGARUMBI_CASES_STATE, NULL, 0) == 0);
    CHECK(digarumbi_cases_end(state, DIGARUMBI_CASES_STATE, answer, DIGARUMBI_CASES_ANSWER) == DIGARUMBI_CASES_ANSWER);
    CHECK(answer[DIGARUMBI_REFUSAL] == 0);
}

int main(int argc, char **argv)
{
    struct bytes member, look;

    if (argc != 2) {
        fprintf(stderr, "usage: null EXAMPLES\n");
        return 2;
    }
    member = file(argv[1], "spine_18.bin");
    look = file(argv[1], "look_02.tlo");
    members(member.at, member.length);
    names();
    lists(member.at, member.length);
    positions();
    totals(member.at, member.length);
    values();
    looks(look.at, look.length);
    texts();
    cases();
    free(member.at);
    free(look.at);
    return failures != 0;
}
