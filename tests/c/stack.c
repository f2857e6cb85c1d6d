/* Members are read and totalled, a look is rewritten and sections are made from it in a thread with a stack of DIGARUMBI_STACK bytes; a small
 * member is read in one with a stack of DIGARUMBI_SMALL_STACK bytes, as it is, with its cells in another order, and with an index repeated.
 *
 * usage: stack EXAMPLES */
#include <pthread.h>

#include "check.h"

static uint32_t answer[DIGARUMBI_MEMBER_ANSWER];
static uint32_t totals[DIGARUMBI_TOTALS_AREA];
static uint32_t nodes[DIGARUMBI_NODE_AREA];
static uint32_t cells[DIGARUMBI_CELL_AREA];
static uint8_t out[DIGARUMBI_LONGEST_LOOK];
static struct bytes member, small, look;

static void *call_all(void *unused)
{
    digarumbi_read_member(member.at, member.length, answer, DIGARUMBI_MEMBER_ANSWER, nodes, DIGARUMBI_NODE_AREA, cells,
                          DIGARUMBI_CELL_AREA);
    CHECK(answer[DIGARUMBI_REFUSAL] == 0);
    digarumbi_total(member.at, member.length, 1, 0, answer, DIGARUMBI_TOTAL_ANSWER, nodes, DIGARUMBI_NODE_AREA, cells,
                    DIGARUMBI_CELL_AREA);
    CHECK(answer[DIGARUMBI_TOTAL_REFUSAL] == 0);
    digarumbi_totals(member.at, member.length, 1, answer, DIGARUMBI_TOTALS_ANSWER, totals, DIGARUMBI_TOTALS_AREA, nodes,
                     DIGARUMBI_NODE_AREA, cells, DIGARUMBI_CELL_AREA);
    CHECK(answer[DIGARUMBI_TOTALS_REFUSAL] == 0);
    digarumbi_rewrite_look(look.at, look.length, out, sizeof out, answer, DIGARUMBI_REWRITE_ANSWER);
    CHECK(answer[DIGARUMBI_REFUSAL] == 0);
    digarumbi_look_sections(look.at, look.length, out, sizeof out, answer, DIGARUMBI_SECTIONS_ANSWER);
    CHECK(answer[DIGARUMBI_REFUSAL] == 0);
    return unused;
}

static uint32_t read_small(void)
{
    digarumbi_read_member(small.at, small.length, answer, DIGARUMBI_MEMBER_ANSWER, nodes, DIGARUMBI_NODE_AREA, cells,
                          DIGARUMBI_CELL_AREA);
    return answer[DIGARUMBI_REFUSAL];
}

/* The first byte of the index of a cell, which stands in 8 bytes before its Value. */
static uint8_t *index_of(size_t cell)
{
    return small.at + cells[DIGARUMBI_CELL_RECORD * cell + DIGARUMBI_CELL_VALUE] - 8;
}

static void *call_small(void *unused)
{
    uint8_t first;

    CHECK(small.length <= DIGARUMBI_SMALL_MEMBER);
    CHECK(read_small() == 0);
    CHECK(answer[DIGARUMBI_CELL_COUNT] > 1);
    first = *index_of(0);
    *index_of(0) = *index_of(1);
    CHECK(read_small() == DIGARUMBI_REFUSED_CELL_INDEX);
    *index_of(1) = first;
    CHECK(read_small() == 0);
    return unused;
}

static void call(void *(*work)(void *), size_t stack)
{
    pthread_attr_t attributes;
    pthread_t thread;

    CHECK(pthread_attr_init(&attributes) == 0);
    CHECK(pthread_attr_setstacksize(&attributes, stack) == 0);
    CHECK(pthread_create(&thread, &attributes, work, NULL) == 0);
    CHECK(pthread_join(thread, NULL) == 0);
}

int main(int argc, char **argv)
{

    if (argc != 2) {
        fprintf(stderr, "usage: stack EXAMPLES\n");
        return 2;
    }
    member = file(argv[1], "spine_1.bin");
    small = file(argv[1], "spine_18.bin");
    look = file(argv[1], "look_02.tlo");
    call(call_all, DIGARUMBI_STACK);
    call(call_small, DIGARUMBI_SMALL_STACK);
    free(member.at);
    free(small.at);
    free(look.at);
    return failures != 0;
}
