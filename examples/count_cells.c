/* Prints each cell of a member that is a number, and how many cells are numbers, missing and texts. A NaN is none of these.
 *
 *   gcc -std=c99 -Iinclude examples/count_cells.c target/lib/libdigarumbi.a -o target/count_cells
 *   target/count_cells examples/spine_1.bin
 */
#include <stdio.h>

#include "digarumbi.h"

/* One byte more than is accepted, so that a longer file is refused for its length. */
static uint8_t member[DIGARUMBI_MEMBER_BYTES + 1];
static uint32_t nodes[DIGARUMBI_NODE_AREA];
static uint32_t cells[DIGARUMBI_CELL_AREA];

struct counts {
    unsigned long numbers, missing, texts;
};

/* Whether these are the bits of the double that stands for a missing value. */
static int is_missing(const uint32_t *value)
{
    return value[DIGARUMBI_VALUE_BITS_LOW] == DIGARUMBI_MISSING_LOW && value[DIGARUMBI_VALUE_BITS_HIGH] == DIGARUMBI_MISSING_HIGH;
}

static void count_cell(uint32_t version, const uint32_t *cell, struct counts *counts)
{
    uint32_t value[DIGARUMBI_VALUE_WORDS];
    double number;

    /* The record of an accepted member says where its Value stands: nothing is refused of it. */
    digarumbi_value(version, member + cell[DIGARUMBI_CELL_VALUE], cell[DIGARUMBI_CELL_VALUE_LENGTH], value, DIGARUMBI_VALUE_WORDS);
    if (value[DIGARUMBI_VALUE_FORM] != DIGARUMBI_NUMBER && value[DIGARUMBI_VALUE_FORM] != DIGARUMBI_LABELLED_NUMBER) {
        counts->texts++;
    } else if (is_missing(value)) {
        counts->missing++;
    } else if (digarumbi_number(value[DIGARUMBI_VALUE_BITS_LOW], value[DIGARUMBI_VALUE_BITS_HIGH], &number)) {
        counts->numbers++;
        printf("cell %lu: %g\n", (unsigned long)cell[DIGARUMBI_CELL_INDEX], number);
    }
}

int main(int argc, char **argv)
{
    uint32_t answer[DIGARUMBI_MEMBER_ANSWER];
    struct counts counts = {0, 0, 0};
    uint32_t i;
    size_t length;
    FILE *file;

    if (digarumbi_abi() != DIGARUMBI_ABI) {
        fprintf(stderr, "count_cells: compiled for version %lu of the library, linked with %lu\n", (unsigned long)DIGARUMBI_ABI,
                (unsigned long)digarumbi_abi());
        return 2;
    }
    if (argc != 2) {
        fprintf(stderr, "usage: count_cells FILE\n");
        return 2;
    }
    file = fopen(argv[1], "rb");
    if (file == NULL) {
        perror(argv[1]);
        return 2;
    }
    length = fread(member, 1, sizeof member, file);
    fclose(file);

    digarumbi_read_member(member, length, answer, DIGARUMBI_MEMBER_ANSWER, nodes, DIGARUMBI_NODE_AREA, cells, DIGARUMBI_CELL_AREA);
    if (answer[DIGARUMBI_REFUSAL] != 0) {
        printf("refused %lu at %lu: %s\n", (unsigned long)answer[DIGARUMBI_REFUSAL], (unsigned long)answer[DIGARUMBI_PLACE],
               digarumbi_refusal_text(answer[DIGARUMBI_REFUSAL]));
        return 1;
    }
    /* The version of an accepted member, 1 or 3, is in its bytes 2 to 5. */
    for (i = 0; i < answer[DIGARUMBI_CELL_COUNT]; i++)
        count_cell(member[2], cells + DIGARUMBI_CELL_RECORD * i, &counts);
    printf("%lu numbers, %lu missing, %lu texts\n", counts.numbers, counts.missing, counts.texts);
    return 0;
}
