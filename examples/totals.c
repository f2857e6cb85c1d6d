/* Prints the total of the counts under each leaf of each dimension of a member, or why there is none.
 *
 *   gcc -std=c99 -Iinclude examples/totals.c target/lib/libdigarumbi.a -o target/totals
 *   target/totals examples/spine_1.bin
 */
#include <stdio.h>

#include "digarumbi.h"

/* One byte more than is accepted, so that a longer file is refused for its length. */
static uint8_t member[DIGARUMBI_MEMBER_BYTES + 1];
static uint32_t nodes[DIGARUMBI_NODE_AREA];
static uint32_t cells[DIGARUMBI_CELL_AREA];
static uint32_t totals[DIGARUMBI_TOTALS_AREA];

static void print_refusal(const uint32_t *answer)
{
    printf("refused %lu at %lu: %s\n", (unsigned long)answer[0], (unsigned long)answer[1], digarumbi_refusal_text(answer[0]));
}

static void print_leaf(unsigned long dimension, unsigned long leaf, const uint32_t *total)
{
    unsigned long long sum = (unsigned long long)total[DIGARUMBI_LEAF_TOTAL_HIGH] << 32 | total[DIGARUMBI_LEAF_TOTAL_LOW];

    printf("dimension %lu, leaf %lu: ", dimension, leaf);
    if (total[DIGARUMBI_LEAF_REFUSAL] != 0)
        print_refusal(total);
    else
        printf("%llu in %lu numbers, %lu texts, %lu missing\n", sum, (unsigned long)total[DIGARUMBI_LEAF_NUMBERS],
               (unsigned long)total[DIGARUMBI_LEAF_TEXTS], (unsigned long)total[DIGARUMBI_LEAF_MISSING]);
}

/* Prints the leaves of a dimension. Returns the refusal: 19 where there is no such dimension. */
static uint32_t print_dimension(size_t length, uint32_t dimension)
{
    uint32_t answer[DIGARUMBI_TOTALS_ANSWER];
    uint32_t leaf;

    digarumbi_totals(member, length, dimension, answer, DIGARUMBI_TOTALS_ANSWER, totals, DIGARUMBI_TOTALS_AREA, nodes,
                     DIGARUMBI_NODE_AREA, cells, DIGARUMBI_CELL_AREA);
    for (leaf = 0; leaf < answer[DIGARUMBI_TOTALS_LEAF_COUNT]; leaf++)
        print_leaf(dimension, leaf, totals + DIGARUMBI_TOTAL_RECORD * leaf);
    if (answer[DIGARUMBI_TOTALS_REFUSAL] != 0 && answer[DIGARUMBI_TOTALS_REFUSAL] != DIGARUMBI_REFUSED_NO_SUCH_LEAF)
        print_refusal(answer);
    return answer[DIGARUMBI_TOTALS_REFUSAL];
}

int main(int argc, char **argv)
{
    uint32_t dimension, refusal;
    size_t length;
    FILE *file;

    if (digarumbi_abi() != DIGARUMBI_ABI) {
        fprintf(stderr, "totals: compiled for version %lu of the library, linked with %lu\n", (unsigned long)DIGARUMBI_ABI,
                (unsigned long)digarumbi_abi());
        return 2;
    }
    if (argc != 2) {
        fprintf(stderr, "usage: totals FILE\n");
        return 2;
    }
    file = fopen(argv[1], "rb");
    if (file == NULL) {
        perror(argv[1]);
        return 2;
    }
    length = fread(member, 1, sizeof member, file);
    fclose(file);

    for (dimension = 0, refusal = 0; refusal == 0; dimension++)
        refusal = print_dimension(length, dimension);
    return refusal != DIGARUMBI_REFUSED_NO_SUCH_LEAF;
}
