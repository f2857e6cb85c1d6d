/* Prints the number of dimensions, categories and cells of a member, or its refusal.
 *
 *   gcc -std=c99 -Iinclude examples/read_member.c target/lib/libdigarumbi.a -o target/read_member
 *   target/read_member examples/spine_18.bin
 */
#include <stdio.h>

#include "digarumbi.h"

/* One byte more than is accepted, so that a longer file is refused for its length. */
static uint8_t member[DIGARUMBI_MEMBER_BYTES + 1];
static uint32_t nodes[DIGARUMBI_NODE_AREA];
static uint32_t cells[DIGARUMBI_CELL_AREA];

/* A category is a leaf; the other nodes are groups of them (003, Categories). */
static unsigned long leaves(const uint32_t *answer)
{
    unsigned long found = 0;
    uint32_t i;

    for (i = 0; i < answer[DIGARUMBI_DIMENSION_COUNT]; i++)
        found += answer[DIGARUMBI_DIMENSIONS + DIGARUMBI_DIMENSION_RECORD * i + DIGARUMBI_DIMENSION_N];
    return found;
}

int main(int argc, char **argv)
{
    uint32_t answer[DIGARUMBI_MEMBER_ANSWER];
    size_t length;
    FILE *file;

    if (digarumbi_abi() != DIGARUMBI_ABI) {
        fprintf(stderr, "read_member: compiled for version %lu of the library, linked with %lu\n", (unsigned long)DIGARUMBI_ABI,
                (unsigned long)digarumbi_abi());
        return 2;
    }
    if (argc != 2) {
        fprintf(stderr, "usage: read_member FILE\n");
        return 2;
    }
    file = fopen(argv[1], "rb");
    if (file == NULL) {
        perror(argv[1]);
        return 2;
    }
    length = fread(member, 1, sizeof member, file);
    fclose(file);

    digarumbi_read_member(member, length, answer, DIGARUMBI_MEMBER_ANSWER, nodes, DIGARUMBI_NODE_AREA, cells, DIGARUMBI_CELL_AREA);
    if (answer[DIGARUMBI_REFUSAL] != 0) {
        printf("refused %lu at %lu: %s\n", (unsigned long)answer[DIGARUMBI_REFUSAL], (unsigned long)answer[DIGARUMBI_PLACE],
               digarumbi_refusal_text(answer[DIGARUMBI_REFUSAL]));
        return 1;
    }
    printf("%lu dimensions, %lu categories in %lu nodes, %lu cells\n", (unsigned long)answer[DIGARUMBI_DIMENSION_COUNT],
           leaves(answer), (unsigned long)answer[DIGARUMBI_NODE_COUNT], (unsigned long)answer[DIGARUMBI_CELL_COUNT]);
    return 0;
}
