/* What the tests in C share: a check that is counted, and a file read whole. They compile as C99 and as C++. */
#ifndef CHECK_H
#define CHECK_H

#include <stdio.h>
#include <stdlib.h>
#include <string.h>

#include "digarumbi.h"

static int failures;

#define CHECK(condition)                                                                 \
    do {                                                                                 \
        if (!(condition)) {                                                              \
            fprintf(stderr, "%s:%d: not so: %s\n", __FILE__, __LINE__, #condition);      \
            failures++;                                                                  \
        }                                                                                \
    } while (0)

struct bytes {
    uint8_t *at;
    size_t length;
};

/* The file NAME of the folder FOLDER. */
static inline struct bytes file(const char *folder, const char *name)
{
    static uint8_t read[DIGARUMBI_MEMBER_BYTES + 1];
    struct bytes bytes;
    char path[4096];
    FILE *from;

    snprintf(path, sizeof path, "%s/%s", folder, name);
    from = fopen(path, "rb");
    if (from == NULL) {
        perror(path);
        exit(2);
    }
    bytes.length = fread(read, 1, sizeof read, from);
    fclose(from);
    /* A copy of exactly its length, so that valgrind sees a byte beyond it. */
    bytes.at = (uint8_t *)malloc(bytes.length);
    if (bytes.at == NULL)
        exit(2);
    memcpy(bytes.at, read, bytes.length);
    return bytes;
}

/* Whether all words are `word`. */
static inline int all(const uint32_t *words, size_t count, uint32_t word)
{
    size_t i;

    for (i = 0; i < count; i++)
        if (words[i] != word)
            return 0;
    return 1;
}

#endif
