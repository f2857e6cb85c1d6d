/* Digarumbi: reads light detail members, version 1 and 3, and binary table looks (.tlo), makes areas and borders of members from looks, totals
 * the counts of members, converts names in old code pages, and decodes compressed case data.
 *
 * "01", "02", "002", "003" and "004" below are the papers that the library follows: document 01 (the rules), document 02 (changes to them),
 * source document 002 (looks), source document 003 (members) and source document 004 (case data).
 *
 * Any bytes and areas of any length get an answer. The functions allocate nothing, keep nothing between calls and are reentrant:
 * threads may call them at the same time, each with areas of its own. A thread with a stack of DIGARUMBI_STACK bytes has enough for all.
 *
 * The caller owes only what every C function with pointers asks: a pointer with a length points to that many elements, aligned for
 * their type; where the length is 0 it may be NULL. A pointer without a length is never NULL. An area that is written overlaps nothing else
 * that the same call is given.
 *
 * Link with libdigarumbi.a or libdigarumbi.so, which ./build writes into target/lib (x86-64 Linux), or with the flags of
 * `pkg-config --libs digarumbi` after ./install.
 */
#ifndef DIGARUMBI_H
#define DIGARUMBI_H

#include <stddef.h>
#include <stdint.h>

#ifdef __cplusplus
extern "C" {
#endif

/* The version of this interface. A program compares it once with what the archive says that it is linked with:
 *
 *     if (digarumbi_abi() != DIGARUMBI_ABI)
 *         stop: the records do not have the words that this header says
 *
 * Before 2 there was no number, and node records had 6 words; in 2 they have 7 (02, T-07). An archive from before doesn't link with such a
 * program. A program compiled with a header from before doesn't ask: compile it anew. In 2 a version 00 look was answered as version 00, with
 * zeros where its file ends; in 3 it is answered as version 02 with 002's defaults, and the words of its continuation are no place in the
 * file (02, T-10). The number grows whenever a program that was compiled with an older header would misread an answer or a record. */
#define DIGARUMBI_ABI UINT32_C(3)

uint32_t digarumbi_abi(void);

/* Bytes of stack in which a thread can call any function. docs/BENCHMARKS.md has what each was measured to need. */
#define DIGARUMBI_STACK 524288

/* Bytes of stack in which a thread can call digarumbi_read_member with a member of at most DIGARUMBI_SMALL_MEMBER bytes. */
#define DIGARUMBI_SMALL_STACK 32768
#define DIGARUMBI_SMALL_MEMBER 2560

/* Refusal numbers (01, "Refusal numbers"). A place is an offset in the input. 0 is no refusal.
 *
 *   No.  When                                                                     Place
 *    1   member too long                                                          0
 *    2   a field doesn't fit in the input or its region                           first byte of the field
 *    3   a fixed byte, fixed number, mark or area index differs                   the field
 *    4   version neither 1 nor 3; in version 1 also a value's modifier that       version / that 31
 *        begins 31; look: version not 00 or 02
 *    5   a bool neither 0 nor 1                                                   the byte
 *    6   a region's content ends early                                            first byte left in it
 *    7   a limit passed                                                           see below
 *    8   leaf index not below n, or seen before in this dimension                 that leaf index
 *    9   axis counts don't add up / an entry is no dimension or is repeated       first count / the entry
 *   10   cell index not below the product, or seen before                         that index
 *   11   bytes left at the end                                                    first of them
 *   12   node area shorter than 7 words a node                                    0
 *   13   cell area shorter than 3 words a cell                                    0
 *   14   look: a color's high byte not 0                                          the color
 *   15   look writer, sections of a look, text, totals of a dimension: output     0
 *        too short
 *   18   a zero byte inside a string of a member; sections of a look: inside a    its first length byte
 *        font's name
 *   19   totals: a dimension or leaf that isn't there                             0
 *   20   totals: a number under the leaf that is no count                         the Value of the first such cell
 *   21   case data: a bad kind list or bias, or words that are no state           0
 *   22   case data: a code that its element can't have                            the code, in the whole stream
 *   23   case data: the end too soon                                              number of bytes taken
 *   24   text: an unknown page                                                    0
 *   25   text: a byte without an entry in the page; a character that has none,    that byte / first byte of that
 *        or isn't UTF-8 in its shortest form                                      character
 *   26   a list of more than 64 members, or of an odd number of words             0
 *   29   sections of a look: a drawn separator whose style and width have no      first byte of the separator /
 *        meaning in 002; an alignment that has none                               the alignment
 *
 * 16 was withdrawn (02, T-10). Neither it nor 17, 27 and 28 are given.
 *
 * Number 7 stands at the count for dimensions, footnotes and cells; at the first byte of the 4,097th category; at the first byte of a
 * Value or category that is too deep; for the product of all n at the first axis count; at a look's shading byte above 10; for the sections
 * of a look at a font size of 0 and above, or with a height over 1,000,000; at 0 for points, pixels and font sizes that stand alone.
 *
 * Order: 1, then the file from front to back, then 11, 12, 13, and for totals 19, then 15, then 20; for looks from front to back, then 11,
 * then 15; for the sections of a look the look's own, 11 too, then 29, 7 and 18 from front to back, then 15; for text 24, then 25 over the
 * whole input, then 15.
 * After a refusal every lent area but `answer` holds what it held before; of a list of members a refused one leaves its own shares so. */
enum {
    DIGARUMBI_REFUSED_TOO_LONG = 1,
    DIGARUMBI_REFUSED_DOES_NOT_FIT = 2,
    DIGARUMBI_REFUSED_FIXED_DIFFERS = 3,
    DIGARUMBI_REFUSED_VERSION = 4,
    DIGARUMBI_REFUSED_NOT_BOOL = 5,
    DIGARUMBI_REFUSED_REGION_NOT_FILLED = 6,
    DIGARUMBI_REFUSED_LIMIT = 7,
    DIGARUMBI_REFUSED_LEAF_INDEX = 8,
    DIGARUMBI_REFUSED_AXES = 9,
    DIGARUMBI_REFUSED_CELL_INDEX = 10,
    DIGARUMBI_REFUSED_BYTES_LEFT = 11,
    DIGARUMBI_REFUSED_NODE_AREA = 12,
    DIGARUMBI_REFUSED_CELL_AREA = 13,
    DIGARUMBI_REFUSED_COLOR = 14,
    DIGARUMBI_REFUSED_OUTPUT_TOO_SHORT = 15,
    DIGARUMBI_REFUSED_ZERO_BYTE = 18,
    DIGARUMBI_REFUSED_NO_SUCH_LEAF = 19,
    DIGARUMBI_REFUSED_NO_COUNT = 20,
    DIGARUMBI_REFUSED_CASE_STATE = 21,
    DIGARUMBI_REFUSED_CASE_CODE = 22,
    DIGARUMBI_REFUSED_CASE_END = 23,
    DIGARUMBI_REFUSED_UNKNOWN_PAGE = 24,
    DIGARUMBI_REFUSED_NO_CHARACTER = 25,
    DIGARUMBI_REFUSED_BAD_LIST = 26,
    DIGARUMBI_REFUSED_NO_MEANING = 29
};

/* What a refusal number says, in one line; never NULL. */
static inline const char *digarumbi_refusal_text(uint32_t number)
{
    switch (number) {
    case 0:
        return "no refusal";
    case DIGARUMBI_REFUSED_TOO_LONG:
        return "member too long";
    case DIGARUMBI_REFUSED_DOES_NOT_FIT:
        return "a field doesn't fit in the input or its region";
    case DIGARUMBI_REFUSED_FIXED_DIFFERS:
        return "a fixed byte, fixed number, mark or area index differs";
    case DIGARUMBI_REFUSED_VERSION:
        return "a version that isn't read, or in version 1 a value's modifier that begins 31";
    case DIGARUMBI_REFUSED_NOT_BOOL:
        return "a bool neither 0 nor 1";
    case DIGARUMBI_REFUSED_REGION_NOT_FILLED:
        return "a region's content ends early";
    case DIGARUMBI_REFUSED_LIMIT:
        return "a limit passed";
    case DIGARUMBI_REFUSED_LEAF_INDEX:
        return "leaf index not below n, or seen before in this dimension";
    case DIGARUMBI_REFUSED_AXES:
        return "axis counts don't add up, or an entry is no dimension or is repeated";
    case DIGARUMBI_REFUSED_CELL_INDEX:
        return "cell index not below the product, or seen before";
    case DIGARUMBI_REFUSED_BYTES_LEFT:
        return "bytes left at the end";
    case DIGARUMBI_REFUSED_NODE_AREA:
        return "node area shorter than 7 words a node";
    case DIGARUMBI_REFUSED_CELL_AREA:
        return "cell area shorter than 3 words a cell";
    case DIGARUMBI_REFUSED_COLOR:
        return "a color's high byte not 0";
    case DIGARUMBI_REFUSED_OUTPUT_TOO_SHORT:
        return "output too short";
    case DIGARUMBI_REFUSED_ZERO_BYTE:
        return "a zero byte inside a string";
    case DIGARUMBI_REFUSED_NO_SUCH_LEAF:
        return "a dimension or leaf that isn't there";
    case DIGARUMBI_REFUSED_NO_COUNT:
        return "a number under the leaf that is no count";
    case DIGARUMBI_REFUSED_CASE_STATE:
        return "a bad kind list or bias, or words that are no state";
    case DIGARUMBI_REFUSED_CASE_CODE:
        return "a code that its element can't have";
    case DIGARUMBI_REFUSED_CASE_END:
        return "the end too soon";
    case DIGARUMBI_REFUSED_UNKNOWN_PAGE:
        return "an unknown page";
    case DIGARUMBI_REFUSED_NO_CHARACTER:
        return "a byte without an entry in the page, or a character that has none or isn't UTF-8 in its shortest form";
    case DIGARUMBI_REFUSED_BAD_LIST:
        return "a list of more than 64 members, or of an odd number of words";
    case DIGARUMBI_REFUSED_NO_MEANING:
        return "a drawn separator whose style and width have no meaning, or an alignment that has none";
    default:
        return "no such refusal number";
    }
}

/* Sizes accepted. The product of all n is at most DIGARUMBI_MOST_PLACES. */
#define DIGARUMBI_MEMBER_BYTES 1048576
#define DIGARUMBI_MOST_DIMENSIONS 16
#define DIGARUMBI_MOST_FOOTNOTES 256
#define DIGARUMBI_MOST_NODES 4096
#define DIGARUMBI_MOST_CELLS 4096
#define DIGARUMBI_VALUE_DEPTH 8
#define DIGARUMBI_CATEGORY_DEPTH 8
#define DIGARUMBI_MOST_PLACES UINT32_C(4294967295)

/* ---- Members ---- */

/* The version of an accepted member, 1 or 3, is the number in its bytes 2 to 5, little-endian; the answer has no word for it, and its words
 * are the same for both versions. A value of a version 1 member may not have a modifier that begins 31: its long form there can't be read
 * one way only (02, T-03). */

/* Words of a member's answer. */
enum {
    DIGARUMBI_REFUSAL = 0,         /* 0 if the member is accepted */
    DIGARUMBI_PLACE = 1,           /* place of the refusal */
    DIGARUMBI_DIMENSION_COUNT = 2,
    DIGARUMBI_NODE_COUNT = 3,      /* of an accepted member, and with refusals 12 and 13 */
    DIGARUMBI_CELL_COUNT = 4,      /* likewise */
    DIGARUMBI_LAYER_COUNT = 5,     /* dimensions on the layer, row and column axis */
    DIGARUMBI_ROW_COUNT = 6,
    DIGARUMBI_COLUMN_COUNT = 7,
    DIGARUMBI_DIMENSIONS = 8,      /* 16 times 4 words, see below */
    DIGARUMBI_AXIS_ORDER = 72,     /* 16 words: the dimensions of the layers, then of the rows, then of the columns */
    DIGARUMBI_MEMBER_ANSWER = 88   /* words in all */
};

/* The four words of dimension i stand at DIGARUMBI_DIMENSIONS + DIGARUMBI_DIMENSION_RECORD * i. Those of dimensions that are not there are
 * 0. */
enum {
    DIGARUMBI_DIMENSION_NAME = 0, /* place of its name, a Value */
    DIGARUMBI_DIMENSION_NAME_LENGTH = 1,
    DIGARUMBI_DIMENSION_N = 2,          /* n, its number of leaves at any depth */
    DIGARUMBI_DIMENSION_FIRST_NODE = 3, /* which is the number of nodes before it */
    DIGARUMBI_DIMENSION_RECORD = 4      /* words in all */
};

/* Words of a node record; nodes are in file order. The nodes below node i are exactly the records directly after it, as many as its size
 * less one. */
enum {
    DIGARUMBI_NODE_KIND = 0, /* DIGARUMBI_LEAF or DIGARUMBI_GROUP */
    DIGARUMBI_NODE_DIMENSION = 1,
    DIGARUMBI_NODE_PARENT = 2, /* number of the parent node, or DIGARUMBI_NO_PARENT */
    DIGARUMBI_NODE_NAME = 3,   /* place of the name, a Value, its leading 00 bytes included */
    DIGARUMBI_NODE_NAME_LENGTH = 4,
    DIGARUMBI_NODE_INDEX = 5, /* leaf index of a leaf, number of direct children of a group */
    DIGARUMBI_NODE_SIZE = 6,  /* nodes that it contains at any depth, itself included: 1 for a leaf and for an empty group */
    DIGARUMBI_NODE_RECORD = 7 /* words in all */
};

enum {
    DIGARUMBI_LEAF = 0,
    DIGARUMBI_GROUP = 1
};

/* Words of a cell record; cells are in file order.
 *
 * A cell's index (003, Cells): k = 0; for each dimension i from the first to the last, k = n_i * k + x_i. The coordinate x_i is the leaf
 * index of the cell's category in dimension i. */
enum {
    DIGARUMBI_CELL_INDEX = 0,
    DIGARUMBI_CELL_VALUE = 1, /* place of its Value, its leading 00 bytes included: 0 to 5 of them in version 1, 0 to 4 in version 3 */
    DIGARUMBI_CELL_VALUE_LENGTH = 2,
    DIGARUMBI_CELL_RECORD = 3 /* words in all */
};

#define DIGARUMBI_NO_PARENT UINT32_C(4294967295)

/* Words that always suffice for the two record areas: 4,096 records each. */
#define DIGARUMBI_NODE_AREA 28672
#define DIGARUMBI_CELL_AREA 12288

/* Reads a member.
 *
 * Returns 88, the words of the answer. Returns 0 if `answer` has fewer than 88 words: then nothing is read and nothing changes.
 * An accepted member has its node and cell records in `nodes` and `cells`; words after the last record stay as they were. After a
 * refusal both areas stay as they were, and every word of the answer is 0 but the number and the place, and with 12 and 13 the counts
 * of nodes and cells. Words of `answer` beyond 88 stay. */
size_t digarumbi_read_member(const uint8_t *member, size_t member_length, uint32_t *answer, size_t answer_words, uint32_t *nodes,
                             size_t node_words, uint32_t *cells, size_t cell_words);

/* Reads up to 64 members of one buffer (02, T-09). `list` has two words for each member, its start in the buffer and its length; members may
 * overlap. Each area is cut into as many equal shares of words as there are members, by whole division, and what is left over at its end
 * stays as it was: with n members, member i has the words from (node_words / n) * i on of `nodes`, node_words / n of them, and likewise of
 * `cells`. Each member is read as digarumbi_read_member reads it with its two shares, whatever the others are; places are its own, and so are
 * the numbers of its nodes. A member that isn't inside the buffer is refused with 2 at 0, however long it is.
 *
 * Words of `answers`: 0 the refusal of the list, 26 or 0; 1 its place, 0; then the 88 words of each member's answer, in the order of the
 * list: those of member i from DIGARUMBI_MEMBERS + DIGARUMBI_MEMBER_ANSWER * i on.
 *
 * Returns the words of the answer: 2 + 88 * n, and 2 where the list is refused: then nothing is read, and both areas stay. Returns 0 if
 * `answers` has fewer: then nothing is read and nothing changes. Words of `answers` beyond them stay. An empty list has the answer 0, 0. */
enum {
    DIGARUMBI_MEMBERS = 2,      /* first word of the first member's answer */
    DIGARUMBI_MOST_MEMBERS = 64
};

size_t digarumbi_read_members(const uint8_t *buffer, size_t buffer_length, const uint32_t *list, size_t list_words, uint32_t *answers,
                              size_t answer_words, uint32_t *nodes, size_t node_words, uint32_t *cells, size_t cell_words);

/* The name of node i: returns its length and stores its place in the member, for the member that was read, the node area and the count
 * of nodes in the answer. Of the area only the words of `count` records are looked at, 7 words a node; an area with fewer has none
 * filled. Returns 0 and stores 0 if there is no record i among them, or if it points outside the member. */
size_t digarumbi_node_name(const uint8_t *member, size_t member_length, const uint32_t *nodes, size_t node_words, size_t count,
                           size_t i, size_t *place);

/* The node after node i and all the nodes below it, by word 6 of its record: the next one with the same parent, or where the group that
 * node i stands in ends. `count` where there is none. Of the area the same words are looked at as by digarumbi_node_name, and no word is
 * trusted: if there is no record i among them, or its word 6 is 0 or more than the nodes that there are, the answer is `count`. So for
 * every i below `count` it is greater than i and at most `count`, whatever the words are. The direct children of node i:
 *
 *     end = digarumbi_node_after(nodes, node_words, count, i);
 *     for (child = i + 1; child < end; child = digarumbi_node_after(nodes, node_words, count, child))
 */
size_t digarumbi_node_after(const uint32_t *nodes, size_t node_words, size_t count, size_t i);

/* The length of the part of the member at `place`: `length`, or 0 if that part doesn't lie inside the member. */
size_t digarumbi_part(const uint8_t *member, size_t member_length, size_t place, size_t length);

/* ---- Values ---- */

/* Names and cells are Values (003, Value): where a record says, with the length that it says. What such a Value says, digarumbi_value
 * answers, by the version of the member:
 *
 *     digarumbi_value(version, member + place, length, answer, DIGARUMBI_VALUE_WORDS)
 *
 * Words of a Value's answer. Places are offsets in the bytes given. Words of fields that a form hasn't are 0; after a refusal all but the
 * number and the place are. */
enum {
    DIGARUMBI_VALUE_REFUSAL = 0,      /* 0 if the bytes begin with a Value */
    DIGARUMBI_VALUE_PLACE = 1,        /* place of the refusal */
    DIGARUMBI_VALUE_LENGTH = 2,       /* bytes of the Value, its leading 00 bytes included */
    DIGARUMBI_VALUE_ZEROS = 3,        /* how many 00 bytes lead: 0 to 4 in version 3, 0 to 5 in version 1 */
    DIGARUMBI_VALUE_FORM = 4,         /* one of the forms below */
    DIGARUMBI_VALUE_FORMAT = 5,       /* forms 1, 2 and 4 */
    DIGARUMBI_VALUE_BITS_LOW = 6,     /* the double's bits, forms 1 and 2: see digarumbi_number */
    DIGARUMBI_VALUE_BITS_HIGH = 7,
    DIGARUMBI_VALUE_SHOW = 8,         /* forms 2, 4 and 5: 1 the value or name, 2 the label, 3 both, 0 the table's default */
    DIGARUMBI_VALUE_FIXED = 9,        /* form 3: 0 or 1 */
    DIGARUMBI_VALUE_TEXT = 10,        /* place of local (forms 3 and 6), s (form 4) or the template (form 7) */
    DIGARUMBI_VALUE_TEXT_LENGTH = 11,
    DIGARUMBI_VALUE_NAME = 12,        /* place of var-name (forms 2, 4 and 5) */
    DIGARUMBI_VALUE_NAME_LENGTH = 13,
    DIGARUMBI_VALUE_LABEL = 14,       /* place of value-label (forms 2 and 4) or var-label (form 5) */
    DIGARUMBI_VALUE_LABEL_LENGTH = 15,
    DIGARUMBI_VALUE_ID = 16,          /* place of id (forms 3 and 6) */
    DIGARUMBI_VALUE_ID_LENGTH = 17,
    DIGARUMBI_VALUE_C = 18,           /* place of c (forms 3 and 6) */
    DIGARUMBI_VALUE_C_LENGTH = 19,
    DIGARUMBI_VALUE_ARGUMENTS = 20,   /* number of arguments of a template, form 7 */
    DIGARUMBI_VALUE_ARGUMENT = 21,    /* place where the first of them starts, or would */
    DIGARUMBI_VALUE_WORDS = 22        /* words in all */
};

/* The forms of a Value, by its first byte after the 00 bytes. */
enum {
    DIGARUMBI_NUMBER = 1,          /* 01: a number */
    DIGARUMBI_LABELLED_NUMBER = 2, /* 02: a number, with the variable that it is a value of, and its label */
    DIGARUMBI_TEXT = 3,            /* 03: a text, fixed or from the user */
    DIGARUMBI_STRING = 4,          /* 04: a string, with the variable that it is a value of, and its label */
    DIGARUMBI_VARIABLE = 5,        /* 05: a variable, with its label */
    DIGARUMBI_FIXED_TEXT = 6,      /* 06: a fixed text */
    DIGARUMBI_TEMPLATE = 7         /* 31 or 58: a template with arguments */
};

/* Reads the Value at the start of the bytes; other bytes may follow it.
 *
 * Refusals: 1 at 0 if there are more than 1,048,576 bytes; then 4 at 0 if `version` is neither 1 nor 3; then those of reading a Value by
 * the grammar from place 0, nested up to 8 deep, after up to four 00 bytes in version 3 and five in version 1, be it a cell's or not.
 * Nothing is refused of the bytes that a record of an accepted member says, by the version of that member; the length is the record's.
 *
 * Returns 22, the words of the answer. Returns 0 if `answer` has fewer: then nothing is read and nothing changes. Words of `answer`
 * beyond 22 stay. */
size_t digarumbi_value(uint32_t version, const uint8_t *value, size_t value_length, uint32_t *answer, size_t answer_words);

/* Words of an argument's answer (003, Argument); after a refusal all but the number and the place are 0. */
enum {
    DIGARUMBI_ARGUMENT_REFUSAL = 0, /* 0 if the bytes begin with an Argument */
    DIGARUMBI_ARGUMENT_PLACE = 1,   /* place of the refusal */
    DIGARUMBI_ARGUMENT_LENGTH = 2,  /* bytes of the Argument */
    DIGARUMBI_ARGUMENT_VALUES = 3,  /* how many Values it has: x, or 1 where its first number is 0 */
    DIGARUMBI_ARGUMENT_VALUE = 4,   /* place where the first of them starts: 4 or 8 */
    DIGARUMBI_ARGUMENT_WORDS = 5    /* words in all */
};

/* Reads the Argument at the start of the bytes; other bytes may follow it. Its Values may be nested 7 deep, since the template that it
 * stands in is one level. The order of refusals is that of digarumbi_value. The arguments of a template follow one another, and so do the
 * Values of an argument:
 *
 *     place = answer[DIGARUMBI_VALUE_ARGUMENT];
 *     for (i = 0; i < answer[DIGARUMBI_VALUE_ARGUMENTS]; i++) {
 *         digarumbi_argument(version, value + place, value_length - place, argument, DIGARUMBI_ARGUMENT_WORDS);
 *         its first Value is at place + argument[DIGARUMBI_ARGUMENT_VALUE]
 *         place += argument[DIGARUMBI_ARGUMENT_LENGTH];
 *     }
 *
 * Returns 5, the words of the answer. Returns 0 if `answer` has fewer: then nothing is read and nothing changes. Words of `answer` beyond
 * 5 stay. */
size_t digarumbi_argument(uint32_t version, const uint8_t *argument, size_t argument_length, uint32_t *answer, size_t answer_words);

/* The double of these bits. Returns 1 and stores it; returns 0 and stores 0 if the bits are a NaN's. */
uint32_t digarumbi_number(uint32_t low, uint32_t high, double *number);

/* The bits of the double that stands for a missing value, minus the largest finite one (003, Value). */
#define DIGARUMBI_MISSING_LOW UINT32_C(0xffffffff)
#define DIGARUMBI_MISSING_HIGH UINT32_C(0xffefffff)

/* ---- Totals under a leaf (02, T-01) ---- */

/* A cell is under a leaf of a dimension when its coordinate there is the leaf's index. Values of form 1 and 2 are number cells, all others
 * text cells. The double that stands for a missing value is counted apart and is no number. Every other double must be a count: a whole
 * number from 0 to 4,294,967,295, minus zero as 0. The cells under other leaves don't matter. Where no cell of the table is refused, the
 * totals over all leaves of any one dimension add up to the same.
 *
 * A dimension is given by its number in file order, a leaf by its leaf index. */

/* Words of the answer of digarumbi_total. Doubles are given by their bits, low word first: see digarumbi_number. */
enum {
    DIGARUMBI_TOTAL_REFUSAL = 0,       /* 0 if there is a total */
    DIGARUMBI_TOTAL_PLACE = 1,         /* place of the refusal */
    DIGARUMBI_TOTAL_NODE_COUNT = 2,    /* of an accepted member, and with refusals 12 and 13 */
    DIGARUMBI_TOTAL_CELL_COUNT = 3,    /* likewise */
    DIGARUMBI_TOTAL_LOW = 4,           /* the sum of the number cells, 64 bits */
    DIGARUMBI_TOTAL_HIGH = 5,
    DIGARUMBI_TOTAL_NUMBERS = 6,       /* how many number cells, text cells and missing cells there are */
    DIGARUMBI_TOTAL_TEXTS = 7,
    DIGARUMBI_TOTAL_MISSING = 8,
    DIGARUMBI_TOTAL_SMALLEST_LOW = 9,  /* the smallest number, 0 if there is none */
    DIGARUMBI_TOTAL_SMALLEST_HIGH = 10,
    DIGARUMBI_TOTAL_LARGEST_LOW = 11,  /* the largest number, 0 if there is none */
    DIGARUMBI_TOTAL_LARGEST_HIGH = 12,
    DIGARUMBI_TOTAL_ANSWER = 13        /* words in all */
};

/* Reads a member and totals the cells under a leaf.
 *
 * Refusals: the member's own; 19 at 0; 20 at the Value of the first cell under the leaf, in file order, whose number is no count. After a
 * refusal both areas stay as they were, and every word of the answer is 0 but the number and the place, and with 12 and 13 the counts of
 * nodes and cells. Else the areas hold the records, as after digarumbi_read_member.
 *
 * Returns 13, the words of the answer. Returns 0 if `answer` has fewer: then nothing is read and nothing changes. Words of `answer` beyond
 * 13 stay. */
size_t digarumbi_total(const uint8_t *member, size_t member_length, uint32_t dimension, uint32_t leaf, uint32_t *answer,
                       size_t answer_words, uint32_t *nodes, size_t node_words, uint32_t *cells, size_t cell_words);

/* Words of the answer of digarumbi_totals. */
enum {
    DIGARUMBI_TOTALS_REFUSAL = 0,    /* 0 if there are totals */
    DIGARUMBI_TOTALS_PLACE = 1,      /* place of the refusal */
    DIGARUMBI_TOTALS_NODE_COUNT = 2, /* of an accepted member, and with refusals 12 and 13 */
    DIGARUMBI_TOTALS_CELL_COUNT = 3, /* likewise */
    DIGARUMBI_TOTALS_LEAF_COUNT = 4, /* n of the dimension, when there are totals, and with refusal 15 */
    DIGARUMBI_TOTALS_ANSWER = 5      /* words in all */
};

/* Words of a total record. Leaf i has the record that starts at word 11 * i of `totals`: what digarumbi_total answers for that leaf. After
 * a 20 all but the refusal and the place are 0. */
enum {
    DIGARUMBI_LEAF_REFUSAL = 0, /* 0 or 20 */
    DIGARUMBI_LEAF_PLACE = 1,
    DIGARUMBI_LEAF_TOTAL_LOW = 2,
    DIGARUMBI_LEAF_TOTAL_HIGH = 3,
    DIGARUMBI_LEAF_NUMBERS = 4,
    DIGARUMBI_LEAF_TEXTS = 5,
    DIGARUMBI_LEAF_MISSING = 6,
    DIGARUMBI_LEAF_SMALLEST_LOW = 7,
    DIGARUMBI_LEAF_SMALLEST_HIGH = 8,
    DIGARUMBI_LEAF_LARGEST_LOW = 9,
    DIGARUMBI_LEAF_LARGEST_HIGH = 10,
    DIGARUMBI_TOTAL_RECORD = 11 /* words in all */
};

/* Words that always suffice for the total records: 4,096 of them. */
#define DIGARUMBI_TOTALS_AREA 45056

/* Reads a member once and totals the cells under each leaf of a dimension.
 *
 * Refusals of the call: the member's own; 19 at 0 for a dimension that isn't there; 15 at 0 if `totals` has fewer than 11 words a leaf.
 * After one of them `totals` and both areas stay as they were, and every word of the answer is 0 but the number and the place, with 12
 * and 13 the counts of nodes and cells, and with 15 the number of leaves. Else `totals` holds the total records, of which each has its
 * own refusal, and the areas hold the records. Words of `totals` after the last record stay.
 *
 * Returns 5, the words of the answer. Returns 0 if `answer` has fewer: then nothing is read and nothing changes. Words of `answer` beyond
 * 5 stay. */
size_t digarumbi_totals(const uint8_t *member, size_t member_length, uint32_t dimension, uint32_t *answer, size_t answer_words,
                        uint32_t *totals, size_t total_words, uint32_t *nodes, size_t node_words, uint32_t *cells, size_t cell_words);

/* ---- Positions of cells (02, T-11) ---- */

/* Where a cell stands in the table. The member's answer has what is asked here: the n of the dimensions, how many of them are on the layer,
 * row and column axis, and the axis order: the dimensions of the layers, then of the rows, then of the columns, inner ones first. With other
 * counts and another order the same cell stands elsewhere, and its index is the same.
 *
 * A position on an axis is built from the axis's last dimension to its first: k = n * k + x, x being the coordinate. An axis with no
 * dimensions has position 0. Indexes below the product of all n and triples of positions, each below its axis's product, correspond one to one.
 *
 * Refusals, all at place 0, in this order: 7 for more than 16 dimensions or a product of all n above 4,294,967,295 (an n of 0 makes it 0);
 * 9 for counts that don't add up to the number of dimensions or an order that isn't each dimension once, also where order_words is another
 * number; 10 for an index not below the product, or a position not below its axis's product, so for every one if an n is 0. */
enum {
    DIGARUMBI_POSITION_REFUSAL = 0,
    DIGARUMBI_POSITION_PLACE = 1,
    DIGARUMBI_POSITION_LAYER = 2,
    DIGARUMBI_POSITION_ROW = 3,
    DIGARUMBI_POSITION_COLUMN = 4,
    DIGARUMBI_POSITION_WORDS = 5
};

/* The position of the cell with that index.
 *
 * Returns 5, with the words above at the front of `answer`; all but the refusal are 0 after one. Returns 0 if `answer` has fewer: then
 * nothing changes. */
size_t digarumbi_position(const uint32_t *ns, size_t dimensions, uint32_t layers, uint32_t rows, uint32_t columns, const uint32_t *order,
                          size_t order_words, uint32_t index, uint32_t *answer, size_t answer_words);

enum {
    DIGARUMBI_INDEX_REFUSAL = 0,
    DIGARUMBI_INDEX_PLACE = 1,
    DIGARUMBI_INDEX_INDEX = 2,
    DIGARUMBI_INDEX_WORDS = 3
};

/* The index of the cell at that position. Returns 3, likewise. */
size_t digarumbi_index(const uint32_t *ns, size_t dimensions, uint32_t layers, uint32_t rows, uint32_t columns, const uint32_t *order,
                       size_t order_words, uint32_t layer, uint32_t row, uint32_t column, uint32_t *answer, size_t answer_words);

/* ---- Looks ---- */

/* Each class name that 002 quotes has its length before its letters, 16 bits, little-endian: PTTableLook 11, PVSeparatorStyle 16,
 * PVCellStyle 11, PVTextStyle 11. The length is one field and the letters are the next, so a wrong length is number 3 at its first byte
 * whatever follows it. */

/* The answer of digarumbi_read_look has 264 words: refusal, place, and from word DIGARUMBI_LOOK on the look, in file order. After a refusal
 * the look's words are all 0. */
enum {
    DIGARUMBI_LOOK = 2,           /* first word of the look */
    DIGARUMBI_LOOK_ANSWER = 264,  /* words in all */
    DIGARUMBI_REWRITE_ANSWER = 3, /* words of the answer of digarumbi_rewrite_look */
    DIGARUMBI_SECTIONS_ANSWER = 3 /* words of the answer of digarumbi_look_sections */
};

/* Files of version 00 and 02 are accepted. The version of an accepted file is its byte DIGARUMBI_LOOK_VERSION_PLACE, 0 or 2; what is answered is
 * a version 02 look for both (02, T-10). A version 00 file ends where 002's V2Styles would begin, so the words from
 * DIGARUMBI_LOOK_V2_SEPARATORS on are then 002's defaults: the four separators of the inner frame drawn with color 0, style 0 and width 1, the
 * other seven not drawn, the default continuation, widths of 36 and 72, heights of 36 and 120. */
#define DIGARUMBI_LOOK_VERSION_PLACE 17

/* Words of a look, counted from its first. */
enum {
    DIGARUMBI_LOOK_VERSION = 0, /* 2 for every accepted look */
    DIGARUMBI_LOOK_FLAGS = 1,
    DIGARUMBI_LOOK_NESTED_ROW_LABELS = 2,          /* 0 or 1 */
    DIGARUMBI_LOOK_FOOTNOTE_MARKER_SUBSCRIPTS = 3, /* 0 or 1 */
    DIGARUMBI_LOOK_ROW_SEPARATORS = 4,             /* horizontal dimension, vertical dimension, horizontal category, vertical category (sep1) */
    DIGARUMBI_LOOK_COLUMN_SEPARATORS = 20,         /* likewise (sep2) */
    DIGARUMBI_LOOK_TITLE = 36,                     /* the title area */
    DIGARUMBI_LOOK_AREAS = 58,                     /* layers, corner, row labels, column labels, data, caption, footer */
    DIGARUMBI_LOOK_V2_SEPARATORS = 212,            /* title; inner frame left, right, top, bottom; outer frame likewise; left and top of
                                                      the data area (sep3) */
    DIGARUMBI_LOOK_CONTINUATION = 256,             /* place of the continuation, or DIGARUMBI_LOOK_DEFAULT_CONTINUATION */
    DIGARUMBI_LOOK_CONTINUATION_LENGTH = 257,      /* 7 for the default */
    DIGARUMBI_LOOK_MIN_COL_WIDTH = 258,
    DIGARUMBI_LOOK_MAX_COL_WIDTH = 259,
    DIGARUMBI_LOOK_MIN_ROW_HEIGHT = 260,
    DIGARUMBI_LOOK_MAX_ROW_HEIGHT = 261
};

/* Stands for the place of the continuation of a version 00 file, which has none: it is 002's default, the 7 letters "(Cont.)". The same
 * letters stored in a version 02 file have their place, and are the same continuation. */
#define DIGARUMBI_LOOK_DEFAULT_CONTINUATION UINT32_C(4294967295)
#define DIGARUMBI_LOOK_DEFAULT_CONTINUATION_LETTERS "(Cont.)"

/* Words of a separator. Color, style and width are 0 where it isn't drawn. */
enum {
    DIGARUMBI_SEPARATOR_DRAWN = 0, /* 0 or 1 */
    DIGARUMBI_SEPARATOR_COLOR = 1,
    DIGARUMBI_SEPARATOR_STYLE = 2,
    DIGARUMBI_SEPARATOR_WIDTH = 3,
    DIGARUMBI_SEPARATOR_RECORD = 4 /* words in all */
};

/* Words of an area. */
enum {
    DIGARUMBI_AREA_COLOR10 = 0,
    DIGARUMBI_AREA_COLOR0 = 1,
    DIGARUMBI_AREA_SHADING = 2,
    DIGARUMBI_AREA_VALIGN = 3,
    DIGARUMBI_AREA_HALIGN = 4,
    DIGARUMBI_AREA_DECIMAL_OFFSET = 5,
    DIGARUMBI_AREA_LEFT_MARGIN = 6,
    DIGARUMBI_AREA_RIGHT_MARGIN = 7,
    DIGARUMBI_AREA_TOP_MARGIN = 8,
    DIGARUMBI_AREA_BOTTOM_MARGIN = 9,
    DIGARUMBI_AREA_FONT_SIZE = 10, /* signed, two's complement */
    DIGARUMBI_AREA_STRETCH = 11,
    DIGARUMBI_AREA_ROTATION_ANGLE = 12,
    DIGARUMBI_AREA_WEIGHT = 13,
    DIGARUMBI_AREA_ITALIC = 14, /* 0 or 1, and so are the next two */
    DIGARUMBI_AREA_UNDERLINE = 15,
    DIGARUMBI_AREA_STRIKETHROUGH = 16,
    DIGARUMBI_AREA_RTF_CHARSET_NUMBER = 17,
    DIGARUMBI_AREA_X = 18,
    DIGARUMBI_AREA_FONT_NAME = 19, /* place of the font's name */
    DIGARUMBI_AREA_FONT_NAME_LENGTH = 20,
    DIGARUMBI_AREA_TEXT_COLOR = 21,
    DIGARUMBI_AREA_RECORD = 22 /* words in all */
};

/* Bytes of the longest look. */
#define DIGARUMBI_LONGEST_LOOK 3160

/* Reads a look. Returns 264, the words of the answer. Returns 0 if `answer` has fewer: then nothing is read and nothing changes.
 * Words of `answer` beyond 264 stay. */
size_t digarumbi_read_look(const uint8_t *file, size_t file_length, uint32_t *answer, size_t answer_words);

/* Reads a look and writes it into `out`. An accepted version 02 file is written back byte for byte. A version 00 file is written as the
 * version 02 file of the look that digarumbi_read_look answers for it, 78 bytes longer; that file reads as the same look.
 *
 * The answer has 3 words: refusal, place, and the length written, 0 after a refusal. Refusals: those of digarumbi_read_look; then 15 at 0 if
 * `out` is shorter than the file that would be written. Returns 3; returns 0 if `answer` has fewer: then nothing is read and nothing
 * changes. Nothing is written after a refusal. Bytes of `out` beyond the length and words of `answer` beyond 3 stay. */
size_t digarumbi_rewrite_look(const uint8_t *file, size_t file_length, uint8_t *out, size_t out_length, uint32_t *answer,
                              size_t answer_words);

/* Bytes of the longest sections: 804, and eight names of fonts of 255 bytes each. */
#define DIGARUMBI_LONGEST_SECTIONS 2844

/* Reads a look, from a file of either version, and writes the Areas and Borders sections of a version 3 member into `out`, as 003 lays them
 * out (02, T-12): 804 bytes and those of the eight names of fonts. In a version 3 member they can stand in the place of its own two sections;
 * its records are then the same but for the places, which are moved by the difference of the lengths.
 *
 * Areas and borders are matched by name and stand in the order of their numbers; no 00 stands before the areas. Of an area:
 *
 *     typeface        the font's name
 *     size            the font's height, which is in pixels already: 96ths of an inch
 *     style           1 for a weight of 700 and above, 2 for italic, their sum for both
 *     underline       as in the look
 *     halign          2, 4, 0, 64173, 61453 for the look's 0 to 4: left, right, center, mixed, decimal
 *     valign          1, 3, 0 for the look's 0 to 2: top, bottom, center
 *     fg-color        the color of the text, as # and six small hex digits: red, green, blue
 *     bg-color        each part (shading * color10 + (10 - shading) * color0) / 10, rounded down, likewise
 *     alternate       0, and two empty strings
 *     margins         unsigned 20ths of a point, divided by 20 and rounded down, then times 133/100 and rounded up: pixels
 *
 * Of a border: 0, no line, in opaque black where its separator isn't drawn; else the separator's color, opaque, and the line of its style and
 * width: style 0 is thin (4) with width 0, solid (1) with 1, thick (3) with 2 and 3; style 1 is double (5) with width 0 and 1; style 2 is
 * dashed (2) with any width. Grid lines are off. The look's other fields are left out.
 *
 * The answer has 3 words: refusal, place, and the length written, 0 after a refusal. Refusals: those of digarumbi_read_look, all of them;
 * then, at their places in the file and in its order, 29 at a drawn separator whose style and width are none of these and at a valign or halign
 * that is none of these, 7 at a font size of 0 and above or with a height over 1,000,000, and 18 at the length byte of a font's name with a
 * zero byte in it; then 15 at 0 if `out` is too short. Returns 3; returns 0 if `answer` has fewer: then nothing is read and nothing changes.
 * Nothing is written after a refusal. Bytes of `out` beyond the length and words of `answer` beyond 3 stay. */
size_t digarumbi_look_sections(const uint8_t *look, size_t look_length, uint8_t *out, size_t out_length, uint32_t *answer,
                               size_t answer_words);

/* ---- Text in old code pages ---- */

/* The strings of members and looks are bytes. These two functions convert text between windows-1250, 1251 or 1252 and UTF-8, by the mapping
 * files that Unicode publishes (CP1250.TXT to CP1252.TXT). Bytes under 128, 00 too, stand for themselves. Some bytes have no entry, and
 * there is no fallback to control characters: 81, 83, 88, 90, 98 in windows-1250; 98 in windows-1251; 81, 8D, 8F, 90, 9D in windows-1252. What
 * one function writes the other turns back, page by page. */
enum {
    DIGARUMBI_WINDOWS_1250 = 1250,
    DIGARUMBI_WINDOWS_1251 = 1251,
    DIGARUMBI_WINDOWS_1252 = 1252,

    DIGARUMBI_TEXT_ANSWER = 3, /* words of the answer */
    DIGARUMBI_TEXT_LENGTH = 2  /* the word that is the length written; 0 and 1 are DIGARUMBI_REFUSAL and DIGARUMBI_PLACE */
};

/* Text in `page` to UTF-8, in `out`. Three times `in_length` bytes of output always suffice.
 *
 * The answer has 3 words: refusal, place, and the length written, 0 after a refusal. Returns 3; returns 0 if `answer` has fewer: then nothing
 * is read and nothing changes. Nothing is written after a refusal. Bytes of `out` beyond the length and words of `answer` beyond 3 stay.
 * Of a place and a length the answer has the lowest 32 bits: all of them where `in_length` and `out_length` are below 4,294,967,296. */
size_t digarumbi_to_utf8(uint32_t page, const uint8_t *in, size_t in_length, uint8_t *out, size_t out_length, uint32_t *answer,
                         size_t answer_words);

/* UTF-8 to text in `page`, in `out`, likewise. `in_length` bytes of output always suffice. Truncated and overlong forms, surrogates, code points
 * above 10FFFF and stray continuation bytes are number 25 at the first byte of the character: `41 C4 41` is 25 at 1. */
size_t digarumbi_from_utf8(uint32_t page, const uint8_t *in, size_t in_length, uint8_t *out, size_t out_length, uint32_t *answer,
                           size_t answer_words);

/* ---- Compressed case data (004, "Data Record", compression 1; 02, T-05) ---- */

/* A stream of case data is decoded as it arrives: a state that the caller lends is started once, then fed with bytes in cuts of any length and an
 * output of any length, and at last told of the end. What comes out does not depend on the cuts or on the room that each call had.
 *
 * The stream has groups of eight codes, and after each group the 8-byte blocks that its codes ask for. An element has 8 bytes: a double,
 * little-endian, or 8 bytes of a string. A case has as many elements as there are kinds; after the last the next case begins.
 *
 *     code        numeric element               string element
 *     0           skipped, no element           skipped, no element
 *     1 to 251    the double code - bias        eight zero bytes if it is the bias, else 22
 *     252         the data ends: no byte is taken and no code acts after it
 *     253         the next block                the next block
 *     254         22                            eight spaces
 *     255         the missing double            22
 *
 * The missing double is minus the largest finite one. */

/* Words of a state. They are opaque: the caller keeps them and hands them back. Words whose numbers do not fit together are refused, 21. */
#define DIGARUMBI_CASES_STATE 268

/* Kinds of elements. */
enum {
    DIGARUMBI_CASES_NUMERIC = 0,
    DIGARUMBI_CASES_STRING = 1
};

/* Words of the answers of digarumbi_cases_start and digarumbi_cases_end, and of digarumbi_cases_feed. */
enum {
    DIGARUMBI_CASES_ANSWER = 2,
    DIGARUMBI_CASES_FEED_ANSWER = 4
};

/* Starts a stream: a byte for the kind of each element of a case, 1 to 256 of them, and the bias, 0 to 255 (100 in real files).
 *
 * The answer has 2 words: refusal, place. 21 at 0 for a bad kind list or bias: then the state stays as it was. Else all its words are set.
 * Returns 2; returns 0 if `answer` has fewer than 2 words or `state` fewer than DIGARUMBI_CASES_STATE: then nothing changes. */
size_t digarumbi_cases_start(const uint8_t *kinds, size_t kinds_length, uint32_t bias, uint32_t *state, size_t state_words,
                             uint32_t *answer, size_t answer_words);

/* Takes bytes of the input and writes elements at the front of the output, as long as it can; output beyond the elements stays. There is room
 * for output_length / 8 elements, and while none fits no byte is taken. What was not taken is offered again. A call stops at its last
 * element, so the stream is decoded once a call with room, offered all that is left, takes and writes nothing.
 *
 * The answer has 4 words: refusal, place, bytes taken, elements written. 22 and 7 come with the elements before them and the bytes taken, and each
 * later call answers them again, with nothing taken or written. 7 stands at 4,294,967,295, the first byte too many. 21 at 0 for words that
 * are no state: then nothing changes but the answer.
 * Returns 4; returns 0 if `answer` has fewer than 4 words or `state` fewer than DIGARUMBI_CASES_STATE: then nothing changes. */
size_t digarumbi_cases_feed(uint32_t *state, size_t state_words, const uint8_t *input, size_t input_length, uint8_t *output,
                            size_t output_length, uint32_t *answer, size_t answer_words);

/* Tells of the end of the stream, and changes no state.
 *
 * The answer has 2 words: refusal, place. 23 at the number of bytes taken, if no 252 has acted and a code is still to act, a group or a block is
 * unfinished or a case is incomplete. 22 and 7 if the state has them, 21 as above.
 * Returns 2; returns 0 if `answer` has fewer than 2 words or `state` fewer than DIGARUMBI_CASES_STATE: then nothing changes. */
size_t digarumbi_cases_end(const uint32_t *state, size_t state_words, uint32_t *answer, size_t answer_words);

/* ---- Points, pixels and font heights ---- */

/* Each returns 0 and stores the result, or returns the refusal number 7 and stores 0. */

/* Points times 133/100, rounded up. Refused above 1,000,000. */
uint32_t digarumbi_pt_to_px(uint32_t points, uint32_t *pixels);

/* Pixels times 100/133, rounded down. Refused above 1,330,000. */
uint32_t digarumbi_px_to_pt(uint32_t pixels, uint32_t *points);

/* The height of a font of a look in 96ths of an inch: the negative of its size. Refused for a size of 0 and above. */
uint32_t digarumbi_font_height(int32_t size, uint32_t *height);

#ifdef __cplusplus
}
#endif

#endif
