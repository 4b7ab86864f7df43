/* Stata .dta files of editions 113, 114, 115, 117 and 118, by a proved library. Link libdta.a and libdta_facts.a.
 *
 * A slice passes as a pointer and then a length; slices of one call don't overlap, and a pointer is not null, also where the length is 0. Nothing is kept after a
 * call, nothing is allocated, and any bytes may be handed in. The stack needs 512 KiB, for dta_words_across 1 MiB. Refusals are numbers of the table in document 01.
 */
#ifndef DTA_H
#define DTA_H

#include <stddef.h>
#include <stdint.h>

#ifdef __cplusplus
extern "C" {
#endif

/* A layout: edition, byte order (1 MSF, 2 LSF), K, N, fourteen positions. */
#define DTA_LAYOUT 18

/* An answer: what it is (DTA_REFUSED, ..), and its values. */
#define DTA_ANSWER 4

/* A long string in a list: v, o, kind, place, length. */
#define DTA_LONG_STRING 5

/* The verdict on a file, 0 (accepted) to 13. Its layout is stored where there is room for eighteen numbers, all zeros with a refusal; with fewer the verdict alone is
 * given and nothing is stored, so a caller who wants the verdict alone lends none (a length of 0). */
uint8_t dta_check(const uint8_t *file, size_t file_len, uint64_t *layout, size_t layout_len);

/* Writes the file's dataset in an edition (113, 114, 115, 117, 118) and a byte order (1 MSF, 2 LSF) at the start of `out`: 0, or the refusal's number, with which `out` is as
 * it came. The result's length is stored in the first place of `len`, where it has one; 0 with a refusal. */
uint8_t dta_rewrite(const uint8_t *file, size_t file_len, uint64_t edition, uint64_t order, uint8_t *out, size_t out_len, uint64_t *len, size_t len_len);

/* Questions. Those of a variable take i, those of a cell i and j, counted from 1. */
enum dta_question {
    DTA_EDITION,
    DTA_BYTE_ORDER,
    DTA_VARIABLES,
    DTA_OBSERVATIONS,
    DTA_LABEL,
    DTA_STAMP,
    DTA_TYPE_OF,
    DTA_NAME,
    DTA_FORMAT,
    DTA_LABEL_SET,
    DTA_VARIABLE_LABEL,
    DTA_IS_DATE,
    DTA_SORT_PLACE,
    DTA_CELL,
    DTA_LONG_STRING_OF,
    DTA_WORDS
};

/* The refusal of a question that is not one of these. It is no number of the table. */
#define DTA_NO_QUESTION 255

/* What an answer is, and what its values are. A place and a length are of bytes in the file. */
enum dta_answer {
    DTA_REFUSED,   /* the refusal's number */
    DTA_COUNT,     /* a number */
    DTA_YES_NO,    /* 1 or 0 */
    DTA_TYPE,      /* the type's code in editions 117 and 118 */
    DTA_PART,      /* place, length: a text of the file, or a label found */
    DTA_PLAIN,     /* no label is found: the caller's plain text is shown */
    DTA_WHOLE,     /* the number's size; 1 where it is negative */
    DTA_FLOAT,     /* the bits of a float that is a number */
    DTA_DOUBLE,    /* the bits of a double that is a number */
    DTA_LETTER,    /* a missing letter: 0 for `.`, 1 to 26 for `.a` to `.z` */
    DTA_BETWEEN,   /* between two letters, or after the last */
    DTA_OUTSIDE,   /* a pattern that is no value of its type */
    DTA_TEXT,      /* place, length: a cell's text */
    DTA_REFERENCE, /* v, o: a long string; (0, 0) is the empty text */
    DTA_LONG       /* kind, place, length: a long string; all 0 where none is meant */
};

/* The answer to a question by a layout, right or wrong: 0, or the refusal's number (16, 17). It is stored where there is room for four numbers; with fewer the
 * number alone is given and nothing is stored. A layout of fewer than eighteen numbers is taken as zeros; a question that is not one of the above is refused with
 * DTA_NO_QUESTION. */
uint8_t dta_ask(const uint8_t *file, size_t file_len, const uint64_t *layout, size_t layout_len, uint64_t question, uint64_t i, uint64_t j, uint64_t *answer, size_t answer_len);

/* The bytes that the answer to a question shows: a text of the file, or the caller's plain text where no label is found; none with a refusal or with an answer that
 * names none, and where there is no such question. Gives how many they are; they are stored at the start of `out` where it has room for all of them, else `out` is
 * left as it came. */
size_t dta_text(const uint8_t *file, size_t file_len, const uint64_t *layout, size_t layout_len, uint64_t question, uint64_t i, uint64_t j, const uint8_t *plain, size_t plain_len, uint8_t *out, size_t out_len);

/* The answer to a question about a file that is checked first: the verdict where the file is refused, else 0 or the refusal's number of the answer. The answer by
 * the file's own layout is stored where there is room for four numbers; with a refused file it is that by a layout of zeros, a refusal with 16 or 17
 * (DTA_NO_QUESTION where there is no such question). */
uint8_t dta_ask_file(const uint8_t *file, size_t file_len, uint64_t question, uint64_t i, uint64_t j, uint64_t *answer, size_t answer_len);

/* Many cells: those of variable i from observation j on, those of observation j from variable i on, and the label words of those of variable i from observation j
 * on: 0, or 16 where there is no such variable or no such observation. Each is stored as the answer to the question about it, four numbers, as many as there is room
 * for, and may be a refusal of its own (17). How many are stored is told in the first place of `count`, 0 with a refusal; a `count` without a place is left as it
 * came, and all else is as it would be, here and below. */
uint8_t dta_cells_down(const uint8_t *file, size_t file_len, const uint64_t *layout, size_t layout_len, uint64_t i, uint64_t j, uint64_t *answers, size_t answers_len, uint64_t *count, size_t count_len);
uint8_t dta_cells_along(const uint8_t *file, size_t file_len, const uint64_t *layout, size_t layout_len, uint64_t i, uint64_t j, uint64_t *answers, size_t answers_len, uint64_t *count, size_t count_len);
uint8_t dta_words_down(const uint8_t *file, size_t file_len, const uint64_t *layout, size_t layout_len, uint64_t i, uint64_t j, uint64_t *answers, size_t answers_len, uint64_t *count, size_t count_len);

/* The label words of many variables at once: those of the first listed variable in observation j and the ones after it, `rows` of them or as many as there are, then
 * those of the second in the same observations, and so on: 0, or 16 where the first variable (0 where the list is empty) or observation j is not there. Answers and
 * `count` are as above; a later variable that is not there is refused with 16 in its own answers. The answers don't depend on the order of the list, the time does:
 * the label tables of at most 32,768 variables are found in one pass where these are listed in the order of their label-set names, by the first byte that differs, a
 * name before those that it begins; else each table is looked for by itself. Variables of one label set are best listed beside each other. */
uint8_t dta_words_across(const uint8_t *file, size_t file_len, const uint64_t *layout, size_t layout_len, const uint64_t *variables, size_t variables_len, uint64_t j, uint64_t rows, uint64_t *answers, size_t answers_len, uint64_t *count, size_t count_len);

/* The verdict on a file, and of an accepted one the long strings, five numbers each; or the label sets: for each, place and length of its name and its number of entries,
 * and then for each entry its value, as 32 bits, and place and length of its text; or the variables by which it is sorted, in that order, K at most. A list with no room
 * for all of them is left as it came, and the answer is 14. How many numbers that is, with 14 too, is stored in the first place of `count`, where it has one; 0 where the
 * file is refused. So a caller may lend an empty list first, to learn how many. */
uint8_t dta_long_list(const uint8_t *file, size_t file_len, uint64_t *list, size_t list_len, uint64_t *count, size_t count_len);
uint8_t dta_set_list(const uint8_t *file, size_t file_len, uint64_t *list, size_t list_len, uint64_t *count, size_t count_len);
uint8_t dta_sort_order(const uint8_t *file, size_t file_len, uint64_t *list, size_t list_len, uint64_t *count, size_t count_len);

#ifdef __cplusplus
}
#endif

#endif
