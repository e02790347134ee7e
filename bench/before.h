/* The calls of an earlier library, as silo.h declares them under the library's own names. */
#ifndef BEFORE_H
#define BEFORE_H

#include "sheet.h"
#include <stdbool.h>
#include <string.h>

uint32_t before_loads(const uint8_t *sheet, size_t sheet_len, uint32_t *answers, size_t answers_len);
uint64_t before_answers_length(const uint8_t *sheet, size_t sheet_len);

enum { LEFT_OVER = 5 };

/* Whether the earlier library is from before C-13: it answers 5 wherever anything follows the sixth record, and nowhere else. */
static inline bool knows_no_headroom(void) {
    struct silo s = under_headroom(1, 1);
    struct sheet sheet = sheet_of(&s);
    return before_answers_length(sheet.bytes, sheet.length) == LEFT_OVER;
}

/* What a blank factor means, and what it meant before C-14. */
enum { BLANK = 155, BLANK_BEFORE = 135 };

/* Whether the earlier library is from before C-14: a blank factor has the list of 135 written in. */
static inline bool reads_blank_as_135(void) {
    uint32_t lists[2][MAX_ANSWERS] = {{0}};
    for (int i = 0; i < 2; i++) {
        struct silo s = tower(1, MAX_STRAKES);
        s.factor = i == 0 ? 0 : BLANK_BEFORE;
        struct sheet sheet = sheet_of(&s);
        before_loads(sheet.bytes, sheet.length, lists[i], sheet.list);
    }
    return memcmp(lists[0], lists[1], sizeof lists[0]) == 0;
}

/* Whether the earlier library is from before C-18: its list has a row for each depth, and the second number is p_hf, not the second z. */
static inline bool lists_rows(void) {
    uint32_t list[MAX_ANSWERS];
    struct silo s = tower(2, 1);
    struct sheet sheet = sheet_of(&s);
    before_loads(sheet.bytes, sheet.length, list, sheet.list);
    return list[place(&s, SILO_Z, 1)] != s.depths[1];
}

/* The earlier library's load call. Where it lists rows, its list is put into columns: the number for each load and depth is moved from
 * where it was before C-18 to where it is. */
static inline uint32_t before_loads_in_columns(bool in_rows, const uint8_t *sheet, size_t sheet_len, uint32_t *answers, size_t answers_len) {
    uint32_t rows[MAX_DEPTHS][COLUMNS], answer = before_loads(sheet, sheet_len, answers, answers_len);
    struct silo s;
    if (!in_rows || answer != 0 || read_call(sheet, sheet_len, answers_len, &s) != 0)
        return answer;
    memcpy(rows, answers, s.depth_count * sizeof *rows);
    for (uint32_t i = 0; i < s.depth_count; i++)
        for (size_t column = SILO_Z; column < COLUMNS; column++)
            answers[place(&s, column, i)] = rows[i][column];
    return answer;
}

/* Whether the earlier library is from before C-17: a long bin is calculated. */
static inline bool calculates_long_bins(void) {
    uint32_t list[MAX_ANSWERS];
    struct silo s = tower(1, 1);
    s.b = 4 * s.a;
    struct sheet sheet = sheet_of(&s);
    return before_loads(sheet.bytes, sheet.length, list, sheet.list) == 0;
}

#endif
