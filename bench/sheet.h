/* What the measured programs share: a sheet's numbers, its reading with refusals 1 to 12, 17 and 20, its load depths and discharge factors,
 * the order of the answer list, and the silos whose sheets are measured. */
#ifndef SHEET_H
#define SHEET_H

#include "silo.h"
#include <stddef.h>
#include <stdint.h>

enum { RECORDS = 7, MAX_SHEET = 1024, MAX_STRAKES = 24, MAX_DEPTHS = 200, BOTTOM = 10 };

/* How many columns the answer list has. */
enum { COLUMNS = SILO_P_P + 1 };

enum { MAX_ANSWERS = COLUMNS * MAX_DEPTHS + BOTTOM + MAX_STRAKES };
enum { LINE = 9 * COLUMNS + 1, SHORT_LINE = 9 + 1, MAX_PAGE = LINE * (1 + MAX_DEPTHS) + SHORT_LINE * (BOTTOM + MAX_STRAKES) };

/* mm, N/m3 and hundredths; a circle has a = b, a sheet of six records a headroom of 0. */
struct silo {
    uint32_t a, b, weight, ratio, friction, factor, e_i, e_o, hopper, run, headroom;
    uint32_t strake_count, depth_count;
    uint32_t strakes[MAX_STRAKES], depths[MAX_DEPTHS];
};

/* The refusal of a long bin, which the length call does not judge. */
enum { UNEQUAL = 20 };

/* The refusal of the load call with a list of that length, or 0 with the silo's numbers, a factor of 0 read as 155. */
uint32_t read_call(const uint8_t *sheet, size_t sheet_len, size_t answers_len, struct silo *s);

/* The length call as silo.h declares it. */
uint64_t read_length(const uint8_t *sheet, size_t length);

size_t answers_length(const struct silo *s);

/* The bytes of its page. */
size_t page_length(const struct silo *s);

/* V, the sum of the strakes. */
uint32_t foot_of(const struct silo *s);

/* d, or the shorter side. */
uint32_t width_of(const struct silo *s);

/* Where the loads at a depth are taken: the larger of 0 and z - g. */
static inline uint32_t load_depth(const struct silo *s, uint32_t z) {
    return z > s->headroom ? z - s->headroom : 0;
}

/* Where the answer list has a load, such as SILO_P_HE, of depth i, counted from 0: all z first, then all p_hf, and so on. */
static inline size_t place(const struct silo *s, size_t column, size_t i) {
    return column * s->depth_count + i;
}

/* Where the bottom's numbers stand, and the strakes' after them. */
static inline uint32_t *bottom_of(const struct silo *s, uint32_t *answers) {
    return answers + place(s, COLUMNS, 0);
}

/* C_h and C_w, exact, over one bottom. */
struct factors {
    uint64_t c_h, c_w, bottom;
};

/* Document 01's for a slender silo, those of C-11 for a squat one. */
struct factors factors_of(const struct silo *s);

/* 6 m wide over a hopper of 3 m, with strakes of 1 m, slender from six on, and that many depths down the wall. */
struct silo tower(uint32_t depth_count, uint32_t strake_count);

/* The same, 20 m wide: with 24 strakes squat and higher than wide. */
struct silo squat(uint32_t depth_count, uint32_t strake_count);

/* The tower under a headroom of 300 mm. */
struct silo under_headroom(uint32_t depth_count, uint32_t strake_count);

/* A sheet, which may be a byte too long, the length of the list or page, and the answer due. */
struct sheet {
    uint8_t bytes[MAX_SHEET + 1];
    size_t length, list;
    uint32_t answer;
};

/* The sheet of a silo, of six records where the headroom is 0. */
struct sheet sheet_of(const struct silo *s);

/* Writes a number of that many bytes and tells the place after it. */
uint8_t *put(uint8_t *at, uint32_t n, int width);

/* The load call as silo.h declares it, in double arithmetic with libm; its roundings keep no promise. */
uint32_t plain_loads(const uint8_t *sheet, size_t sheet_len, uint32_t *answers, size_t answers_len);

/* The load call with MPFR and directed rounding, which keeps the same promise as silo_loads. */
uint32_t directed_loads(const uint8_t *sheet, size_t sheet_len, uint32_t *answers, size_t answers_len);

#endif
