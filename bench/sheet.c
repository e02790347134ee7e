/* A sheet read and judged as documents 01 and 02 have it, its discharge factors, and the silos whose sheets are measured. */
#include "sheet.h"
#include "silo.h"
#include <stdbool.h>

static uint32_t number(const uint8_t *bytes, int width) {
    uint32_t n = 0;
    for (int i = width; i-- > 0;)
        n = n << 8 | bytes[i];
    return n;
}

static bool between(uint32_t n, uint32_t low, uint32_t high) {
    return low <= n && n <= high;
}

static bool length_allowed(uint32_t kind, uint32_t length) {
    switch (kind) {
    case 1:
    case 8:
        return length == 4;
    case 3:
        return length == 10;
    case 6:
        return length % 2 == 0 && between(length / 2, 1, MAX_STRAKES);
    case 7:
        return length % 4 == 0 && between(length / 4, 1, MAX_DEPTHS);
    default:
        return length == 8;
    }
}

/* Refusals 1 to 5, or 0 with each payload's place; the sixth record may be the last. */
static uint32_t find_records(const uint8_t *sheet, size_t length, const uint8_t *payloads[RECORDS]) {
    const uint8_t *at = sheet, *end = sheet + length;
    if (length > MAX_SHEET)
        return 1;
    payloads[RECORDS - 1] = NULL;
    for (uint32_t i = 0; i < RECORDS; i++) {
        if (i == RECORDS - 1 && at == end)
            return 0;
        if (end - at < 4)
            return 2;
        uint32_t size = number(at, 2), kind = number(at + 2, 2);
        if (kind != i + 2 && !(i == 0 && kind == 1))
            return 3;
        if (!length_allowed(kind, size))
            return 4;
        if ((uint32_t)(end - at) < 4 + size)
            return 2;
        payloads[i] = at + 4;
        at += 4 + size;
    }
    return at == end ? 0 : 5;
}

/* Its header stands before a payload. */
static uint32_t payload_size(const uint8_t *payload) {
    return number(payload - 4, 2);
}

static void read_numbers(const uint8_t *payloads[RECORDS], struct silo *s) {
    s->a = number(payloads[0], 4);
    s->b = payload_size(payloads[0]) == 8 ? number(payloads[0] + 4, 4) : s->a;
    s->weight = number(payloads[1], 4);
    s->ratio = number(payloads[1] + 4, 2);
    s->friction = number(payloads[1] + 6, 2);
    s->factor = number(payloads[1] + 8, 2);
    s->e_i = number(payloads[2], 4);
    s->e_o = number(payloads[2] + 4, 4);
    s->hopper = number(payloads[3], 4);
    s->run = number(payloads[3] + 4, 4);
    s->strake_count = payload_size(payloads[4]) / 2;
    s->depth_count = payload_size(payloads[5]) / 4;
    for (uint32_t i = 0; i < s->strake_count; i++)
        s->strakes[i] = number(payloads[4] + 2 * i, 2);
    for (uint32_t i = 0; i < s->depth_count; i++)
        s->depths[i] = number(payloads[5] + 4 * i, 4);
    s->headroom = payloads[6] ? number(payloads[6], 4) : 0;
}

static bool is_hopper(const struct silo *s, uint32_t d_c) {
    bool steep = UINT64_C(1000000) * s->hopper >= UINT64_C(363971) * s->run;
    return s->run >= 1 && UINT64_C(2) * s->run < d_c && s->hopper <= 25000 && steep;
}

static bool product_fits(const struct silo *s) {
    return between(s->weight, 1000, 30000) && between(s->ratio, 20, 100) && between(s->friction, 10, 100) &&
           (s->factor == 0 || between(s->factor, 100, 200));
}

/* One side is over three times the other; both are inside rule 6. */
static bool is_long(const struct silo *s) {
    return s->a > 3 * s->b || s->b > 3 * s->a;
}

/* Refusals 6, 20 where loads are asked for, 7 to 11, 17 and 12, or 0. */
static uint32_t judge(const struct silo *s, bool loads) {
    uint32_t d_c = width_of(s), foot = foot_of(s);
    if (!between(s->a, 500, 50000) || !between(s->b, 500, 50000))
        return 6;
    if (loads && is_long(s))
        return UNEQUAL;
    if (!product_fits(s))
        return 7;
    if (UINT64_C(4) * s->e_i > d_c || UINT64_C(4) * s->e_o > d_c)
        return 8;
    if (!(s->hopper == 0 && s->run == 0) && !is_hopper(s, d_c))
        return 9;
    for (uint32_t i = 0; i < s->strake_count; i++)
        if (!between(s->strakes[i], 200, 3000))
            return 10;
    for (uint32_t i = 0; i < s->depth_count; i++)
        if (s->depths[i] > foot || (i > 0 && s->depths[i] <= s->depths[i - 1]))
            return 11;
    if (s->headroom >= foot)
        return 17;
    return load_depth(s, foot) + s->hopper >= 10 * d_c ? 12 : 0;
}

/* The refusal but for 14, or 0 with the silo's numbers, a factor of 0 read as 155. */
static uint32_t read_sheet(const uint8_t *sheet, size_t length, bool loads, struct silo *s) {
    const uint8_t *payloads[RECORDS];
    uint32_t refusal = find_records(sheet, length, payloads);
    if (refusal != 0)
        return refusal;
    read_numbers(payloads, s);
    refusal = judge(s, loads);
    if (s->factor == 0)
        s->factor = 155;
    return refusal;
}

uint32_t read_call(const uint8_t *sheet, size_t sheet_len, size_t answers_len, struct silo *s) {
    uint32_t refusal = read_sheet(sheet, sheet_len, true, s);
    return refusal == 0 && answers_len != answers_length(s) ? 14 : refusal;
}

uint64_t read_length(const uint8_t *sheet, size_t length) {
    struct silo s;
    uint32_t refusal = read_sheet(sheet, length, false, &s);
    return refusal != 0 ? refusal : SILO_LENGTH_MARK + answers_length(&s);
}

size_t answers_length(const struct silo *s) {
    return COLUMNS * (size_t)s->depth_count + BOTTOM + s->strake_count;
}

size_t page_length(const struct silo *s) {
    return LINE * (1 + (size_t)s->depth_count) + SHORT_LINE * (BOTTOM + (size_t)s->strake_count);
}

uint32_t foot_of(const struct silo *s) {
    uint32_t foot = 0;
    for (uint32_t i = 0; i < s->strake_count; i++)
        foot += s->strakes[i];
    return foot;
}

uint32_t width_of(const struct silo *s) {
    return s->a < s->b ? s->a : s->b;
}

struct factors factors_of(const struct silo *s) {
    uint64_t d_c = width_of(s), h = load_depth(s, foot_of(s)) + s->hopper;
    if (2 * h >= 3 * d_c)
        return (struct factors){s->factor, 110, 100};
    uint64_t above = h > d_c ? h - d_c : 0, one = 100 * d_c;
    return (struct factors){one + 2 * (s->factor - 100) * above, one + 20 * above, one};
}

struct silo tower(uint32_t depth_count, uint32_t strake_count) {
    struct silo s = {6000, 6000, 9000, 55, 30, 130, 200, 400, 3000, 2500, 0, strake_count, depth_count, {0}, {0}};
    for (uint32_t i = 0; i < strake_count; i++)
        s.strakes[i] = 1000;
    for (uint32_t i = 0; i < depth_count; i++)
        s.depths[i] = 1000 * strake_count * (i + 1) / depth_count;
    return s;
}

struct silo squat(uint32_t depth_count, uint32_t strake_count) {
    struct silo s = tower(depth_count, strake_count);
    s.a = s.b = 20000;
    return s;
}

struct silo under_headroom(uint32_t depth_count, uint32_t strake_count) {
    struct silo s = tower(depth_count, strake_count);
    s.headroom = 300;
    return s;
}

uint8_t *put(uint8_t *at, uint32_t n, int width) {
    for (int i = 0; i < width; i++)
        *at++ = (uint8_t)(n >> 8 * i);
    return at;
}

/* Appends a record's header and its numbers. */
static uint8_t *record(uint8_t *at, uint32_t kind, const uint32_t *numbers, uint32_t count, int width) {
    at = put(put(at, count * (uint32_t)width, 2), kind, 2);
    for (uint32_t i = 0; i < count; i++)
        at = put(at, numbers[i], width);
    return at;
}

struct sheet sheet_of(const struct silo *s) {
    struct sheet sheet = {.list = answers_length(s)};
    bool circle = s->a == s->b;
    uint8_t *at = record(sheet.bytes, circle ? 1 : 2, (const uint32_t[]){s->a, s->b}, circle ? 1 : 2, 4);
    at = put(put(at, 10, 2), 3, 2);
    at = put(put(put(put(at, s->weight, 4), s->ratio, 2), s->friction, 2), s->factor, 2);
    at = record(at, 4, (const uint32_t[]){s->e_i, s->e_o}, 2, 4);
    at = record(at, 5, (const uint32_t[]){s->hopper, s->run}, 2, 4);
    at = record(at, 6, s->strakes, s->strake_count, 2);
    at = record(at, 7, s->depths, s->depth_count, 4);
    at = s->headroom == 0 ? at : record(at, 8, &s->headroom, 1, 4);
    sheet.length = (size_t)(at - sheet.bytes);
    return sheet;
}
