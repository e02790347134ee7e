/* The sheets that are measured. */
#include "measured.h"
#include "silo.h"
#include <stdio.h>
#include <stdlib.h>
#include <string.h>

/* Places of numbers in the tower's sheet, and its length, where a headroom's record begins. */
enum { SIDE = 4, WEIGHT = 12, FACTOR = 20, E_I = 26, E_O = 30, HOPPER = 38, RUN = 42, STRAKES = 50, DEPTHS = 102, END = 902 };
enum { GIVEN_DEPTH = 1000, PRESSURES = 32, MIDDLE = PRESSURES / 2 };
enum { LAST_STRAKE = STRAKES + 2 * (MAX_STRAKES - 1), LAST_DEPTH = DEPTHS + 4 * (MAX_DEPTHS - 1) };

const struct refused REFUSED[] = {
    {"1: over 1,024 bytes", 1, .longer = MAX_SHEET + 1 - END},
    {"2: empty", 2, .longer = -END},
    {"2: cut short by a byte", 2, .longer = -1},
    {"2: a byte behind six records", 2, .longer = 1},
    {"3: first kind", 3, .changes = {{2, 2, 3}}},
    {"3: sixth kind", 3, .changes = {{DEPTHS - 2, 2, 8}}},
    {"3: seventh kind", 3, .changes = {{END + 2, 2, 7}}, .headroom = 300},
    {"4: first length", 4, .changes = {{0, 2, 5}}},
    {"4: sixth length", 4, .changes = {{DEPTHS - 4, 2, 801}}},
    {"4: seventh length", 4, .changes = {{END, 2, 5}}, .headroom = 300},
    {"5: a byte left over", 5, .longer = 1, .headroom = 300},
    {"6: diameter below its range", 6, .changes = {{SIDE, 4, 499}}},
    {"6: second side below its range", 6, .changes = {{SIDE + 4, 4, 499}}, .rectangle = true},
    {"20: sides too unequal", UNEQUAL, .changes = {{SIDE + 4, 4, 18001}}, .rectangle = true},
    {"7: weight below its range", 7, .changes = {{WEIGHT, 4, 999}}},
    {"7: factor above its range", 7, .changes = {{FACTOR, 2, 201}}},
    {"8: inlet too far out", 8, .changes = {{E_I, 4, 1501}}},
    {"8: outlet too far out", 8, .changes = {{E_O, 4, 1501}}},
    {"9: hopper without a run", 9, .changes = {{RUN, 4, 0}}},
    {"9: hopper not steep enough", 9, .changes = {{HOPPER, 4, 909}}},
    {"10: first strake too low", 10, .changes = {{STRAKES, 2, 199}}},
    {"10: last strake too high", 10, .changes = {{LAST_STRAKE, 2, 3001}}},
    {"11: first depth over V", 11, .changes = {{DEPTHS, 4, 24001}}},
    {"11: last depth over V", 11, .changes = {{LAST_DEPTH, 4, 24001}}},
    {"17: headroom of V", 17, .headroom = 24000},
    {"12: ten times as high as wide", 12, .changes = {{SIDE, 4, 2700}, {RUN, 4, 1000}}},
    {"14: list one too short", 14, .list_longer = -1},
    {0},
};

struct sheet refused_sheet(const struct refused *refused) {
    struct silo s = tower(MAX_DEPTHS, MAX_STRAKES);
    if (refused->rectangle)
        s.b = 2 * s.a;
    s.headroom = refused->headroom;
    struct sheet sheet = sheet_of(&s);
    for (int i = 0; i < 2; i++)
        put(sheet.bytes + refused->changes[i].at, refused->changes[i].to, refused->changes[i].width);
    sheet.length += refused->longer;
    sheet.list += refused->list_longer;
    sheet.answer = refused->answer;
    return sheet;
}

struct sheet sheet_named(const char *call, const char *name) {
    unsigned depths, strakes, headroom = 0;
    int numbers = sscanf(name, "depths: %u, strakes: %u, headroom: %u", &depths, &strakes, &headroom);
    if (numbers >= 2 && depths <= MAX_DEPTHS && strakes <= MAX_STRAKES) {
        struct silo s = tower(depths, strakes);
        s.headroom = headroom;
        struct sheet sheet = sheet_of(&s);
        if (strncmp(call, "page", 4) == 0)
            sheet.list = page_length(&s);
        if (strcmp(call, "shell_patch") == 0)
            sheet.list = SILO_SHELL_REPLY;
        if (strncmp(call, "depths_for", 10) == 0)
            sheet.list = strcmp(call, "depths_for_1") == 0 ? 1 : PRESSURES;
        sheet.answer = strstr(call, "length") ? (uint32_t)sheet.list : 0;
        return sheet;
    }
    for (const struct refused *refused = REFUSED; refused->name; refused++)
        if (strcmp(name, refused->name) == 0)
            return refused_sheet(refused);
    fprintf(stderr, "no sheet is named %s\n", name);
    exit(2);
}

uint32_t length_call(const uint8_t *sheet, size_t sheet_len, uint32_t *answers, size_t answers_len) {
    (void)answers, (void)answers_len;
    return (uint32_t)silo_answers_length(sheet, sheet_len);
}

uint32_t page_call(const uint8_t *sheet, size_t sheet_len, uint32_t *answers, size_t answers_len) {
    static uint8_t page[MAX_PAGE];
    (void)answers;
    return silo_page(sheet, sheet_len, page, answers_len);
}

uint32_t page_length_call(const uint8_t *sheet, size_t sheet_len, uint32_t *answers, size_t answers_len) {
    (void)answers, (void)answers_len;
    return (uint32_t)silo_page_length(sheet, sheet_len);
}

uint32_t shell_patch_call(const uint8_t *sheet, size_t sheet_len, uint32_t *answers, size_t answers_len) {
    static int32_t reply[SILO_SHELL_REPLY];
    (void)answers;
    return silo_shell_patch(sheet, sheet_len, GIVEN_DEPTH, reply, answers_len);
}

/* Every 1,900 Pa, nearly down to the foot of the tower with 24 strakes. */
static const uint32_t PRESSURE[PRESSURES] = {
    1900, 3800, 5700, 7600, 9500, 11400, 13300, 15200,
    17100, 19000, 20900, 22800, 24700, 26600, 28500, 30400,
    32300, 34200, 36100, 38000, 39900, 41800, 43700, 45600,
    47500, 49400, 51300, 53200, 55100, 57000, 58900, 60800,
};

static uint32_t depth_call(const uint8_t *sheet, size_t sheet_len, uint32_t i) {
    uint64_t answer = silo_depth_for(sheet, sheet_len, PRESSURE[i]);
    return answer < SILO_LENGTH_MARK ? (uint32_t)answer : 0;
}

uint32_t depth_for_call(const uint8_t *sheet, size_t sheet_len, uint32_t *answers, size_t answers_len) {
    (void)answers, (void)answers_len;
    return depth_call(sheet, sheet_len, MIDDLE);
}

uint32_t each_depth_call(const uint8_t *sheet, size_t sheet_len, uint32_t *answers, size_t answers_len) {
    uint32_t answer = 0;
    (void)answers, (void)answers_len;
    for (uint32_t i = 0; i < PRESSURES && answer == 0; i++)
        answer = depth_call(sheet, sheet_len, i);
    return answer;
}

uint32_t depths_for_call(const uint8_t *sheet, size_t sheet_len, uint32_t *answers, size_t answers_len) {
    return silo_depths_for(sheet, sheet_len, answers_len == 1 ? PRESSURE + MIDDLE : PRESSURE, answers_len, answers, answers_len);
}
