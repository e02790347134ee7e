/* Asks for
 *   the loads of a circular tower of 5 m by 10 m;
 *   those of a squat bin of the same section and product, 6 m high: at 5 m the same filling pressures, less on discharge;
 *   those of the bin at a depth below its foot, which are refused;
 *   those of a rectangle over three times as long as wide, which is measured and then refused;
 *   the tower's p_he at its strakes' lower edges, as a curve;
 *   which of the tower's product and barley governs its strakes;
 *   the tower's load page, and those of the two sheets that are refused;
 *   the patch round the tower's shell, at a depth that is not listed and at one below its foot;
 *   down to where the tower's p_he is not above a pressure, and above each of some pressures; with lists that are refused. */
#include "silo.h"
#if SILO_VERSION_MAJOR != 2
#error "written for version 2 of silo.h, answer lists in columns"
#endif
#if SILO_VERSION_MINOR < 1
#error "written for version 2.1 of silo.h, with depths for pressures"
#endif
#include <inttypes.h>
#include <stdio.h>
#include <string.h>

/* The bytes of a number, lowest first, and a record's header. */
#define U16(n) (n) & 255, (n) >> 8
#define U32(n) (n) & 255, (n) >> 8 & 255, (n) >> 16 & 255, (n) >> 24
#define RECORD(length, kind) U16(length), U16(kind)

/* What all have: 9,000 N/m3, Ks 50, mu 40, C0 140; no eccentricity; a flat floor. */
#define GRAIN RECORD(10, 3), U32(9000), U16(50), U16(40), U16(140), RECORD(8, 4), U32(0), U32(0), RECORD(8, 5), U32(0), U32(0)

/* A circle of 5,000 mm. */
#define COMMON RECORD(4, 1), U32(5000), GRAIN

/* Five strakes of 2,000 mm. */
enum { TOWER_STRAKES = 5 };
#define TOWER COMMON, RECORD(10, 6), U16(2000), U16(2000), U16(2000), U16(2000), U16(2000)

/* At 0 and 5,000 mm. */
enum { TOWER_DEPTHS = 2 };
static const uint8_t tower[] = {TOWER, RECORD(8, 7), U32(0), U32(5000)};

/* At the five strakes' lower edges, 2,000 to 10,000 mm. */
enum { EDGES = TOWER_STRAKES };
static const uint8_t edges[] = {TOWER, RECORD(20, 7), U32(2000), U32(4000), U32(6000), U32(8000), U32(10000)};

/* Three strakes: h/d_c = 1.2, so C_h = 1.16 and C_w = 1.04, where the tower has 1.4 and 1.1. */
#define BIN COMMON, RECORD(6, 6), U16(2000), U16(2000), U16(2000)

static const uint8_t squat[] = {BIN, RECORD(4, 7), U32(5000)};
static const uint8_t below[] = {BIN, RECORD(4, 7), U32(6001)};

/* A rectangle of 5,000 by 15,001 mm with the squat bin's strakes. */
static const uint8_t long_bin[] = {RECORD(8, 2), U32(5000), U32(15001), GRAIN,        RECORD(6, 6),
                                   U16(2000),    U16(2000), U16(2000),  RECORD(4, 7), U32(5000)};

/* The list's parts, and the most that a sheet may have. */
enum { COLUMNS = SILO_P_P + 1, BOTTOM = 10, MOST_DEPTHS = 200, MOST_STRAKES = 24 };

/* The length told, or 0 where it is refused: the call that fills is then lent an empty list or page, not null, and answers the refusal. */
static size_t told(uint64_t length) {
    return length < SILO_LENGTH_MARK ? 0 : (size_t)(length - SILO_LENGTH_MARK);
}

/* What the call that fills answered, behind the length where one was told. */
static void print_answer(const char *name, size_t length, const char *unit, uint32_t answer) {
    if (length == 0)
        printf("%s: answer %" PRIu32 "\n", name, answer);
    else
        printf("%s: %zu %s, answer %" PRIu32 "\n", name, length, unit, answer);
}

static void print_numbers(const char *name, const uint32_t *numbers, size_t count) {
    printf("%s:", name);
    for (size_t i = 0; i < count; i++)
        printf(" %" PRIu32, numbers[i]);
    printf("\n");
}

/* The eight numbers of depth i, one from each column. */
static void print_depth(const char *name, const uint32_t *answers, size_t depths, size_t i) {
    uint32_t row[COLUMNS];
    for (size_t l = 0; l < COLUMNS; l++)
        row[l] = answers[l * depths + i];
    print_numbers(name, row, COLUMNS);
}

/* The list of a sheet with that many depths: its columns, bottom and strakes, and then the last depth's numbers. */
static void print_loads(const char *name, const uint8_t *sheet, size_t sheet_len, size_t depths) {
    static const char *const columns[COLUMNS] = {"z", "p_hf", "p_wf", "p_vf", "P_w", "p_he", "p_we", "p_p"};
    uint32_t answers[COLUMNS * MOST_DEPTHS + BOTTOM + MOST_STRAKES];
    size_t length = told(silo_answers_length(sheet, sheet_len));
    uint32_t answer = silo_loads(sheet, sheet_len, answers, length);
    print_answer(name, length, "numbers", answer);
    if (answer != 0)
        return;
    for (size_t l = 0; l < COLUMNS; l++)
        print_numbers(columns[l], answers + l * depths, depths);
    const uint32_t *bottom = answers + COLUMNS * depths, *strakes = bottom + BOTTOM;
    print_numbers("bottom", bottom, BOTTOM);
    print_numbers("strakes", strakes, length - COLUMNS * depths - BOTTOM);
    print_depth("last depth", answers, depths, depths - 1);
}

/* One load for all depths: a column is a pointer and a count. */
static void print_curve(const char *name, const uint32_t *z, const uint32_t *load, size_t depths) {
    for (size_t i = 0; i < depths; i++)
        printf("%s at %" PRIu32 " mm: %" PRIu32 "\n", name, z[i], load[i]);
}

/* p_he at the lower edges: the numbers that the tower's list has for its strakes. */
static void print_edges(void) {
    enum { LENGTH = COLUMNS * EDGES + BOTTOM + TOWER_STRAKES };
    const size_t depths = EDGES;
    uint32_t answers[LENGTH];
    uint32_t answer = silo_loads(edges, sizeof edges, answers, LENGTH);
    if (answer == 0)
        print_curve("p_he", answers + SILO_Z * depths, answers + SILO_P_HE * depths, depths);
    else
        print_answer("lower edges", LENGTH, "numbers", answer);
}

/* The product record comes after the circle's 8 bytes; the list ends with the strakes' numbers. */
static void print_governing(void) {
    enum { STRAKES = COLUMNS * TOWER_DEPTHS + BOTTOM, LENGTH = STRAKES + TOWER_STRAKES, FOOT = LENGTH - 1 };
    uint8_t barley[sizeof tower];
    uint32_t first[LENGTH], second[LENGTH];
    memcpy(barley, tower, sizeof tower);
    uint32_t record = silo_catalogue(0, 0, barley + 8, SILO_PRODUCT_RECORD);
    uint32_t own = silo_loads(tower, sizeof tower, first, LENGTH);
    uint32_t other = silo_loads(barley, sizeof barley, second, LENGTH);
    if (record != 0 || own != 0 || other != 0) {
        printf("governing: answers %" PRIu32 ", %" PRIu32 ", %" PRIu32 "\n", record, own, other);
        return;
    }
    const uint32_t *one = first + STRAKES, *two = second + STRAKES;
    printf("at the foot: %" PRIu32 ", with barley %" PRIu32 "\n", first[FOOT], second[FOOT]);
    printf("governing: %" PRIu32 "\n", silo_governing(one, TOWER_STRAKES, two, TOWER_STRAKES));
    printf("governing, of lists that end equally: %" PRIu32 "\n", silo_governing(one, TOWER_STRAKES, one, TOWER_STRAKES));
    printf("governing, of 5 and 4 strakes: %" PRIu32 "\n", silo_governing(one, TOWER_STRAKES, two, TOWER_STRAKES - 1));
}

/* A page is bytes without a zero at their end. */
static void print_page(const char *name, const uint8_t *sheet, size_t sheet_len) {
    uint8_t page[73 * (1 + MOST_DEPTHS) + 10 * (BOTTOM + MOST_STRAKES)];
    size_t length = told(silo_page_length(sheet, sheet_len));
    if (length > 0)
        printf("%s, in a buffer too short: answer %" PRIu32 "\n", name, silo_page(sheet, sheet_len, page, length - 1));
    uint32_t answer = silo_page(sheet, sheet_len, page, length);
    print_answer(name, length, "bytes", answer);
    if (answer == 0)
        fwrite(page, 1, length, stdout);
}

/* The first 360 numbers are the pressures at each degree, outward positive, and the last is the force. */
static void print_patch(const char *name, const uint8_t *sheet, size_t sheet_len, uint32_t depth) {
    int32_t reply[SILO_SHELL_REPLY];
    uint32_t answer = silo_shell_patch(sheet, sheet_len, depth, reply, SILO_SHELL_REPLY);
    printf("patch, %s, at %" PRIu32 " mm: answer %" PRIu32 "\n", name, depth, answer);
    if (answer != 0)
        return;
    for (int degree = 0; degree < 360; degree += 60)
        printf("%d degrees: %" PRId32 "\n", degree, reply[degree]);
    printf("force: %" PRId32 "\n", reply[360]);
}

/* The depth for one pressure comes back with the mark added, as a length does. */
static void print_depth_for(const char *name, const uint8_t *sheet, size_t sheet_len, uint32_t pressure) {
    uint64_t answer = silo_depth_for(sheet, sheet_len, pressure);
    if (answer < SILO_LENGTH_MARK)
        printf("depth, %s, for %" PRIu32 " Pa: answer %" PRIu64 "\n", name, pressure, answer);
    else
        printf("depth, %s, for %" PRIu32 " Pa: %" PRIu64 " mm\n", name, pressure, answer - SILO_LENGTH_MARK);
}

/* The depths for pressures, unmarked, in one call. */
static void print_depths_for(const char *name, const uint32_t *pressures, size_t count) {
    uint32_t depths[SILO_PRESSURES_MOST];
    uint32_t answer = silo_depths_for(tower, sizeof tower, pressures, count, depths, count);
    printf("depths, tower, for %s: answer %" PRIu32 "\n", name, answer);
    for (size_t i = 0; answer == 0 && i < count; i++)
        printf("%" PRIu32 " Pa: %" PRIu32 " mm\n", pressures[i], depths[i]);
}

static void print_depths(void) {
    static const uint32_t pressures[] = {0, 12335, 12336, 24636, 24636, 35398, 35399, UINT32_MAX};
    static const uint32_t falling[] = {24636, 24635};
    enum { COUNT = sizeof pressures / sizeof pressures[0] };
    print_depth_for("tower", tower, sizeof tower, 24636);
    print_depth_for("below the foot", below, sizeof below, 24636);
    print_depths_for("pressures", pressures, COUNT);
    print_depths_for("none", pressures, 0);
    print_depths_for("falling ones", falling, 2);
    uint32_t depths[COUNT - 1];
    uint32_t answer = silo_depths_for(tower, sizeof tower, pressures, COUNT, depths, COUNT - 1);
    printf("depths, tower, in a list too short: answer %" PRIu32 "\n", answer);
}

int main(void) {
    print_loads("tower", tower, sizeof tower, TOWER_DEPTHS);
    print_loads("squat bin", squat, sizeof squat, 1);
    print_loads("below the foot", below, sizeof below, 1);
    print_loads("long bin", long_bin, sizeof long_bin, 1);
    print_edges();
    print_governing();
    print_page("page, tower", tower, sizeof tower);
    print_page("page, below the foot", below, sizeof below);
    print_page("page, long bin", long_bin, sizeof long_bin);
    print_patch("tower", tower, sizeof tower, 8000);
    print_patch("tower", tower, sizeof tower, 10001);
    print_depths();
    return 0;
}
