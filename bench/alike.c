/* alike [SHEETS [SEED]]: makes the load call and the length call of the library and of an earlier one, whose names begin with before_, on
 * at least so many sheets, 8,000,000 where nothing is said: sheets of random silos inside and around every limit, the same damaged, random
 * bytes. Both have to answer alike and leave alike lists, of the length due and of one less and one more, with all as it was where a call
 * is refused. Where the earlier library is from before C-14, the library's answer to a blank factor is compared with the earlier one's to
 * 155 written in, and the library's to 135 written in with the earlier one's to a blank factor. Where it is from before C-13, sheets that go
 * on behind their sixth record are not among these: it answers 5 to them, and the library's length call is compared with the reading of
 * bench/sheet.c. Where it is from before C-17, the library's load call alone is made with long bins, which the earlier one calculates. Where
 * it is from before C-18, its lists have rows: the number for each load and depth has to be that of the library's columns. Prints the
 * counts. Status 1: a difference, with the library's sheet in hexadecimal; or a refusal that was never reached. */
#include "before.h"
#include "sheet.h"
#include "silo.h"
#include <inttypes.h>
#include <stdbool.h>
#include <stdio.h>
#include <stdlib.h>
#include <string.h>

/* Damaged sheets for each silo; numbers on each side of a list; the longest sheet of random bytes; room for any sheet. */
enum { DAMAGED = 8, GUARDS = 4, LONGEST = 1100, ROOM = 4096 };

/* The longest list, one more than any that is due, with its guards. */
enum { LIST = GUARDS + MAX_ANSWERS + 1 + GUARDS };

/* Refusals of the two calls, in their order, and the greatest of the length call. */
enum { WRONG_LENGTH = 14, GREATEST = 17 };
static const int REFUSALS[] = {1, 2, 3, 4, 5, 6, UNEQUAL, 7, 8, 9, 10, 11, 17, 12, WRONG_LENGTH};
enum { REFUSAL_COUNT = sizeof REFUSALS / sizeof *REFUSALS };

/* A record with the length and kind that its header states, and room for a number too many. */
struct record {
    uint32_t length, kind;
    size_t size;
    uint8_t payload[4 * (MAX_DEPTHS + 1)];
};

struct records {
    struct record at[RECORDS];
    uint32_t count;
};

struct bytes {
    uint8_t at[ROOM];
    size_t length;
};

static bool no_headroom_before, blank_is_135_before, long_before, rows_before;
static uint64_t state, sheets, accepted, read_here, blank, blank_accepted, refused[UNEQUAL + 1];
static uint32_t before[LIST], after[LIST], untouched[LIST];

/* Numbers that are the same on every run (splitmix64). */
static uint64_t next(void) {
    uint64_t n = state += UINT64_C(0x9E3779B97F4A7C15);
    n = (n ^ n >> 30) * UINT64_C(0xBF58476D1CE4E5B9);
    n = (n ^ n >> 27) * UINT64_C(0x94D049BB133111EB);
    return n ^ n >> 31;
}

static uint32_t below(uint32_t limit) {
    return (uint32_t)(next() % limit);
}

static bool one_in(uint32_t n) {
    return below(n) == 0;
}

/* From low to high, each end one time in eight more. */
static uint32_t within(uint32_t low, uint32_t high) {
    uint32_t any = low + below(high - low + 1), turn = below(8);
    return turn == 0 ? low : turn == 1 ? high : any;
}

/* The least height that makes a hopper of that run steep enough. */
static uint32_t flattest(uint32_t run) {
    return (uint32_t)((UINT64_C(363971) * run + 999999) / 1000000);
}

static void draw_hopper(struct silo *s) {
    uint32_t d_c = width_of(s), highest = 5 * d_c < 25000 ? 5 * d_c : 25000;
    s->run = within(1, (d_c - 1) / 2);
    s->hopper = within(flattest(s->run), highest);
}

/* A headroom half of the time, and strakes that leave h below 10 d_c, where so many can. */
static void draw_wall(struct silo *s) {
    s->headroom = one_in(2) ? 0 : within(0, one_in(2) ? 64 : 20000);
    s->strake_count = within(1, MAX_STRAKES);
    uint32_t highest = (10 * width_of(s) + s->headroom - s->hopper - 1) / s->strake_count;
    highest = highest < 200 ? 200 : highest > 3000 ? 3000 : highest;
    for (uint32_t i = 0; i < s->strake_count; i++)
        s->strakes[i] = within(200, highest);
    if (s->headroom >= foot_of(s))
        s->headroom = below(foot_of(s));
}

/* Depths down the wall, each leaving room for those after it; neighbouring millimetres and the foot are among them. */
static void draw_depths(struct silo *s) {
    uint32_t low = 0, foot = foot_of(s);
    s->depth_count = one_in(8) ? within(1, MAX_DEPTHS) : within(1, 10);
    for (uint32_t i = 0; i < s->depth_count; i++) {
        uint32_t after_it = s->depth_count - i - 1, last = foot - after_it, far = low + 2 * (last - low) / (after_it + 1);
        s->depths[i] = within(low, far < last ? far : last);
        low = s->depths[i] + 1;
    }
}

/* A silo inside the limits, but for narrow ones that many strakes make too high. */
static struct silo draw(void) {
    struct silo s = {0};
    s.a = s.b = within(500, one_in(2) ? 5000 : 50000);
    if (one_in(2))
        *(one_in(2) ? &s.a : &s.b) = within(s.a, 3 * s.a < 50000 ? 3 * s.a : 50000);
    s.weight = within(1000, 30000);
    s.ratio = within(20, 100);
    s.friction = within(10, 100);
    s.factor = one_in(4) ? 0 : within(100, 200);
    s.e_i = within(0, width_of(&s) / 4);
    s.e_o = within(0, width_of(&s) / 4);
    if (one_in(2))
        draw_hopper(&s);
    draw_wall(&s);
    draw_depths(&s);
    return s;
}

/* Moves one number to a limit, of the rules, of the discharge factors or of the load depth, or to either side of it. A circle stays one. */
static void move(struct silo *s) {
    uint32_t d_c = width_of(s), foot = foot_of(s), over = foot + s->hopper, filled = load_depth(s, foot), i = below(s->depth_count);
    uint32_t *strake = &s->strakes[below(s->strake_count)], *depth = &s->depths[i];
    const struct {
        uint32_t *number, limit;
    } limits[] = {
        {&s->a, 0}, {&s->a, 500}, {&s->a, 50000}, {&s->b, 500}, {&s->b, 50000},
        {&s->a, 3 * s->b}, {&s->b, 3 * s->a}, {&s->b, 4 * s->a},
        {&s->a, filled / 10}, {&s->a, filled - filled / 3}, {&s->a, filled},
        {&s->weight, 0}, {&s->weight, 1000}, {&s->weight, 30000},
        {&s->ratio, 20}, {&s->ratio, 100}, {&s->friction, 10}, {&s->friction, 100},
        {&s->factor, 0}, {&s->factor, 100}, {&s->factor, 200},
        {&s->e_i, d_c / 4}, {&s->e_i, 1 << 30}, {&s->e_o, d_c / 4}, {&s->e_o, 1 << 30},
        {&s->run, 0}, {&s->run, d_c / 2}, {&s->run, UINT32_C(1) << 31}, {&s->run, s->hopper * 1000 / 364},
        {&s->hopper, 0}, {&s->hopper, 25000}, {&s->hopper, flattest(s->run)},
        {&s->hopper, 10 * d_c - filled}, {&s->hopper, d_c + d_c / 2 - filled}, {&s->hopper, d_c - filled},
        {strake, 0}, {strake, 200}, {strake, 3000}, {strake, *strake + 10 * d_c - filled - s->hopper},
        {depth, 0}, {depth, i == 0 ? 0 : depth[-1]}, {depth, foot}, {depth, s->headroom},
        {&s->headroom, 0}, {&s->headroom, *depth}, {&s->headroom, foot}, {&s->headroom, UINT32_C(1) << 31},
        {&s->headroom, over - 10 * d_c}, {&s->headroom, over - d_c - d_c / 2}, {&s->headroom, over - d_c},
    };
    bool circle = s->a == s->b;
    uint32_t chosen = below(sizeof limits / sizeof *limits);
    *limits[chosen].number = limits[chosen].limit + below(3) - 1;
    if (circle)
        s->b = s->a;
}

static void append(struct record *record, uint32_t number, int width) {
    put(record->payload + record->size, number, width);
    record->size += (size_t)width;
    record->length = (uint32_t)record->size;
}

/* A circle may also be sent as a rectangle of equal sides, and a headroom of 0 in a record. */
static void put_records(const struct silo *s, struct records *records) {
    struct record *at = records->at;
    bool circle = s->a == s->b && !one_in(8);
    records->count = s->headroom == 0 && !one_in(8) ? RECORDS - 1 : RECORDS;
    for (uint32_t i = 0; i < RECORDS; i++)
        at[i] = (struct record){.kind = i == 0 && circle ? 1 : i + 2};
    for (int i = circle; i < 2; i++)
        append(&at[0], i == circle ? s->a : s->b, 4);
    append(&at[1], s->weight, 4);
    append(&at[1], s->ratio, 2);
    append(&at[1], s->friction, 2);
    append(&at[1], s->factor, 2);
    append(&at[2], s->e_i, 4);
    append(&at[2], s->e_o, 4);
    append(&at[3], s->hopper, 4);
    append(&at[3], s->run, 4);
    for (uint32_t i = 0; i < s->strake_count; i++)
        append(&at[4], s->strakes[i], 2);
    for (uint32_t i = 0; i < s->depth_count; i++)
        append(&at[5], s->depths[i], 4);
    append(&at[6], s->headroom, 4);
}

static void join(const struct records *records, struct bytes *sheet) {
    uint8_t *at = sheet->at;
    for (uint32_t i = 0; i < records->count; i++) {
        const struct record *record = &records->at[i];
        at = put(put(at, record->length, 2), record->kind, 2);
        memcpy(at, record->payload, record->size);
        at += record->size;
    }
    sheet->length = (size_t)(at - sheet->at);
}

/* Another number of strakes, of 200 mm, or of depths, from 0 mm on: none, one too many, the most, or any. */
static void recount(struct records *records) {
    bool strakes = one_in(2);
    struct record *record = &records->at[strakes ? 4 : 5];
    uint32_t most = strakes ? MAX_STRAKES : MAX_DEPTHS, counts[] = {0, most + 1, most, below(most)}, count = counts[below(4)];
    record->size = record->length = 0;
    for (uint32_t i = 0; i < count; i++)
        append(record, strakes ? 200 : i, strakes ? 2 : 4);
}

static void damage_records(struct records *records) {
    struct record *record = &records->at[below(records->count)], *other = &records->at[below(records->count)], first = *record;
    switch (below(5)) {
    case 0:
        *record = *other;
        *other = first;
        break;
    case 1:
        record->kind = one_in(2) ? below(10) : record->kind ^ 1u << below(16);
        break;
    case 2:
        record->length = one_in(2) ? record->length + below(9) - 4 : below(LONGEST);
        break;
    case 3:
        record->length += below(9) - 4;
        record->size = record->length < sizeof record->payload ? record->length : record->size;
        break;
    default:
        recount(records);
    }
}

static void damage_bytes(struct bytes *sheet) {
    size_t end = sheet->length, at = below((uint32_t)(one_in(2) && end > 64 ? 64 : end)), to = end;
    switch (below(6)) {
    case 0:
        sheet->at[at] ^= (uint8_t)(1 << below(8));
        break;
    case 1:
        sheet->at[at] = (uint8_t)next();
        break;
    case 2:
        sheet->length = one_in(2) ? at : end - 1;
        break;
    case 3:
        memmove(sheet->at + at, sheet->at + at + 1, end - at - 1);
        sheet->length--;
        break;
    case 4:
        memmove(sheet->at + at + 1, sheet->at + at, end - at);
        sheet->length++;
        break;
    default:
        to = one_in(2) || end > MAX_SHEET ? end + 1 + below(8) : MAX_SHEET + below(3);
        for (sheet->length = to; end < to; end++)
            sheet->at[end] = one_in(2) ? 0 : (uint8_t)next();
    }
}

/* The sheet of such a silo with something changed: numbers, records, bytes, or several of these. */
static void damage(struct silo s, struct bytes *sheet) {
    struct records records;
    uint32_t kinds = one_in(2) ? 1 : 1 + below(7);
    for (uint32_t moves = kinds & 1 ? 1 + below(2) : 0; moves > 0; moves--)
        move(&s);
    put_records(&s, &records);
    if (kinds & 2)
        damage_records(&records);
    join(&records, sheet);
    if (kinds & 4)
        damage_bytes(sheet);
}

/* Random bytes; half of the time small ones, so that some records are found. */
static void draw_bytes(struct bytes *sheet) {
    uint32_t limit = one_in(2) ? 256 : 11;
    sheet->length = below(LONGEST + 1);
    for (size_t i = 0; i < sheet->length; i++)
        sheet->at[i] = (uint8_t)below(limit);
}

static void differ(const struct bytes *sheet, const char *call, uint64_t due, uint64_t answer) {
    const char *list = answer == due ? "; the list is not as due" : "";
    fprintf(stderr, "DIFFERENCE: %s answers %" PRIu64 ", %" PRIu64 " due%s\nsheet: ", call, answer, due, list);
    for (size_t i = 0; i < sheet->length; i++)
        fprintf(stderr, "%02x", sheet->at[i]);
    fputc('\n', stderr);
    exit(1);
}

/* The load call with a list of that length: both give that answer and the same list, and write to no more of it than they may. Here and
 * below the earlier library is lent the first sheet, the library the other. A long bin is lent to no library that calculates it. */
static void compare_loads(const struct bytes *earlier_sheet, const struct bytes *sheet, size_t list, uint32_t due) {
    size_t filled = GUARDS + (due == 0 ? list : 0);
    bool calculated = long_before && due == UNEQUAL;
    uint32_t earlier =
        calculated ? due : before_loads_in_columns(rows_before, earlier_sheet->at, earlier_sheet->length, before + GUARDS, list);
    uint32_t answer = silo_loads(sheet->at, sheet->length, after + GUARDS, list);
    bool same = earlier == due && answer == due && memcmp(before, after, sizeof after) == 0;
    bool guarded = memcmp(after, untouched, GUARDS * sizeof *after) == 0;
    if (!same || !guarded || memcmp(after + filled, untouched + filled, (LIST - filled) * sizeof *after) != 0)
        differ(sheet, "silo_loads", earlier, answer);
    if (due == 0) {
        memcpy(before, untouched, sizeof before);
        memcpy(after, untouched, sizeof after);
    }
}

/* The load call with lists of the length due and of one less and one more; a sheet without a length is lent lists round the given one. */
static void compare_lists(const struct bytes *earlier_sheet, const struct bytes *sheet, size_t list, uint32_t refusal) {
    uint32_t of_others = refusal == 0 ? WRONG_LENGTH : refusal;
    compare_loads(earlier_sheet, sheet, list - 1, of_others);
    compare_loads(earlier_sheet, sheet, list, refusal);
    compare_loads(earlier_sheet, sheet, list + 1, of_others);
    refused[WRONG_LENGTH] += refusal == 0 ? 2 : 0;
}

/* The load call's refusal beside the length call's answer: a long bin's is 20, as bench/sheet.c reads it. */
static uint32_t loads_refusal(const struct bytes *sheet, uint64_t answer) {
    struct silo s;
    if (read_call(sheet->at, sheet->length, 0, &s) == UNEQUAL)
        return UNEQUAL;
    return answer >= SILO_LENGTH_MARK ? 0 : (uint32_t)answer;
}

/* Both calls; the length call alone where the earlier one takes what follows the sixth record for bytes left over. */
static void compare_sheets(const struct bytes *earlier_sheet, const struct bytes *sheet, size_t list) {
    uint64_t earlier = before_answers_length(earlier_sheet->at, earlier_sheet->length);
    uint64_t answer = silo_answers_length(sheet->at, sheet->length);
    bool fits = answer >= SILO_LENGTH_MARK, behind = no_headroom_before && earlier == LEFT_OVER;
    uint64_t due = behind ? read_length(sheet->at, sheet->length) : earlier;
    if (answer != due || (!fits && answer > GREATEST) || (fits && answer - SILO_LENGTH_MARK > MAX_ANSWERS))
        differ(sheet, "silo_answers_length", due, answer);
    uint32_t refusal = loads_refusal(sheet, answer);
    if (!behind)
        compare_lists(earlier_sheet, sheet, fits ? (size_t)(answer - SILO_LENGTH_MARK) : list, refusal);
    sheets++;
    read_here += behind;
    if (refusal == 0)
        accepted++;
    else
        refused[refusal]++;
}

/* Where a blank factor stands, if the second record is a product's and lies whole inside the sheet; else 0. */
static size_t blank_factor(const struct bytes *sheet) {
    static const uint8_t header[] = {10, 0, 3, 0}, none[] = {0, 0};
    size_t product = 4 + (size_t)(sheet->at[0] | sheet->at[1] << 8), factor = product + 12;
    if (sheet->length < 2 || factor + 2 > sheet->length || memcmp(sheet->at + product, header, sizeof header) != 0)
        return 0;
    return memcmp(sheet->at + factor, none, sizeof none) == 0 ? factor : 0;
}

/* A sheet as it is; where its factor is blank and the earlier library reads that as 135, with the meaning written in for either. */
static void compare(const struct bytes *sheet, size_t list) {
    static struct bytes written;
    size_t factor = blank_is_135_before ? blank_factor(sheet) : 0;
    if (factor == 0) {
        compare_sheets(sheet, sheet, list);
        return;
    }
    uint64_t accepted_before = accepted;
    written = *sheet;
    put(written.at + factor, BLANK, 2);
    compare_sheets(&written, sheet, list);
    blank++;
    blank_accepted += accepted - accepted_before;
    put(written.at + factor, BLANK_BEFORE, 2);
    compare_sheets(sheet, &written, list);
}

/* A silo inside the limits or at one, the same damaged, and random bytes. */
static void compare_round(void) {
    static struct records records;
    static struct bytes sheet;
    struct silo s = draw();
    size_t list = answers_length(&s);
    if (one_in(2))
        move(&s);
    put_records(&s, &records);
    join(&records, &sheet);
    compare(&sheet, list);
    for (int i = 0; i < DAMAGED; i++) {
        damage(s, &sheet);
        compare(&sheet, list);
    }
    draw_bytes(&sheet);
    compare(&sheet, list);
}

static void print_counts(void) {
    for (int i = 0; i < REFUSAL_COUNT; i++)
        if (refused[REFUSALS[i]] == 0) {
            fprintf(stderr, "refusal %d was never reached\n", REFUSALS[i]);
            exit(1);
        }
    printf("%" PRIu64 " sheets, %" PRIu64 " of them accepted; refused, by number:", sheets, accepted);
    for (int i = 0; i < REFUSAL_COUNT - 1; i++)
        printf(" %d: %" PRIu64 ",", REFUSALS[i], refused[REFUSALS[i]]);
    printf(" and %" PRIu64 " lists of a wrong length (14); no difference\n", refused[WRONG_LENGTH]);
    if (blank_is_135_before)
        printf("%" PRIu64 " of them are blank, %" PRIu64 " accepted: with 155 before; as many more with 135, blank before\n", blank,
               blank_accepted);
    if (long_before)
        printf("%" PRIu64 " of them are long bins: 20 now, by the rules before C-17 before\n", refused[UNEQUAL]);
    if (rows_before)
        printf("the accepted ones have rows before, and the same numbers in columns\n");
    if (no_headroom_before)
        printf("%" PRIu64 " of them go on behind the sixth record: 5 before, now as bench/sheet.c reads them\n", read_here);
}

int main(int argc, char **argv) {
    uint64_t least = argc > 1 ? strtoull(argv[1], NULL, 10) : 8000000;
    state = argc > 2 ? strtoull(argv[2], NULL, 10) : 1991;
    for (int i = 0; i < LIST; i++)
        before[i] = after[i] = untouched[i] = UINT32_C(0xA5C35A3C);
    no_headroom_before = knows_no_headroom();
    blank_is_135_before = reads_blank_as_135();
    long_before = calculates_long_bins();
    rows_before = lists_rows();
    while (sheets - read_here < least)
        compare_round();
    print_counts();
    return 0;
}
