/* before CALL SHEET: times a call of the library, loads or length, and the same of an earlier one, whose names begin with before_, in turns
 * and prints the median of the rounds' ratios. Both have to give the same list, the earlier one put into columns where it is from before
 * C-18. Prints nothing for a sheet that goes on behind its sixth record where the earlier library is from before C-13, and for a long bin
 * where it is from before C-17. */
#include "before.h"
#include "silo.h"
#include "turns.h"
#include <stdio.h>
#include <stdlib.h>
#include <string.h>

/* The time of one round in ns, at least. */
static const double ROUND = 2e5;

static uint32_t before_length_call(const uint8_t *sheet, size_t sheet_len, uint32_t *answers, size_t answers_len) {
    (void)answers, (void)answers_len;
    return (uint32_t)before_answers_length(sheet, sheet_len);
}

static bool same_list(const struct sheet *sheet) {
    static uint32_t before[MAX_ANSWERS], after[MAX_ANSWERS];
    before_loads_in_columns(lists_rows(), sheet->bytes, sheet->length, before, sheet->list);
    silo_loads(sheet->bytes, sheet->length, after, sheet->list);
    return memcmp(before, after, sizeof after) == 0;
}

int main(int argc, char **argv) {
    static double ratios[ROUNDS];
    if (argc != 3)
        return 2;
    bool length = strcmp(argv[1], "length") == 0;
    sheet_call *before = length ? before_length_call : before_loads, *after = length ? length_call : silo_loads;
    struct sheet sheet = sheet_named(argv[1], argv[2]);
    if (knows_no_headroom() && before_answers_length(sheet.bytes, sheet.length) == LEFT_OVER)
        return 0;
    if (sheet.answer == UNEQUAL && calculates_long_bins())
        return 0;
    if (!same_list(&sheet))
        abort();
    int calls = 1;
    while (timed(after, &sheet, calls) < ROUND)
        calls *= 2;
    for (int round = 0; round < ROUNDS; round++) {
        double time = timed(before, &sheet, calls);
        ratios[round] = timed(after, &sheet, calls) / time;
    }
    printf("%.2f\n", median(ratios));
    return 0;
}
