/* Times of calls that are made in turns. */
#include "turns.h"
#include <stdlib.h>
#include <time.h>

static double now(void) {
    struct timespec t;
    clock_gettime(CLOCK_MONOTONIC, &t);
    return (double)t.tv_sec * 1e9 + (double)t.tv_nsec;
}

static int by_size(const void *a, const void *b) {
    double x = *(const double *)a, y = *(const double *)b;
    return (x > y) - (x < y);
}

double median(double numbers[ROUNDS]) {
    qsort(numbers, ROUNDS, sizeof *numbers, by_size);
    return numbers[ROUNDS / 2];
}

double timed(sheet_call *call, const struct sheet *sheet, int calls) {
    static uint32_t answers[MAX_ANSWERS];
    double start = now();
    for (int i = 0; i < calls; i++)
        if (call(sheet->bytes, sheet->length, answers, sheet->list) != sheet->answer)
            abort();
    return now() - start;
}
