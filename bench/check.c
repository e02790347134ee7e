/* The program with MPFR in the library's place, compared with the second implementation: it keeps the same promise, or this stops. */
#include "sheet.h"
#include "silo.h"
#include <inttypes.h>
#include <stdio.h>
#include <stdlib.h>

uint64_t compare_sheets(uint64_t rounds, uint64_t seed);

uint32_t silo_loads(const uint8_t *sheet, size_t sheet_len, uint32_t *answers, size_t answers_len) {
    return directed_loads(sheet, sheet_len, answers, answers_len);
}

uint64_t silo_answers_length(const uint8_t *sheet, size_t sheet_len) {
    return read_length(sheet, sheet_len);
}

/* Never called, nor the next, nor those of the bench/no_*.c: the comparison is of the two calls above. */
uint32_t silo_catalogue(uint32_t row, uint32_t wall, uint8_t *record, size_t record_len) {
    (void)row, (void)wall, (void)record, (void)record_len;
    abort();
}

uint32_t silo_governing(const uint32_t *first, size_t first_len, const uint32_t *second, size_t second_len) {
    (void)first, (void)first_len, (void)second, (void)second_len;
    abort();
}

int main(void) {
    printf("the program with MPFR keeps the promise: %" PRIu64 " sheets compared with the second implementation, no difference\n",
           compare_sheets(200, 1991));
    return 0;
}
