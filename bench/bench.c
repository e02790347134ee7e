/* Times silo_loads, the program in doubles and the one with MPFR on the same sheets, in turns, and prints the medians of the rounds'
 * ratios. Each of the three reads the sheet, judges it and fills the list. */
#include "silo.h"
#include "turns.h"
#include <stdio.h>

enum { PROGRAMS = 3 };

static sheet_call *const PROGRAM[PROGRAMS] = {silo_loads, plain_loads, directed_loads};
static const int DEPTHS[] = {1, 10, 50, 200};

/* Prints a sheet's ratios and tells the first, ours to doubles. */
static double compare(const char *name, const struct sheet *sheet, int calls) {
    static double to_plain[ROUNDS], directed_to_plain[ROUNDS], directed_to_ours[ROUNDS];
    double times[PROGRAMS];
    for (int round = 0; round < ROUNDS; round++) {
        for (int i = 0; i < PROGRAMS; i++)
            times[i] = timed(PROGRAM[i], sheet, calls);
        to_plain[round] = times[0] / times[1];
        directed_to_plain[round] = times[2] / times[1];
        directed_to_ours[round] = times[2] / times[0];
    }
    double ratio = median(to_plain);
    printf("%-30s %8.2f %8.2f %9.2f\n", name, ratio, median(directed_to_plain), median(directed_to_ours));
    return ratio;
}

/* The largest difference from silo_loads' list. */
static uint32_t difference(sheet_call *program, const struct sheet *sheet) {
    static uint32_t ours[MAX_ANSWERS], others[MAX_ANSWERS];
    uint32_t largest = 0;
    silo_loads(sheet->bytes, sheet->length, ours, sheet->list);
    program(sheet->bytes, sheet->length, others, sheet->list);
    for (size_t i = 0; i < sheet->list; i++) {
        uint32_t d = ours[i] > others[i] ? ours[i] - others[i] : others[i] - ours[i];
        largest = d > largest ? d : largest;
    }
    return largest;
}

static void compare_accepted(const char *kind, struct silo of(uint32_t, uint32_t), int depths) {
    char name[32];
    struct silo s = of((uint32_t)depths, MAX_STRAKES);
    struct sheet sheet = sheet_of(&s);
    snprintf(name, sizeof name, "%s, depths: %d", kind, depths);
    compare(name, &sheet, 2000 / (depths + 10));
}

static void compare_refused(void) {
    double largest = 0;
    for (const struct refused *refused = REFUSED; refused->name; refused++) {
        struct sheet sheet = refused_sheet(refused);
        double ratio = compare(refused->name, &sheet, 1000);
        largest = ratio > largest ? ratio : largest;
    }
    printf("largest of the refused: %.2f\n", largest);
}

static void print_difference(const char *kind, struct silo s) {
    struct sheet longest = sheet_of(&s);
    printf("largest difference from silo_loads, %s, depths: 200: doubles %u, MPFR %u\n", kind, (unsigned)difference(plain_loads, &longest),
           (unsigned)difference(directed_loads, &longest));
}

int main(void) {
    print_difference("slender", tower(MAX_DEPTHS, MAX_STRAKES));
    print_difference("squat", squat(MAX_DEPTHS, MAX_STRAKES));
    print_difference("headroom", under_headroom(MAX_DEPTHS, MAX_STRAKES));
    printf("ratios of times, medians of %d rounds in turns; 24 strakes, a hopper\n", ROUNDS);
    printf("%-30s %8s %8s %9s\n", "", "ours/f64", "MPFR/f64", "MPFR/ours");
    for (size_t i = 0; i < sizeof DEPTHS / sizeof *DEPTHS; i++)
        compare_accepted("accepted", tower, DEPTHS[i]);
    compare_accepted("squat", squat, MAX_DEPTHS);
    compare_accepted("headroom", under_headroom, MAX_DEPTHS);
    puts("refused, depths: 200");
    compare_refused();
    return 0;
}
