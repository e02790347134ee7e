/* The sheets that are measured, by the names that are printed, and the calls that take a sheet in one shape. */
#ifndef MEASURED_H
#define MEASURED_H

#include "sheet.h"
#include <stdbool.h>

/* A call in the shape of silo_loads. */
typedef uint32_t sheet_call(const uint8_t *sheet, size_t sheet_len, uint32_t *answers, size_t answers_len);

/* silo_answers_length in that shape: the lower half of its answer, a length or a refusal. It has no list. */
uint32_t length_call(const uint8_t *sheet, size_t sheet_len, uint32_t *answers, size_t answers_len);

/* silo_page in that shape, with a buffer of its own in the list's place, and silo_page_length. */
uint32_t page_call(const uint8_t *sheet, size_t sheet_len, uint32_t *answers, size_t answers_len);
uint32_t page_length_call(const uint8_t *sheet, size_t sheet_len, uint32_t *answers, size_t answers_len);

/* silo_shell_patch in that shape, at a depth that every tower has, with a reply list of its own in the list's place. */
uint32_t shell_patch_call(const uint8_t *sheet, size_t sheet_len, uint32_t *answers, size_t answers_len);

/* silo_depth_for in that shape, at one pressure, and at each of 32 down a tower's wall; 0 where it tells a depth. silo_depths_for for as many
 * of these as the list is long, one alone being the one above. */
uint32_t depth_for_call(const uint8_t *sheet, size_t sheet_len, uint32_t *answers, size_t answers_len);
uint32_t each_depth_call(const uint8_t *sheet, size_t sheet_len, uint32_t *answers, size_t answers_len);
uint32_t depths_for_call(const uint8_t *sheet, size_t sheet_len, uint32_t *answers, size_t answers_len);

/* A refused sheet: the tower's with 24 strakes and 200 depths, or a rectangle's, with a headroom where it is not 0, after at most two
 * changes of a number of that width at that place; and by how many bytes it, and by how many numbers the list, is longer. */
struct refused {
    const char *name;
    uint32_t answer;
    struct {
        int at, width;
        uint32_t to;
    } changes[2];
    int longer, list_longer;
    uint32_t headroom;
    bool rectangle;
};

/* Every refusal of the load call, at the first and the last place where there are several; then one without a name. */
extern const struct refused REFUSED[];

struct sheet refused_sheet(const struct refused *refused);

/* The sheet of that name, "depths: 10, strakes: 24", the same with ", headroom: 300", or a refused one's for loads; with the length of what
 * the call is lent and the answer due to it: "length", "page", "page_length", "shell_patch", "depth_for",
 * "each_depth", "depths_for_1", "depths_for_32" or one for loads. */
struct sheet sheet_named(const char *call, const char *name);

#endif
