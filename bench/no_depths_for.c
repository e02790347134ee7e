/* The calls for depths in the place of those of a library that has none, such as a build from before C-19. They are never made. */
#include "silo.h"
#include <stdlib.h>

uint64_t silo_depth_for(const uint8_t *sheet, size_t sheet_len, uint32_t pressure) {
    (void)sheet, (void)sheet_len, (void)pressure;
    abort();
}

uint32_t silo_depths_for(const uint8_t *sheet, size_t sheet_len, const uint32_t *pressures, size_t pressures_len, uint32_t *depths,
                         size_t depths_len) {
    (void)sheet, (void)sheet_len, (void)pressures, (void)pressures_len, (void)depths, (void)depths_len;
    abort();
}
