/* The page calls in the place of those of a library that has none, such as a build from before C-15. They are never made. */
#include "silo.h"
#include <stdlib.h>

uint64_t silo_page_length(const uint8_t *sheet, size_t sheet_len) {
    (void)sheet, (void)sheet_len;
    abort();
}

uint32_t silo_page(const uint8_t *sheet, size_t sheet_len, uint8_t *page, size_t page_len) {
    (void)sheet, (void)sheet_len, (void)page, (void)page_len;
    abort();
}
