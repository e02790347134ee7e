/* The shell patch call in the place of that of a library that has none, such as a build from before C-16. It is never made. */
#include "silo.h"
#include <stdlib.h>

uint32_t silo_shell_patch(const uint8_t *sheet, size_t sheet_len, uint32_t depth, int32_t *reply, size_t reply_len) {
    (void)sheet, (void)sheet_len, (void)depth, (void)reply, (void)reply_len;
    abort();
}
