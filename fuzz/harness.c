/* The fuzzer's harness: each input is a sheet, compared with the second implementation by compare_input, which stops the process at a
 * difference. Given a file, it compares that file once: a stored crash runs again. */
#include <stddef.h>
#include <stdint.h>
#include <stdio.h>
#include <unistd.h>

void compare_input(const uint8_t *input, size_t length);

/* The block of the library that ran last, kept by the counters that fuzz/counted puts in. */
extern uint32_t previous_block;

__AFL_FUZZ_INIT();

int main(int argc, char **argv) {
    static uint8_t stored[1 << 16];
    if (argc > 1) {
        FILE *file = fopen(argv[1], "rb");
        if (file == NULL)
            return 2;
        compare_input(stored, fread(stored, 1, sizeof stored, file));
        return 0;
    }
    __AFL_INIT();
    const uint8_t *input = __AFL_FUZZ_TESTCASE_BUF;
    while (__AFL_LOOP(10000)) {
        previous_block = 0;
        compare_input(input, (size_t)__AFL_FUZZ_TESTCASE_LEN);
    }
    return 0;
}
