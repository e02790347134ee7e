/* Prints how often a call has memcpy and memset called, and for how many bytes. The linker puts the counting functions in their places. */
#include "measured.h"
#include "silo.h"
#include <stdio.h>
#include <stdlib.h>

enum { LARGEST = 1 << 16 };

static bool counting;
static unsigned copied[LARGEST], filled[LARGEST];

void *__real_memcpy(void *to, const void *from, size_t size);
void *__real_memset(void *to, int byte, size_t size);

static void count(unsigned *times, size_t size) {
    if (!counting)
        return;
    if (size >= LARGEST)
        abort();
    times[size]++;
}

void *__wrap_memcpy(void *to, const void *from, size_t size) {
    count(copied, size);
    return __real_memcpy(to, from, size);
}

void *__wrap_memset(void *to, int byte, size_t size) {
    count(filled, size);
    return __real_memset(to, byte, size);
}

/* Prints what was counted, and forgets it. */
static void print_counted(const char *function, unsigned *times) {
    const char *between = " ";
    printf("%s", function);
    for (size_t size = 0; size < LARGEST; size++) {
        if (times[size] == 0)
            continue;
        printf("%s%zu bytes ", between, size);
        if (times[size] > 2)
            printf("%u times", times[size]);
        else
            printf("%s", times[size] == 1 ? "once" : "twice");
        between = ", ";
        times[size] = 0;
    }
    printf("%s", *between == ',' ? "" : " never");
}

static void print_call(const char *function, sheet_call *call, const char *name, const char *sheet_name) {
    static uint32_t answers[MAX_ANSWERS];
    struct sheet sheet = sheet_named(name, sheet_name);
    counting = true;
    uint32_t answer = call(sheet.bytes, sheet.length, answers, sheet.list);
    counting = false;
    if (answer != sheet.answer)
        abort();
    printf("%s, %s: ", function, sheet_name);
    print_counted("memcpy", copied);
    print_counted("; memset", filled);
    putchar('\n');
}

int main(void) {
    print_call("silo_loads", silo_loads, "loads", "depths: 10, strakes: 24");
    print_call("silo_loads", silo_loads, "loads", "7: weight below its range");
    print_call("silo_loads", silo_loads, "loads", "2: cut short by a byte");
    print_call("silo_answers_length", length_call, "length", "depths: 10, strakes: 24");
    return 0;
}
