/* calls: prints the names of the refused sheets.
 * calls CALL SHEET: prints the stack of one call in bytes: it paints a stack, calls on it and finds the lowest byte written.
 * calls CALL SHEET COUNT: takes eleven turns on that stack, of which COUNT make the call and the others an empty one; prints nothing.
 * CALL is loads, length, page, page_length, shell_patch, depth_for, each_depth, depths_for_1, depths_for_32 or plain. */
#include "measured.h"
#include "silo.h"
#include <stdio.h>
#include <stdlib.h>
#include <string.h>
#include <ucontext.h>

enum { STACK = 1 << 20, PAINT = 0xA5, TURNS = 11 };

/* A place of its own, since what memset and memcpy cost depends on it and the process' stack is moved by the environment. */
static _Alignas(4096) uint8_t stack[STACK];
static struct sheet sheet;
static uint32_t answers[MAX_ANSWERS], answer;
static sheet_call *turns[TURNS];
static ucontext_t outside, inside;

static void nothing(void) {
}

static uint32_t empty_call(const uint8_t *bytes, size_t length, uint32_t *list, size_t list_length) {
    (void)bytes, (void)length, (void)list, (void)list_length;
    return 0;
}

static void last_turn(void) {
    answer = turns[TURNS - 1](sheet.bytes, sheet.length, answers, sheet.list);
}

static void every_turn(void) {
    for (int i = 0; i < TURNS; i++)
        answer = turns[i](sheet.bytes, sheet.length, answers, sheet.list);
}

static void on_stack(void (*function)(void)) {
    getcontext(&inside);
    inside.uc_stack.ss_sp = stack;
    inside.uc_stack.ss_size = STACK;
    inside.uc_link = &outside;
    makecontext(&inside, function, 0);
    swapcontext(&outside, &inside);
}

/* Bytes of the painted stack that a function reaches. */
static size_t stack_of(void (*function)(void)) {
    memset(stack, PAINT, STACK);
    on_stack(function);
    size_t untouched = 0;
    while (untouched < STACK && stack[untouched] == PAINT)
        untouched++;
    return STACK - untouched;
}

static const struct {
    const char *name;
    sheet_call *call;
} CALLS[] = {{"length", length_call},
             {"page", page_call},
             {"page_length", page_length_call},
             {"shell_patch", shell_patch_call},
             {"depth_for", depth_for_call},
             {"each_depth", each_depth_call},
             {"depths_for_1", depths_for_call},
             {"depths_for_32", depths_for_call},
             {"plain", plain_loads}};

static sheet_call *call_named(const char *name) {
    for (size_t i = 0; i < sizeof CALLS / sizeof *CALLS; i++)
        if (strcmp(name, CALLS[i].name) == 0)
            return CALLS[i].call;
    return silo_loads;
}

int main(int argc, char **argv) {
    if (argc < 3) {
        for (const struct refused *refused = REFUSED; refused->name; refused++)
            puts(refused->name);
        return 0;
    }
    sheet = sheet_named(argv[1], argv[2]);
    sheet_call *call = call_named(argv[1]);
    int count = argc == 3 ? 1 : atoi(argv[3]);
    for (int i = 0; i < TURNS; i++)
        turns[i] = i < TURNS - count ? empty_call : call;
    if (argc == 3)
        printf("%zu\n", stack_of(last_turn) - stack_of(nothing));
    else
        on_stack(every_turn);
    return answer != sheet.answer;
}
