/* The same call on a stack of its own that is long enough, and on one that is too short: on a processor with a limit for the stack the second ends in a
   fault. */
#include <stdio.h>

#include "cortex-m/own_stack.h"
#include "pitxargole.h"

static const uint8_t book[] = {5, 0, 4, 0, 1, 1, 2, 0, 1, 7};
static const uint8_t query[] = {6, 0, 2, 4, 0, 1, 1, 2, 0, 1, 4, 0, 1, 1, 2, 0, 1};
static uint8_t area[PITXARGOLE_AREA], answer[PITXARGOLE_AREA];
static uint8_t lent[PITXARGOLE_STACK] __attribute__((aligned(8)));

static uint64_t call(const void *argument) {
    (void)argument;
    return pitxargole_run(10000, book, sizeof book, query, sizeof query, area, sizeof area, answer, sizeof answer);
}

int main(void) {
    printf("enough: code %u\n", (unsigned)pitxargole_code(on_own_stack(call, NULL, lent, sizeof lent)));
    fflush(stdout);
    printf("too short: code %u\n", (unsigned)pitxargole_code(on_own_stack(call, NULL, lent, 98304)));
    return 0;
}
