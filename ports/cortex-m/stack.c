/* The call has a stack of its own, just as long as the header promises; it is painted before, and after the call one sees how far down it came. */
#include "stack.h"

#include "cortex-m/own_stack.h"
#include "pitxargole.h"

#define PAINT 0x5a5a5a5a
#define WORDS (PITXARGOLE_STACK / 4)

static uint32_t lent[WORDS] __attribute__((aligned(8)));

uint64_t measured(uint64_t (*call)(const void *), const void *argument, size_t *used) {
    for (size_t at = 0; at < WORDS; at++) lent[at] = PAINT;
    uint64_t said = on_own_stack(call, argument, (uint8_t *)lent, sizeof lent);
    size_t left = 0;
    while (left < WORDS && lent[left] == PAINT) left++;
    *used = sizeof lent - 4 * left;
    return said;
}
