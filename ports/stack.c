/* The stack below the caller is painted, and after the call one sees how far down it came. The figure has in it what lies between this function's frame and
   the call's own. */
#include "pitxargole.h"
#include "stack.h"

/* In words of 8 bytes: to here it is painted, which is more than the header promises; and nothing so near, where the painting's own frame may be. */
#define DEEP ((PITXARGOLE_STACK + 8192) / 8)
#define NEAR 32
#define PAINT 0x5a5a5a5a5a5a5a5a

static volatile uint64_t *base;

__attribute__((noinline)) static void paint(void) {
    for (size_t i = DEEP; i > NEAR; i--) *(base - i) = PAINT;
}

__attribute__((noinline)) static size_t deepest(void) {
    size_t i = DEEP;
    while (i > NEAR && *(base - i) == PAINT) i--;
    return i;
}

__attribute__((noinline)) uint64_t measured(uint64_t (*call)(const void *), const void *argument, size_t *used) {
    base = (volatile uint64_t *)((uintptr_t)__builtin_frame_address(0) / 8 * 8);
    paint();
    uint64_t said = call(argument);
    *used = 8 * deepest();
    return said;
}
