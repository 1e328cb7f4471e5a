/* The parts of an answer are those that it is made of: every code, every place or number of bytes, and steps with every lower and upper half, which are
   a clause number and an argument. */
#include <stdio.h>

#include "pitxargole.h"

static void same(uint64_t code, uint64_t field, uint64_t steps, int *wrong) {
    uint64_t answer = code + 256 * field + 4294967296 * steps;
    if (pitxargole_code(answer) == code && pitxargole_place_or_bytes(answer) == field && pitxargole_steps(answer) == steps &&
        pitxargole_clause(answer) == steps % 65536 && pitxargole_argument(answer) == steps / 65536)
        return;
    if (!*wrong) printf("%llu is not taken apart as it was put together\n", (unsigned long long)answer);
    *wrong = 1;
}

int main(void) {
    int wrong = 0;
    for (uint64_t full = 0; full < 2; full++) {
        uint64_t code = 255 * full, field = 16777215 * full, steps = 4294967295 * full;
        for (uint64_t n = 0; n < 256; n++) same(n, field, steps, &wrong);
        for (uint64_t n = 0; n < 16777216; n++) same(code, n, steps, &wrong);
        for (uint64_t n = 0; n < 65536; n++) same(code, field, n, &wrong);
        for (uint64_t n = 0; n < 65536; n++) same(code, field, 65536 * n, &wrong);
    }
    /* P5's number, as document 01 has it */
    return wrong || pitxargole_code(8589935380) != 20 || pitxargole_place_or_bytes(8589935380) != 3 || pitxargole_steps(8589935380) != 2;
}
