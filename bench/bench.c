/* bench FILE..: runs each input, as the program `trace` reads it, for about half a second of processor time, and prints the file's name, the code, the steps of one
   run and the nanoseconds that one takes. bench once FILE..: runs each input once. */
#define _POSIX_C_SOURCE 199309L
#include <stdio.h>
#include <stdlib.h>
#include <string.h>
#include <time.h>

#include "pitxargole.h"

static uint8_t input[49163], area[PITXARGOLE_AREA], instance[PITXARGOLE_AREA];

static double now(void) {
    struct timespec t;
    clock_gettime(CLOCK_PROCESS_CPUTIME_ID, &t);
    return (double)t.tv_sec * 1e9 + (double)t.tv_nsec;
}

static uint32_t number(const uint8_t *at) {
    return (uint32_t)at[0] << 24 | (uint32_t)at[1] << 16 | (uint32_t)at[2] << 8 | at[3];
}

static void measure(const char *name, double least) {
    FILE *file = fopen(name, "rb");
    if (!file) {
        perror(name);
        exit(1);
    }
    size_t length = fread(input, 1, sizeof input, file);
    fclose(file);
    uint32_t budget = number(input), book = number(input + 4);
    const uint8_t *query = input + 8 + book;
    uint64_t answer = 0;
    unsigned long runs = 0;
    double start = now(), spent = 0;
    do {
        answer = pitxargole_run(budget, input + 8, book, query, length - 8 - book, area, sizeof area, instance, sizeof instance);
        runs++;
        spent = now() - start;
    } while (spent < least);
    printf("%s %u %u %.0f\n", name, pitxargole_code(answer), pitxargole_steps(answer), spent / (double)runs);
}

int main(int words, char **word) {
    int once = words > 1 && !strcmp(word[1], "once");
    for (int i = 1 + once; i < words; i++) measure(word[i], once ? 0 : 5e8);
    return 0;
}
