/* The flat profile: a firmware whose rules have constants and variables only says what a book has, and refuses compound terms. The book is examples/small/rules. */
#include <stdio.h>

#include "pitxargole_flat.h"

static const uint8_t book[] = {
    5, 2, 4, 0, 0, 2, 1, 0, 0, 1, 0, 1, 4, 0, 1, 2, 1, 0, 0, 1, 0, 2, 4, 0, 2, 2, 1, 0, 2, 1, 0, 1, /* supplies(P,C) :- feeds(P,V), opens(V,C). */
    5, 0, 4, 0, 1, 2, 2, 0, 0, 2, 0, 1,                                                             /* feeds(pump_2,valve_3). */
    5, 0, 4, 0, 2, 2, 2, 0, 1, 2, 0, 2,                                                             /* opens(valve_3,c7). */
    5, 2, 4, 0, 3, 2, 1, 0, 0, 1, 0, 1, 4, 0, 3, 2, 1, 0, 0, 1, 0, 2, 4, 0, 4, 2, 1, 0, 2, 1, 0, 1, /* upstream(X,Y) :- upstream(X,Z), pipe(Z,Y). */
    7,
};
static const uint8_t solved[] = {6, 0, 1, 4, 0, 0, 2, 1, 0, 0, 2, 0, 2};                /* supplies(P,c7) */
static const uint8_t loop[] = {6, 0, 1, 4, 0, 3, 2, 2, 0, 3, 1, 0, 0};                  /* upstream(tank,V) */
static const uint8_t compound[] = {6, 0, 1, 4, 0, 0, 2, 3, 0, 0, 1, 1, 0, 0, 2, 0, 2}; /* supplies(pos(P),c7) */
static uint8_t area[PITXARGOLE_AREA], answer[PITXARGOLE_AREA];

static void checked(const char *what, uint64_t number) {
    unsigned code = pitxargole_code(number);
    if (code)
        printf("%s: refused with %u at place %u\n", what, code, (unsigned)pitxargole_place_or_bytes(number));
    else
        printf("%s: good, %u\n", what, (unsigned)pitxargole_flat_count(number));
}

static void ask(const char *what, const uint8_t *query, uint64_t length) {
    checked(what, pitxargole_flat_query(book, sizeof book, query, length));
    uint64_t said = pitxargole_flat_step(book, sizeof book, query, length, area, sizeof area);
    printf("  a step: code %u, clause %u\n", (unsigned)pitxargole_code(said), (unsigned)pitxargole_clause(said));
    said = pitxargole_flat_run(10000, book, sizeof book, query, length, area, sizeof area, answer, sizeof answer);
    printf("  a run: code %u after %u steps\n", (unsigned)pitxargole_code(said), (unsigned)pitxargole_steps(said));
}

int main(void) {
    uint64_t said = pitxargole_flat_book(book, sizeof book);
    checked("the book", said);
    printf("  %u predicates, %u constants\n", (unsigned)pitxargole_flat_predicates(said), (unsigned)pitxargole_flat_constants(said));
    checked("the book, cut short", pitxargole_flat_book(book, 40));
    ask("supplies(P,c7)", solved, sizeof solved);
    ask("upstream(tank,V)", loop, sizeof loop);
    ask("supplies(pos(P),c7)", compound, sizeof compound);
    return 0;
}
