/* What a firmware does: book and query from the serial lead, a goal area and an answer area of its own, one call, and the answer on the screen. The book is
   examples/small/rules, with constants and predicates numbered by first appearance. */
#include <stdio.h>

#include "pitxargole.h"

static const char *constants[] = {"pump_2", "valve_3", "c7", "tank", "c8"};
static const char *predicates[] = {"supplies", "feeds", "opens", "upstream", "pipe", "suplies"};
static const uint8_t book[] = {
    5, 2, 4, 0, 0, 2, 1, 0, 0, 1, 0, 1, 4, 0, 1, 2, 1, 0, 0, 1, 0, 2, 4, 0, 2, 2, 1, 0, 2, 1, 0, 1, /* supplies(P,C) :- feeds(P,V), opens(V,C). */
    5, 0, 4, 0, 1, 2, 2, 0, 0, 2, 0, 1,                                                             /* feeds(pump_2,valve_3). */
    5, 0, 4, 0, 2, 2, 2, 0, 1, 2, 0, 2,                                                             /* opens(valve_3,c7). */
    5, 2, 4, 0, 3, 2, 1, 0, 0, 1, 0, 1, 4, 0, 3, 2, 1, 0, 0, 1, 0, 2, 4, 0, 4, 2, 1, 0, 2, 1, 0, 1, /* upstream(X,Y) :- upstream(X,Z), pipe(Z,Y). */
    7,
};
static const uint8_t valve[] = {6, 0, 1, 4, 0, 2, 2, 1, 0, 0, 2, 0, 2};                               /* opens(V,c7) */
static const uint8_t both[] = {6, 0, 2, 4, 0, 0, 2, 1, 0, 0, 2, 0, 2, 4, 0, 1, 2, 1, 0, 0, 1, 0, 1};  /* supplies(P,c7), feeds(P,V) */
static const uint8_t other[] = {6, 0, 2, 4, 0, 1, 2, 1, 0, 0, 1, 0, 1, 4, 0, 2, 2, 1, 0, 1, 2, 0, 4}; /* feeds(P,V), opens(V,c8) */
static const uint8_t loop[] = {6, 0, 1, 4, 0, 3, 2, 2, 0, 3, 1, 0, 0};                                /* upstream(tank,V) */
static const uint8_t mistyped[] = {6, 0, 1, 4, 0, 5, 2, 1, 0, 0, 2, 0, 2};                            /* suplies(P,c7) */
static uint8_t area[PITXARGOLE_AREA], answer[PITXARGOLE_AREA];

static unsigned number(const uint8_t *record) { return record[1] * 256u + record[2]; }

/* A variable or a constant, the plant's only terms. */
static void term(const uint8_t *record) {
    if (record[0] == 1)
        printf("V%u", number(record));
    else
        printf("%s", constants[number(record)]);
}

/* A formula, and what stands behind it. */
static const uint8_t *formula(const uint8_t *record) {
    unsigned arguments = record[3];
    printf("%s", predicates[number(record)]);
    record += 4;
    for (unsigned i = 0; i < arguments; i++, record += 3) {
        printf(i ? "," : "(");
        term(record);
    }
    if (arguments) printf(")");
    return record;
}

/* A goal's image, or an answer's, in document 01's notation. */
static void show(const char *before, const uint8_t *image) {
    const uint8_t *next = image + 3;
    printf("%s", before);
    for (unsigned i = 0; i < number(image); i++) {
        if (i) printf(", ");
        next = formula(next);
    }
}

static const char *says(unsigned code) {
    switch (code) {
        case PITXARGOLE_SOLVED: return "solved";
        case PITXARGOLE_LOOP: return "a loop";
        case PITXARGOLE_STUCK: return "stuck";
        case PITXARGOLE_UNKNOWN: return "no rule has this predicate";
        case PITXARGOLE_STEPS: return "steps used up";
        default: return "no room";
    }
}

/* A good query. What the search has found out so far is the answer, if the goal that is left holds. */
static void ask(const uint8_t *query, uint64_t length) {
    show("?- ", query);
    uint64_t said = pitxargole_run(10000, book, sizeof book, query, length, area, sizeof area, answer, sizeof answer);
    printf(".\n  code %u after %u steps, %s", (unsigned)pitxargole_code(said), (unsigned)pitxargole_steps(said), says(pitxargole_code(said)));
    show(": ", answer);
    if (number(area)) show(" if ", area);
    printf("\n");
}

/* The book cut short, as it comes over a bad lead: nothing is written. */
static void cut(void) {
    area[0] = 99;
    answer[0] = 98;
    uint64_t said = pitxargole_run(10000, book, 39, valve, sizeof valve, area, sizeof area, answer, sizeof answer);
    printf("a book of 39 bytes: code %u at %u\n", (unsigned)pitxargole_code(said), (unsigned)pitxargole_place_or_bytes(said));
    printf("the goal area starts with %u, the answer area with %u\n", area[0], answer[0]);
}

int main(void) {
    ask(valve, sizeof valve);
    ask(both, sizeof both);
    ask(other, sizeof other);
    ask(loop, sizeof loop);
    ask(mistyped, sizeof mistyped);
    cut();
    return 0;
}
