/* The teaching mode: before each step the chosen rule is shown, and then it is used. The book is examples/small/rules, with constants and predicates
   numbered by first appearance. */
#include <stdio.h>

#include "pitxargole.h"

static const char *rules[] = {
    "supplies(P,C) :- feeds(P,V), opens(V,C).",
    "feeds(pump_2,valve_3).",
    "opens(valve_3,c7).",
    "upstream(X,Y) :- upstream(X,Z), pipe(Z,Y).",
};
static const uint8_t book[] = {
    5, 2, 4, 0, 0, 2, 1, 0, 0, 1, 0, 1, 4, 0, 1, 2, 1, 0, 0, 1, 0, 2, 4, 0, 2, 2, 1, 0, 2, 1, 0, 1, /* rule 0 */
    5, 0, 4, 0, 1, 2, 2, 0, 0, 2, 0, 1,                                                             /* rule 1 */
    5, 0, 4, 0, 2, 2, 2, 0, 1, 2, 0, 2,                                                             /* rule 2 */
    5, 2, 4, 0, 3, 2, 1, 0, 0, 1, 0, 1, 4, 0, 3, 2, 1, 0, 0, 1, 0, 2, 4, 0, 4, 2, 1, 0, 2, 1, 0, 1, /* rule 3 */
    7,
};
static const uint8_t solved[] = {6, 0, 1, 4, 0, 0, 2, 1, 0, 0, 2, 0, 2};
static const uint8_t stuck[] = {6, 0, 1, 4, 0, 0, 2, 2, 0, 0, 2, 0, 3};
static const uint8_t unknown[] = {6, 0, 1, 4, 0, 5, 2, 1, 0, 0, 2, 0, 2};

/* The goal and the next goal take turns in them. */
static uint8_t areas[2][PITXARGOLE_AREA];
static uint8_t instance[PITXARGOLE_AREA];

static void show(uint32_t rule) { printf("  rule %u: %s\n", (unsigned)rule, rules[rule]); }

static void stuck_at(uint32_t rule, uint32_t argument) {
    printf("  stuck: rule %u, %s gets furthest, and fails at argument %u\n", (unsigned)rule, rules[rule], (unsigned)argument);
}

static void closed(uint64_t answer) {
    switch (pitxargole_code(answer)) {
        case PITXARGOLE_SOLVED: printf("  solved\n"); break;
        case PITXARGOLE_STUCK: stuck_at(pitxargole_clause(answer), pitxargole_argument(answer)); break;
        case PITXARGOLE_UNKNOWN: printf("  no rule has this predicate\n"); break;
        default: printf("  code %u, place or bytes %u\n", (unsigned)pitxargole_code(answer), (unsigned)pitxargole_place_or_bytes(answer));
    }
}

static void teach(const char *text, const uint8_t *goal, uint64_t length) {
    printf("?- %s.\n", text);
    for (int turn = 0;; turn = 1 - turn) {
        uint64_t picked = pitxargole_pick(book, sizeof book, goal, length);
        if (pitxargole_code(picked) != PITXARGOLE_STEP) {
            closed(picked);
            return;
        }
        show(pitxargole_clause(picked));
        uint64_t applied = pitxargole_apply(pitxargole_clause(picked), book, sizeof book, goal, length, areas[turn], sizeof areas[turn]);
        if (pitxargole_code(applied) != PITXARGOLE_STEP) {
            closed(applied);
            return;
        }
        goal = areas[turn];
        length = pitxargole_place_or_bytes(applied);
    }
}

/* What a pupil may choose instead. */
static void choose(uint32_t rule) {
    uint64_t applied = pitxargole_apply(rule, book, sizeof book, solved, sizeof solved, areas[0], sizeof areas[0]);
    printf("by rule %u: code %u\n", (unsigned)rule, (unsigned)pitxargole_code(applied));
}

/* The same reason after a run, from the goal that it left. */
static void run_stuck(void) {
    uint64_t answer = pitxargole_run(10000, book, sizeof book, stuck, sizeof stuck, areas[0], sizeof areas[0], instance, sizeof instance);
    printf("code %u after %u steps\n", (unsigned)pitxargole_code(answer), (unsigned)pitxargole_steps(answer));
    closed(pitxargole_pick(book, sizeof book, areas[0], pitxargole_place_or_bytes(answer)));
}

int main(void) {
    teach("supplies(P,c7)", solved, sizeof solved);
    teach("supplies(pump_2,c8)", stuck, sizeof stuck);
    teach("suplies(P,c7)", unknown, sizeof unknown);
    printf("?- supplies(P,c7).\n");
    for (uint32_t rule = 0; rule <= 4; rule++) choose(rule);
    printf("?- supplies(pump_2,c8).\n");
    run_stuck();
    return 0;
}
