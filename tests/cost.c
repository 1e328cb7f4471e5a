/* cost SHAPE SIZE STEPS: a run from a goal of so many nodes (or levels, or formulas) whose predicate no rule has (0), or that comes after one step to a goal of as many nodes
   whose predicate no rule has (1); of a chain so many steps, as the budget allows. */
#include <stddef.h>
#include <stdlib.h>
#include <string.h>

#include "pitxargole.h"

/* What the engine clears and copies counts by words too, and not as the C library's own tricks have it. */
void *memset(void *to, int byte, size_t length) {
    volatile uint32_t *word = to;
    for (size_t i = 0; i < length / 4; i++) word[i] = (uint8_t)byte * 0x1010101u;
    volatile uint8_t *last = to;
    for (size_t i = length / 4 * 4; i < length; i++) last[i] = (uint8_t)byte;
    return to;
}

void *memcpy(void *restrict to, const void *restrict from, size_t length) {
    volatile uint32_t *word = to;
    const volatile uint32_t *source = from;
    for (size_t i = 0; i < length / 4; i++) word[i] = source[i];
    volatile uint8_t *last = to;
    const volatile uint8_t *rest = from;
    for (size_t i = length / 4 * 4; i < length; i++) last[i] = rest[i];
    return to;
}

static uint8_t book[2048], query[PITXARGOLE_AREA], area[PITXARGOLE_AREA], instance[PITXARGOLE_AREA];
static size_t book_length, query_length;
static unsigned steps, before, budget = 10000;

/* The records of document 01. */
static void record(uint8_t kind, unsigned number, int arity) {
    query[query_length++] = kind;
    query[query_length++] = (uint8_t)(number >> 8);
    query[query_length++] = (uint8_t)number;
    if (arity >= 0) query[query_length++] = (uint8_t)arity;
}

static void variable(unsigned number) { record(1, number, -1); }
static void constant(unsigned number) { record(2, number, -1); }
static void compound(unsigned number, int arity) { record(3, number, arity); }
static void formula(unsigned number, int arity) { record(4, number, arity); }
static void goal(unsigned formulas) { record(6, formulas, -1); }

/* A letter for each variable. */
static void variables(const char *letters) {
    for (; *letters; letters++) variable((unsigned)(*letters - 'a'));
}

/* The formulas that stand in the query's place are a clause of the book: its head, and a body of so many. */
static void clause(unsigned body) {
    book[book_length++] = 5;
    book[book_length++] = (uint8_t)body;
    memcpy(book + book_length, query, query_length);
    book_length += query_length;
    query_length = 0;
}

/* The last rule, for p with q as its body, and a letter for each argument's variable; a run of no step has s in the place of p. */
static void rule(const char *head, const char *body) {
    formula(steps ? 1 : 4, (int)strlen(head));
    variables(head);
    formula(2, (int)strlen(body));
    variables(body);
    clause(1);
    book[book_length++] = 7;
}

/* p(f(f(..a))) by p(X) :- q(X) */
static void deep(unsigned nodes) {
    rule("a", "a");
    goal(1);
    formula(1, 1);
    for (unsigned i = 2; i < nodes; i++) compound(1, 1);
    constant(1);
}

/* p(a,a,a,a,a,a,V), p(a,a,a,a,a,a,W), .. by p(S,..,Y) :- q(S,..,Y) */
static void wide(unsigned nodes) {
    rule("abcdefg", "abcdefg");
    goal(nodes / 8);
    for (unsigned i = 0; i < nodes / 8; i++) {
        formula(1, 7);
        for (int j = 0; j < 6; j++) constant(1);
        variable(i);
    }
}

/* p(c(V,c(W,..a))) by p(X) :- q(X) */
static void named(unsigned nodes) {
    rule("a", "a");
    goal(1);
    formula(1, 1);
    for (unsigned i = 0; i < (nodes - 2) / 2; i++) {
        compound(1, 2);
        variable(i);
    }
    constant(1);
}

/* p(c(V,c(W,..a)),c(Y,c(Z,..a))), r by p(X,X) :- q(X,X): two terms are made equal, node by node. */
static void joined(unsigned nodes) {
    unsigned pairs = (nodes - 4) / 4, next = 0;
    rule("aa", "aa");
    goal(2);
    formula(1, 2);
    for (int side = 0; side < 2; side++) {
        for (unsigned i = 0; i < pairs; i++) {
            compound(1, 2);
            variable(next++);
        }
        constant(1);
    }
    formula(3, 0);
}

/* f(V,V), V */
static void twice(const char *letter) {
    compound(1, 2);
    for (int i = 0; i < 3; i++) variables(letter);
}

/* p(L,R,Y,Z) by p(X,X,Y,Y) :- q: L and R make Y f(A1,A1), A1 f(A2,A2) and so on, and the same of Z, B1, ..; then Y and Z are made equal, two terms that double
   at each level (document 02, C-15). The query is d, so that the answer does not double with them, and the book has two steps and one for each level up to p:
   d :- b(s(s(..z)),Y,Z,e,e,Y,Z).
   b(s(N),A,B,L,R,Y,Z) :- b(N,C,D,c(A,C,B,D,L),c(f(V,V),V,f(W,W),W,R),Y,Z).
   b(z,A,B,L,R,Y,Z) :- p(L,R,Y,Z). */
static void doubled(unsigned levels) {
    before = levels + 2;
    formula(5, 0);
    formula(6, 7);
    for (unsigned i = 0; i < levels; i++) compound(3, 1);
    constant(2);
    variables("ab");
    constant(1);
    constant(1);
    variables("ab");
    clause(1);
    formula(6, 7);
    compound(3, 1);
    variables("abcdefg");
    formula(6, 7);
    variables("ahi");
    compound(2, 5);
    variables("bhcid");
    compound(2, 5);
    twice("j");
    twice("k");
    variables("efg");
    clause(1);
    formula(6, 7);
    constant(2);
    variables("abcdef");
    formula(1, 4);
    variables("cdef");
    clause(1);
    rule("aabb", "");
    goal(1);
    formula(5, 0);
}

/* p0(a), r, r, .. by p0(X) :- p1(X), p1(X) :- p2(X) and so on: each step leaves as many formulas. */
static void chain(unsigned formulas) {
    budget = steps;
    for (unsigned i = 0; i < 100; i++) {
        formula(10 + i, 1);
        variable(0);
        formula(11 + i, 1);
        variable(0);
        clause(1);
    }
    book[book_length++] = 7;
    goal(formulas);
    formula(10, 1);
    constant(1);
    for (unsigned i = 1; i < formulas; i++) formula(3, 0);
}

int main(int words, char **word) {
    static const struct {
        const char *name;
        void (*build)(unsigned);
    } shapes[] = {{"deep", deep}, {"wide", wide}, {"named", named}, {"joined", joined}, {"doubled", doubled}, {"chain", chain}};
    if (words != 4) return 2;
    steps = (unsigned)atoi(word[3]);
    for (size_t i = 0; i < sizeof shapes / sizeof *shapes; i++) {
        if (strcmp(word[1], shapes[i].name)) continue;
        shapes[i].build((unsigned)atoi(word[2]));
        uint64_t answer = pitxargole_run(budget, book, book_length, query, query_length, area, sizeof area, instance, sizeof instance);
        unsigned ends = budget == steps ? PITXARGOLE_STEPS : PITXARGOLE_UNKNOWN;
        return pitxargole_code(answer) == ends && pitxargole_steps(answer) == before + steps ? 0 : 1;
    }
    return 2;
}
