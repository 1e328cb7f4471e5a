/* The office reads rules and queries, prints the book that the rules are and the queries, and what runs have left. */
#include <stdio.h>
#include <string.h>

#include "pitxargole_text.h"

static const char rules[] = "supplies(P,C) :- feeds(P,V), opens(V,C).\n"
                            "feeds(pump_2,valve_3). opens(valve_3,c7).\n"
                            "upstream(X,Y) :- upstream(X,Z), pipe(Z,Y). % and so on\n";
static uint8_t book[PITXARGOLE_BOOK], names[PITXARGOLE_TEXT];
static uint64_t held, listed; /* how long they are */
static uint8_t query[PITXARGOLE_AREA], goal[PITXARGOLE_AREA], answer[PITXARGOLE_AREA], text[PITXARGOLE_TEXT];
static uint8_t list[PITXARGOLE_TEXT]; /* the names, and those that the query brings */

static void show(const char *what, uint64_t said) {
    unsigned code = pitxargole_code(said), rest = pitxargole_place_or_bytes(said);
    if (code)
        printf("%s: refused with %u at place %u\n", what, code, rest);
    else
        printf("%s:\n%.*s\n", what, (int)rest, (const char *)text);
}

/* How long an image is: a goal's says it itself. */
static uint64_t image(const uint8_t *s) {
    uint64_t at = 3, left = 0, formulas = (uint64_t)s[1] * 256 + s[2];
    while (left || formulas) {
        if (left) left--;
        else formulas--;
        if (s[at] > 2) left += s[at + 3];
        at += s[at] > 2 ? 4 : 3;
    }
    return at;
}

static uint64_t asking(const char *typed) {
    uint64_t said = pitxargole_read_query((const uint8_t *)typed, strlen(typed), book, held, names, listed, query, sizeof query, list, sizeof list);
    if (pitxargole_code(said))
        printf("%s: refused with %u at place %u\n", typed, (unsigned)pitxargole_code(said), (unsigned)pitxargole_place_or_bytes(said));
    else
        printf("%s: an image of %u bytes, names of %u\n", typed, (unsigned)pitxargole_place_or_bytes(said), (unsigned)pitxargole_names_bytes(said));
    return said;
}

static void run(uint32_t budget, const char *typed) {
    uint64_t asked = asking(typed), length = pitxargole_place_or_bytes(asked), known = pitxargole_names_bytes(asked);
    if (pitxargole_code(asked))
        return;
    show("the query", pitxargole_print_goal(book, held, query, length, list, known, text, sizeof text));
    uint64_t said = pitxargole_run(budget, book, held, query, length, goal, sizeof goal, answer, sizeof answer);
    printf("after %u steps, code %u, ", (unsigned)pitxargole_steps(said), (unsigned)pitxargole_code(said));
    show("the goal", pitxargole_print_goal(book, held, goal, pitxargole_place_or_bytes(said), list, known, text, sizeof text));
    show("the answer, as a goal", pitxargole_print_goal(book, held, answer, image(answer), list, known, text, sizeof text));
    show("the answer", pitxargole_print_answer(book, held, answer, image(answer), list, known, text, sizeof text));
}

static uint64_t reading(const char *what, const char *rules) {
    uint64_t said = pitxargole_read_text((const uint8_t *)rules, strlen(rules), book, sizeof book, names, sizeof names);
    unsigned code = pitxargole_code(said), rest = pitxargole_place_or_bytes(said);
    if (code)
        printf("%s: refused with %u at place %u\n", what, code, rest);
    else
        printf("%s: a book of %u bytes, names of %u\n", what, rest, (unsigned)pitxargole_names_bytes(said));
    return said;
}

int main(void) {
    reading("a bracket too many", "opens(valve_3,c7)).");
    reading("a forgotten argument", "opens(valve_3,c7). opens(c7).");
    uint64_t said = reading("the rules", rules);
    held = pitxargole_place_or_bytes(said);
    listed = pitxargole_names_bytes(said);
    show("the book", pitxargole_print_book(book, held, names, listed, text, sizeof text));
    show("the book, cut short", pitxargole_print_book(book, 40, names, listed, text, sizeof text));
    show("without `pipe`", pitxargole_print_book(book, held, names, listed - 8, text, sizeof text));
    show("half a name", pitxargole_print_book(book, held, names, listed - 1, text, sizeof text));
    show("a small area", pitxargole_print_book(book, held, names, listed, text, 20));
    run(10000, "supplies(P,c7)");
    run(10000, "supplies(P,C), pipe(C,X).");
    run(1, "upstream(X,Y)");
    run(10000, "supplies(pump_2,c8), cooled(c8) % the new one");
    asking("supplies(P,c7)) .");
    asking("supplies(P,c7), opens(c7)");
    asking("supplies(P,c7). supplies(P,c8)");
    return 0;
}
