/* reading SHAPE BYTES: rules of so many bytes, read once. */
#include <stdio.h>
#include <stdlib.h>
#include <string.h>

#include "pitxargole_text.h"

static uint8_t text[PITXARGOLE_TEXT], book[PITXARGOLE_BOOK], names[3 * PITXARGOLE_BOOK];
static char rule[4096];
static unsigned next;

static void put(const char *part) { strcat(rule, part); }

static void listed(const char *part, unsigned times, const char *between) {
    for (unsigned i = 0; i < times; i++) {
        put(i ? between : "");
        put(part);
    }
}

/* The same names in each rule. */
static void few(void) {
    put("delivers_to(pump_number_2,X) :- ");
    listed("connected_to(pump_number_2,_)", 8, ", ");
}

/* A constant that no other rule has, 24 times. */
static void many(void) {
    char name[16];
    put("p(");
    for (unsigned i = 0; i < 24; i++, next++) {
        snprintf(name, sizeof name, "%sv%06u", i % 8 ? "," : i ? "),f(" : "f(", next);
        put(name);
    }
    put("))");
}

/* A term of 40 levels. */
static void deep(void) {
    put("p(");
    listed("valve_no_2(", 40, "");
    put("a");
    listed(")", 41, "");
}

static void comments(void) {
    put("%");
    listed(" feeds(X,Y) :- feeds(X,Z).", 8, "");
    put("\np :- q");
}

int main(int words, char **word) {
    static const struct {
        const char *name;
        void (*write)(void);
    } shapes[] = {{"few", few}, {"many", many}, {"deep", deep}, {"comments", comments}};
    if (words != 3) return 2;
    size_t length = (size_t)atoi(word[2]), at = 0;
    for (size_t i = 0; i < sizeof shapes / sizeof *shapes; i++) {
        if (strcmp(word[1], shapes[i].name)) continue;
        memset(text, ' ', sizeof text);
        for (;;) {
            rule[0] = 0;
            shapes[i].write();
            put(".\n");
            if (at + strlen(rule) > length) break;
            memcpy(text + at, rule, strlen(rule));
            at += strlen(rule);
        }
        uint64_t answer = pitxargole_read_text(text, length, book, sizeof book, names, sizeof names);
        return pitxargole_code(answer) == 0 ? 0 : 1;
    }
    return 2;
}
