/* Pitxargole for C firmware: the run with its answer (document 01; document 02, C-11), and the single step in two, pick and apply (C-16). Link with the archive that
   `ports/module engine` makes for x86-64, or `ports/build` for another processor. */
#ifndef PITXARGOLE_H
#define PITXARGOLE_H

#include <stdint.h>

#ifdef __cplusplus
extern "C" {
#endif

/* A goal area has at least so many bytes, and so has an answer area. */
#define PITXARGOLE_AREA 16387

/* No call needs more bytes of stack than this, on any processor of ports/targets, with 1,024 for the C library's memcpy and memset. tests/module holds the
   number to the compiled engine's frames. */
#define PITXARGOLE_STACK 258048

/* Codes. The input was refused, and the areas are as they were: */
#define PITXARGOLE_AREA_SHORT 1    /* goal area or answer area too short */
#define PITXARGOLE_BOOK_KIND 2     /* record missing, its kind not allowed there, or a byte after the end */
#define PITXARGOLE_BOOK_CUT 3      /* the record's body is cut off */
#define PITXARGOLE_BOOK_RANGE 4    /* arity or number of formulas outside its range */
#define PITXARGOLE_BOOK_SIZE 5     /* a size is passed */
#define PITXARGOLE_BOOK_VARIABLE 6 /* variable number above the next unused one */
#define PITXARGOLE_BOOK_ARITY 7    /* the formula's predicate stood before it with another number of arguments: one was forgotten, most likely */
#define PITXARGOLE_QUERY_KIND 12
#define PITXARGOLE_QUERY_CUT 13
#define PITXARGOLE_QUERY_RANGE 14
#define PITXARGOLE_QUERY_SIZE 15
#define PITXARGOLE_QUERY_VARIABLE 16
#define PITXARGOLE_QUERY_ARITY 17 /* in the book, or before it in the query */
/* 8 and 18, a compound term, are of the flat profile: pitxargole_flat.h. */
/* A run closed: its last goal's image stands at the front of the goal area, and its answer's image at the front of the answer area. The bytes behind the
   images are as they were. */
#define PITXARGOLE_SOLVED 20      /* goal empty */
#define PITXARGOLE_LOOP 21        /* the search never ends */
#define PITXARGOLE_STUCK 22       /* the book has clauses for the leftmost formula's predicate and arity, and none of their heads unifies with it */
#define PITXARGOLE_STEPS 23       /* steps used up */
#define PITXARGOLE_ROOM 24        /* the next goal has over 512 formulas or 4,096 nodes */
#define PITXARGOLE_UNKNOWN 26     /* the book has no clause for the leftmost formula's predicate: a slip of the pen, most likely */
#define PITXARGOLE_ANSWER_ROOM 27 /* the next answer has over 4,096 nodes */
/* A pick gives SOLVED, STUCK or UNKNOWN of the query itself, or else STEP. An apply gives STEP, and the next goal's image stands at the front of the
   area; or it gives SOLVED, NO_CLAUSE, NO_FIT or ROOM, tested in this order, and the area is as it was. */
#define PITXARGOLE_STEP 25      /* the clause is picked, or the step is taken */
#define PITXARGOLE_NO_CLAUSE 32 /* the book has no clause of that number */
#define PITXARGOLE_NO_FIT 33    /* the clause's head does not unify with the leftmost formula */

/* Every book and query, however damaged, gets one number. The pointers are not null, also where a length is 0, and `area` and `answer` overlap neither book
   nor query nor each other. Lengths have 64 bits on every processor.

   Runs the query by the book for at most `budget` steps. The answer is the query's formulas with what the steps have found out of their variables: solved,
   `feeds(V,c7)` is `feeds(v3,c7)`. Its image is a goal's, with as many formulas as the query, and says itself where it ends. Variables that the last goal has too
   have the goal's numbers; the others come after them. */
uint64_t pitxargole_run(uint32_t budget, const uint8_t *book, uint64_t book_length, const uint8_t *query, uint64_t query_length, uint8_t *area,
                        uint64_t area_length, uint8_t *answer, uint64_t answer_length);

/* Says which clause the next step of the query would take, or with STUCK which clause got furthest and where it failed. It needs no area, and does not
   look at the next goal's size. To learn why a run is stuck, give it the goal that the run left in its area. */
uint64_t pitxargole_pick(const uint8_t *book, uint64_t book_length, const uint8_t *query, uint64_t query_length);

/* Takes one step by the clause of that number, from 0, be it the picked one or another whose head unifies. To go on from the next goal, give it as the
   query together with another area. */
uint64_t pitxargole_apply(uint32_t clause, const uint8_t *book, uint64_t book_length, const uint8_t *query, uint64_t query_length, uint8_t *area,
                          uint64_t area_length);

/* The parts of the number, by the engine's own proved functions: */
uint8_t pitxargole_code(uint64_t number);
uint32_t pitxargole_place_or_bytes(uint64_t number); /* the place of the first fault for codes 1 to 19, and otherwise the bytes of the goal's image */
uint32_t pitxargole_steps(uint64_t number);          /* of a run */

/* The clause number that a pick or an apply gives with STEP; with STUCK the clause, of the leftmost formula's predicate and arity, whose head got furthest,
   and the lowest of these. */
static inline uint32_t pitxargole_clause(uint64_t number) { return (uint32_t)(number >> 32) & 0xffff; }
/* With a pick's STUCK that head's first argument, from 1, at which the arguments up to and including it can't be unified together; otherwise 0. */
static inline uint32_t pitxargole_argument(uint64_t number) { return (uint32_t)(number >> 48); }

#ifdef __cplusplus
}
#endif

#endif
