/* Pitxargole for C firmware, the flat profile (document 02, C-20): books and queries of constants and variables only. Link with the archive that `ports/module profile`
   makes for x86-64, or `ports/build` for another processor, together with the engine's, which has the functions for the parts of a number.

   In this profile more is promised: without limits of budget and room a run always says SOLVED, STUCK, UNKNOWN or LOOP. So STEPS says that more steps would have helped, and how many
   that would be no count of predicates and constants tells: they can double with each rule. */
#ifndef PITXARGOLE_FLAT_H
#define PITXARGOLE_FLAT_H

#include "pitxargole.h"

#ifdef __cplusplus
extern "C" {
#endif

/* Codes besides those of pitxargole.h: a compound term, at its record, straight after the test of its kind. */
#define PITXARGOLE_BOOK_COMPOUND 8
#define PITXARGOLE_QUERY_COMPOUND 18

/* Checks a book. The number has the code, the place of the first fault or the clauses of a good book, and its counts. The pointers are not null, also where a
   length is 0; so it is with all functions here. */
uint64_t pitxargole_flat_book(const uint8_t *book, uint64_t book_length);

/* Checks a query by its book, the book first. The number has the code, and the place of the first fault or the nodes of a good query. */
uint64_t pitxargole_flat_query(const uint8_t *book, uint64_t book_length, const uint8_t *query, uint64_t query_length);

/* One step by the first clause whose head unifies with the leftmost formula. It gives STEP with the clause's number, as pitxargole_clause has it, and the next goal's image stands
   at the front of the area; or SOLVED, STUCK, UNKNOWN or ROOM, and the area is as it was. */
uint64_t pitxargole_flat_step(const uint8_t *book, uint64_t book_length, const uint8_t *query, uint64_t query_length, uint8_t *area, uint64_t area_length);

/* pitxargole_run, behind these checks. A call needs no more than PITXARGOLE_STACK bytes of stack. */
uint64_t pitxargole_flat_run(uint32_t budget, const uint8_t *book, uint64_t book_length, const uint8_t *query, uint64_t query_length, uint8_t *area,
                             uint64_t area_length, uint8_t *answer, uint64_t answer_length);

/* Of a check with code 0: the clauses of the book, or the nodes of the query. */
static inline uint32_t pitxargole_flat_count(uint64_t number) { return (uint32_t)(number >> 8) & 0xffffff; }
/* How many distinct predicates, numbers with their arities, in heads and bodies, and how many distinct constants a good book has; otherwise 0. */
static inline uint32_t pitxargole_flat_predicates(uint64_t number) { return (uint32_t)(number >> 32) & 0xffff; }
static inline uint32_t pitxargole_flat_constants(uint64_t number) { return (uint32_t)(number >> 48); }

#ifdef __cplusplus
}
#endif

#endif
