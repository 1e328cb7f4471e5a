/* Pitxargole for C firmware, books and goals as text (document 02, C-13 and C-14). Link with the archive that `ports/module office` makes for x86-64, or `ports/build` for another
   processor, together with the engine's, which has the functions for the parts of a number.

   A name list says what symbols are called, an entry for each: record kind (2 a constant, 3 a compound term, 4 a predicate), number in two bytes, the higher first, length of the name in one byte, the
   name's bytes. Entries rise by kind, then number; there may be gaps, and names that are not used. A name is a small letter, then letters, digits or underscores, 1 to 32 bytes. */
#ifndef PITXARGOLE_TEXT_H
#define PITXARGOLE_TEXT_H

#include "pitxargole.h"

#ifdef __cplusplus
extern "C" {
#endif

/* A book has at most so many bytes. */
#define PITXARGOLE_BOOK 32768

/* No text is longer. A text area may be shorter, and then a text that does not fit it is refused. */
#define PITXARGOLE_TEXT 65536

/* No call of these needs more bytes of stack than this, counted as PITXARGOLE_STACK is; reading has the most of it. */
#define PITXARGOLE_TEXT_STACK 270336

/* Codes besides those of pitxargole.h. 0: what was read or printed stands at the front of its area. With any other the areas are as they were. */
#define PITXARGOLE_DONE 0
/* Reading rules gives BOOK_RANGE, BOOK_SIZE and BOOK_ARITY too, at a byte of the text, and reading a query QUERY_RANGE, QUERY_SIZE and QUERY_ARITY. */
#define PITXARGOLE_TEXT_LONG 40 /* over 65,536 bytes */
#define PITXARGOLE_TEXT_BYTE 41 /* at the first byte with which no text of rules, or no query, can go on */
#define PITXARGOLE_NAME_LONG 42 /* at the 33rd byte of a name */
#define PITXARGOLE_READ_ROOM 43 /* an area is too small for the book or the query, or for the names */
/* Printing; these have place 0. Reading a query gives BAD_NAMES too. */
#define PITXARGOLE_NO_NAME 44   /* a symbol that is used has no name */
#define PITXARGOLE_BAD_NAMES 45 /* the names are no name list, or two symbols of one sort share a name */
#define PITXARGOLE_TEXT_ROOM 46 /* the text does not fit the area, or is over 65,536 bytes */

/* Reads rules, `feeds(X,Y) :- feeds(X,Z), pipe(Z,Y).`, as a book with the names of its symbols. The number has the code, the place of a refusal in the text, or the book's bytes and those of its names. The
   pointers are not null, also where a length is 0, and the areas overlap nothing else that is given; so it is with all functions here. */
uint64_t pitxargole_read_text(const uint8_t *text, uint64_t text_length, uint8_t *book, uint64_t book_length, uint8_t *names, uint64_t names_length);

/* Reads a query, `feeds(X,c7), pipe(X,Y)`, a full stop allowed, by a book and its names, as an image and the names with the new ones behind them, by which goals and answers are printed. The names are as
   pitxargole_read_text and this function write them, with no gaps, at most 61,439 of a sort; otherwise they are refused as BAD_NAMES. A book that is not good is refused first, at a byte of the book. The
   number has the code, the place of a refusal, or the image's bytes and those of the names. */
uint64_t pitxargole_read_query(const uint8_t *text, uint64_t text_length, const uint8_t *book, uint64_t book_length, const uint8_t *names, uint64_t names_length,
                               uint8_t *query, uint64_t query_length, uint8_t *list, uint64_t list_length);

/* Prints a book, a clause a line: `feeds(V0,V1) :- feeds(V0,V2), pipe(V2,V1).` and LF. The number has the code, and the text's bytes or the place of the first fault. */
uint64_t pitxargole_print_book(const uint8_t *book, uint64_t book_length, const uint8_t *names, uint64_t names_length, uint8_t *area, uint64_t area_length);

/* Prints a query, or the goal that a run has left: formulas with a comma and a blank between them, on one line with no full stop and no LF. An empty goal is no text. */
uint64_t pitxargole_print_goal(const uint8_t *book, uint64_t book_length, const uint8_t *goal, uint64_t goal_length, const uint8_t *names, uint64_t names_length,
                               uint8_t *area, uint64_t area_length);

/* Prints the answer of a run in the same way. Its variables keep the numbers that they have, which need not rise from 0: one that the goal has too is called the same in both. */
uint64_t pitxargole_print_answer(const uint8_t *book, uint64_t book_length, const uint8_t *answer, uint64_t answer_length, const uint8_t *names, uint64_t names_length,
                                 uint8_t *area, uint64_t area_length);

/* Of a number of pitxargole_read_text or pitxargole_read_query with code 0: the bytes of the names. pitxargole_place_or_bytes has the book's or the image's. */
static inline uint32_t pitxargole_names_bytes(uint64_t number) { return (uint32_t)(number >> 32); }

#ifdef __cplusplus
}
#endif

#endif
