/* replay: makes the call of each item of the file `inputs`, all of them for C, and writes a line for it to the file `lines`: the number as 16 hexadecimal digits,
   then the bytes of the goal area, and of the answer area, up to the last that the call changed. The last line is the most stack that a call of each
   entry used. The items are those that the program `try_entries` reads (second/item.rs). It is the same program on Linux and on a bare board, where
   files go by semihosting; that is slow for few bytes at a time, so they are kept here. */
#include <fcntl.h>
#include <stdarg.h>
#include <stdio.h>
#include <stdlib.h>
#include <string.h>
#include <unistd.h>

#include "pitxargole.h"
#include "stack.h"

enum { RUN_FOR_C = 5, PICK_FOR_C = 8, APPLY_FOR_C = 9 };
enum { OF_RUN, OF_PICK, OF_APPLY, ENTRIES };

/* Behind an area's room stand bytes that no call may change. */
#define ROOM 65536
#define BEHIND 64

struct area {
    size_t room;
    uint8_t first, more; /* its first byte before the call, and what each has more than the one before it */
    uint8_t bytes[ROOM + BEHIND], before[ROOM + BEHIND];
};

struct item {
    uint8_t entry;
    uint32_t number; /* a run's budget, or an apply's clause */
    size_t book_length, query_length;
    const uint8_t *book, *query;
};

static uint8_t rest[98304], rest_before[98304];
static struct area goal, answer;

static uint32_t number(const uint8_t *at) { return (uint32_t)at[0] << 24 | (uint32_t)at[1] << 16 | (uint32_t)at[2] << 8 | at[3]; }

static void fail(const char *said) {
    fprintf(stderr, "%s\n", said);
    exit(2);
}

static void damaged(void) { fail("the file is no stream of items"); }

static int inputs, lines;

/* What has been read of the inputs and not taken yet, from `taken` to `come`. */
static uint8_t in[65536];
static size_t taken, come;

/* So many bytes of the inputs; fewer at their end. */
static size_t take(uint8_t *to, size_t length) {
    size_t done = 0;
    while (done < length) {
        if (taken == come) {
            ssize_t got = read(inputs, in, sizeof in);
            if (got <= 0) break;
            taken = 0;
            come = (size_t)got;
        }
        size_t part = come - taken < length - done ? come - taken : length - done;
        memcpy(to + done, in + taken, part);
        taken += part;
        done += part;
    }
    return done;
}

/* What is to be written. The longest line has the bytes of two areas, each as two digits. */
static char out[1 << 19];
static size_t written;

static void flush(void) {
    for (size_t done = 0; done < written;) {
        ssize_t part = write(lines, out + done, written - done);
        if (part <= 0) fail("nothing can be written");
        done += (size_t)part;
    }
    written = 0;
}

__attribute__((format(printf, 1, 2))) static void say(const char *form, ...) {
    va_list words;
    va_start(words, form);
    written += (size_t)vsnprintf(out + written, 100, form, words);
    va_end(words);
}

static void lend(struct area *area, const uint8_t *from) {
    area->room = number(from);
    area->first = from[4];
    area->more = from[5];
    if (area->room > ROOM) damaged();
}

/* The fields of an item whose rest has come in. */
static void take_apart(struct item *item, size_t length) {
    if (length < 20) damaged();
    item->number = number(rest);
    lend(&goal, rest + 4);
    lend(&answer, rest + 10);
    item->book = rest + 20;
    item->book_length = number(rest + 16);
    if (item->book_length > length - 20) damaged();
    item->query = item->book + item->book_length;
    item->query_length = length - 20 - item->book_length;
}

/* The length of the next item; 0 where there is none. */
static size_t next(struct item *item) {
    uint8_t head[5];
    if (take(head, sizeof head) != sizeof head) return 0;
    size_t length = number(head + 1);
    if (length > sizeof rest || take(rest, length) != length) damaged();
    item->entry = head[0];
    if (item->entry != RUN_FOR_C && item->entry != PICK_FOR_C && item->entry != APPLY_FOR_C) damaged();
    take_apart(item, length);
    return length;
}

static uint64_t call(const void *argument) {
    const struct item *i = argument;
    if (i->entry == PICK_FOR_C) return pitxargole_pick(i->book, i->book_length, i->query, i->query_length);
    if (i->entry == APPLY_FOR_C) return pitxargole_apply(i->number, i->book, i->book_length, i->query, i->query_length, goal.bytes, goal.room);
    return pitxargole_run(i->number, i->book, i->book_length, i->query, i->query_length, goal.bytes, goal.room, answer.bytes, answer.room);
}

/* Whether the engine's functions give the parts that the number has, with no bit more where a register has more. */
static int parts(uint64_t said) {
    return pitxargole_code(said) == (uint8_t)said && pitxargole_place_or_bytes(said) == (uint32_t)said >> 8 &&
           pitxargole_steps(said) == (uint32_t)(said >> 32);
}

/* The area and what is behind it, as the item has them before the call. What its bytes rise by comes round after 256 at the latest. */
static void fill(struct area *area) {
    size_t length = area->room + BEHIND, done = 256;
    for (size_t at = 0; at < done; at++) area->before[at] = (uint8_t)(area->first + area->more * at);
    for (; done < length; done *= 2) memcpy(area->before + done, area->before, done < length - done ? done : length - done);
    memcpy(area->bytes, area->before, length);
}

/* Behind the last byte of the area, or of what is behind it, that the call changed. */
static size_t changed(const struct area *area) {
    size_t end = area->room + BEHIND;
    while (end >= 256 && !memcmp(area->bytes + end - 256, area->before + end - 256, 256)) end -= 256;
    while (end > 0 && area->bytes[end - 1] == area->before[end - 1]) end--;
    return end;
}

static void show(const struct area *area) {
    size_t end = changed(area);
    say(end > area->room ? " past the area: " : " ");
    for (size_t at = 0; at < end; at++) {
        out[written++] = "0123456789abcdef"[area->bytes[at] >> 4];
        out[written++] = "0123456789abcdef"[area->bytes[at] & 15];
    }
}

/* Makes an item's call and shows it; the stack that it used. */
static size_t play(const struct item *item, size_t length) {
    size_t used;
    memcpy(rest_before, rest, length);
    fill(&goal);
    fill(&answer);
    uint64_t said = measured(call, item, &used);
    if (memcmp(rest_before, rest, length)) say("the input is changed: ");
    if (!parts(said) || !parts(~said)) say("the parts are wrong: ");
    say("%08lx%08lx", (unsigned long)(said >> 32), (unsigned long)(said & 0xffffffff));
    show(&goal);
    show(&answer);
    say("\n");
    if (written > sizeof out / 4) flush();
    return used;
}

int main(void) {
    inputs = open("inputs", O_RDONLY);
    if (inputs < 0) fail("there is no file `inputs`");
    lines = open("lines", O_WRONLY | O_CREAT | O_TRUNC, 0644);
    if (lines < 0) fail("the file `lines` can't be written");
    struct item item;
    size_t most[ENTRIES] = {0}, length;
    while ((length = next(&item)) > 0) {
        size_t used = play(&item, length), entry = item.entry == PICK_FOR_C ? OF_PICK : item.entry == APPLY_FOR_C ? OF_APPLY : OF_RUN;
        if (used > most[entry]) most[entry] = used;
    }
    say("stack run %lu pick %lu apply %lu\n", (unsigned long)most[OF_RUN], (unsigned long)most[OF_PICK], (unsigned long)most[OF_APPLY]);
    flush();
    return close(lines);
}
