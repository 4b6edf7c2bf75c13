/*
   Memory to lend. Each table lies between two pages that nobody may touch, and
   either ends flush against the one after it or begins right at the one before
   it. A table that the library may not write is lent as a read-only view: the
   host writes the same memory through a view of its own.
*/
#ifndef OUTSIDE_LEND_H
#define OUTSIDE_LEND_H

#include <stdbool.h>
#include <stddef.h>
#include <stdint.h>

enum flush { FLUSH_END, FLUSH_BEGIN, FLUSHES };

struct room {
    uint8_t *own;  /* the host's view */
    uint8_t *lent; /* the library's view, between two untouchable pages */
    size_t size;   /* a whole number of pages */
};

/* Makes a room for at least `bytes` bytes, or ends the program. */
void room_open(struct room *room, size_t bytes, bool may_write);

/* Puts a table into the room and returns its place within the room. Around it
   a writable room keeps the filling that room_strayed looks at. */
size_t room_put(struct room *room, const void *table, size_t bytes, enum flush flush);

/* Whether anything but the `bytes` bytes at `place` has been written; if so,
   the filling is made good. */
bool room_strayed(struct room *room, size_t place, size_t bytes);

/* A table's two rooms: one page, which is quickly looked over, and one for the
   longest tables of the check. */
struct rooms {
    struct room small, large;
};

void rooms_open(struct rooms *rooms, bool may_write);

/* A table as it is lent. */
struct lent {
    struct room *room;
    size_t place, bytes;
    void *pointer; /* what the library is handed */
};

struct lent lend(struct rooms *rooms, const void *at, size_t bytes, enum flush flush);

/* What the table holds now, in the host's view. */
const void *lent_now(const struct lent *lent);

/* Whether the table holds just this. */
bool lent_same(const struct lent *lent, const void *wanted);

/* A table of length 0 is lent as NULL from now on, or as a pointer to an
   untouchable page. */
void lend_null(bool null);

#endif
