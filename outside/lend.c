/* Memory to lend: see lend.h. */
#define _GNU_SOURCE
#include "lend.h"

#include <stdio.h>
#include <stdlib.h>
#include <string.h>
#include <sys/mman.h>
#include <unistd.h>

enum { FILLING = 0xa5 };
enum { SMALL_BYTES = 4096, LARGE_BYTES = 70000 * 2 };

static bool null_for_nothing;

static void *mapped(void *result, const char *what)
{
    if (result == MAP_FAILED) {
        perror(what);
        exit(2);
    }
    return result;
}

void room_open(struct room *room, size_t bytes, bool may_write)
{
    size_t page = (size_t)sysconf(_SC_PAGESIZE);
    room->size = (bytes + page - 1) / page * page;

    int file = memfd_create("lent table", 0);
    if (file < 0 || ftruncate(file, (off_t)room->size) != 0) {
        perror("memory to lend");
        exit(2);
    }
    room->own = mapped(mmap(NULL, room->size, PROT_READ | PROT_WRITE, MAP_SHARED, file, 0),
                       "the host's view");
    uint8_t *fenced = mapped(mmap(NULL, room->size + 2 * page, PROT_NONE,
                                  MAP_PRIVATE | MAP_ANONYMOUS, -1, 0), "untouchable pages");
    room->lent = mapped(mmap(fenced + page, room->size,
                             may_write ? PROT_READ | PROT_WRITE : PROT_READ,
                             MAP_SHARED | MAP_FIXED, file, 0), "the library's view");
    close(file);
    memset(room->own, FILLING, room->size);
}

size_t room_put(struct room *room, const void *table, size_t bytes, enum flush flush)
{
    if (bytes > room->size) {
        fprintf(stderr, "a table of %zu bytes does not fit the room\n", bytes);
        exit(2);
    }
    size_t place = flush == FLUSH_END ? room->size - bytes : 0;
    if (bytes > 0)
        memcpy(room->own + place, table, bytes);
    return place;
}

/* Whether all bytes are the filling: the first is, and each is as the one before it. */
static bool is_filling(const uint8_t *from, size_t bytes)
{
    return bytes == 0 || (from[0] == FILLING && memcmp(from, from + 1, bytes - 1) == 0);
}

bool room_strayed(struct room *room, size_t place, size_t bytes)
{
    size_t end = place + bytes;
    bool strayed = !is_filling(room->own, place)
                || !is_filling(room->own + end, room->size - end);
    memset(room->own + place, FILLING, bytes);
    if (strayed)
        memset(room->own, FILLING, room->size);
    return strayed;
}

/* ---- tables ---- */

void rooms_open(struct rooms *rooms, bool may_write)
{
    room_open(&rooms->small, SMALL_BYTES, may_write);
    room_open(&rooms->large, LARGE_BYTES, may_write);
}

struct lent lend(struct rooms *rooms, const void *at, size_t bytes, enum flush flush)
{
    struct lent lent = {.bytes = bytes};
    lent.room = bytes <= SMALL_BYTES ? &rooms->small : &rooms->large;
    lent.place = room_put(lent.room, at, bytes, flush);
    lent.pointer = lent.room->lent + lent.place;
    /* With no element, both ways of lending point straight at an untouchable page. */
    if (bytes == 0)
        lent.pointer = null_for_nothing ? NULL
                     : flush == FLUSH_END ? lent.room->lent + lent.room->size
                                          : lent.room->lent - 2;
    return lent;
}

const void *lent_now(const struct lent *lent)
{
    return lent->room->own + lent->place;
}

bool lent_same(const struct lent *lent, const void *wanted)
{
    return lent->bytes == 0 || memcmp(lent_now(lent), wanted, lent->bytes) == 0;
}

void lend_null(bool null)
{
    null_for_nothing = null;
}
