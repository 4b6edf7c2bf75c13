/* A plain C reader of texts with a hash table: see hashed.h. */
#include "hashed.h"

#include <string.h>

enum { NORMAL = 0, PULLUP = 1, GROUND = 3, POWER = 4 };
enum { N_TYPE = 0, P_TYPE = 1, D_TYPE = 2, SKIPPED, REFUSED };
enum { MOST_NAME = 63 };

static inline bool is_blank(uint8_t byte)
{
    return byte == ' ' || byte == '\t';
}

/* ---- names ---- */

static uint8_t kind_of(const uint8_t *name, size_t length)
{
    if (length != 3)
        return NORMAL;
    return memcmp(name, "Vdd", 3) == 0 ? POWER : memcmp(name, "Gnd", 3) == 0 ? GROUND : NORMAL;
}

/* Finds a name or enters it. False if there is no room for one more. */
static bool find(struct hashed *hashed, const uint8_t *text, size_t start, size_t length,
                 uint32_t hash, uint16_t *node)
{
    uint16_t *link = &hashed->first[(hash ^ hash >> 15) & (HASHED_CHAINS - 1)];
    while (*link != 0) {
        uint16_t v = (uint16_t)(*link - 1);
        if (hashed->hashes[v] == hash && hashed->sizes[v] == length
            && memcmp(text + hashed->starts[v], text + start, length) == 0) {
            *node = v;
            return true;
        }
        link = &hashed->next[v];
    }
    if (hashed->nodes == hashed->most_nodes)
        return false;
    uint16_t v = (uint16_t)hashed->nodes++;
    hashed->starts[v] = (uint16_t)start;
    hashed->sizes[v] = (uint8_t)length;
    hashed->kinds[v] = kind_of(text + start, length);
    hashed->hashes[v] = hash;
    hashed->next[v] = 0;
    *link = (uint16_t)(v + 1);
    *node = v;
    return true;
}

/* Takes the next field as a name: its bytes are hashed as they are passed over.
   False if there is none, it is too long or no room for it. */
static bool take_name(struct hashed *hashed, const uint8_t *text, size_t *at, size_t end,
                      uint16_t *node)
{
    size_t from = *at;
    while (from < end && is_blank(text[from]))
        from++;
    size_t to = from;
    uint32_t hash = 2166136261u;
    while (to < end && !is_blank(text[to]))
        hash = (hash ^ text[to++]) * 16777619u;
    *at = to;
    return to > from && to - from <= MOST_NAME && find(hashed, text, from, to - from, hash, node);
}

/* ---- lines ---- */

/* What the first field says of its line, from `from` to before `to`. */
static uint8_t line_type(const uint8_t *text, size_t from, size_t to)
{
    if (from == to || text[from] == '|')
        return SKIPPED;
    if (to - from != 1)
        return REFUSED;
    switch (text[from]) {
    case 'e':
    case 'n': return N_TYPE;
    case 'p': return P_TYPE;
    case 'd': return D_TYPE;
    case 'N':
    case 'C':
    case 'R':
    case 'A': return SKIPPED;
    default: return REFUSED;
    }
}

static bool is_load(const struct hashed *hashed, uint16_t gate, uint16_t end, uint16_t other)
{
    return gate == end && hashed->kinds[other] == POWER && hashed->kinds[end] < GROUND;
}

static bool take_line(struct hashed *hashed, const uint8_t *text, size_t at, size_t end)
{
    while (at < end && is_blank(text[at]))
        at++;
    size_t from = at;
    while (at < end && !is_blank(text[at]))
        at++;
    uint8_t type = line_type(text, from, at);
    if (type >= SKIPPED)
        return type == SKIPPED;

    uint16_t gate, source, drain;
    if (!take_name(hashed, text, &at, end, &gate) || !take_name(hashed, text, &at, end, &source)
        || !take_name(hashed, text, &at, end, &drain))
        return false;
    if (type == D_TYPE && is_load(hashed, gate, source, drain)) {
        hashed->kinds[source] = PULLUP;
        return true;
    }
    if (type == D_TYPE && is_load(hashed, gate, drain, source)) {
        hashed->kinds[drain] = PULLUP;
        return true;
    }
    if (hashed->transistors == hashed->most_transistors)
        return false;
    size_t i = hashed->transistors++;
    hashed->types[i] = type;
    hashed->gates[i] = gate;
    hashed->sources[i] = source;
    hashed->drains[i] = drain;
    return true;
}

bool hashed_read(struct hashed *hashed, const uint8_t *text, size_t length, size_t most_nodes,
                 size_t most_transistors)
{
    hashed->nodes = hashed->transistors = hashed->line = 0;
    hashed->most_nodes = most_nodes;
    hashed->most_transistors = most_transistors;
    memset(hashed->first, 0, sizeof hashed->first);
    size_t at = 0;
    while (at < length) {
        const uint8_t *feed = memchr(text + at, '\n', length - at);
        size_t end = feed == NULL ? length : (size_t)(feed - text);
        if (!take_line(hashed, text, at, end))
            return false;
        hashed->line++;
        at = end + 1;
    }
    return true;
}
