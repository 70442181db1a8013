/* Lent memory, its fence and its guards. */
#include <string.h>

#include "lent.h"

/* How many guard bytes there are, and what they hold. */
enum { GUARDS = 512, GUARD = 0xa5 };

void make_room(struct lent *l, size_t most)
{
    l->memory = make_fenced(most + GUARDS);
}

/* Where the guard bytes begin: they are on the side that has no fence. */
static uint8_t *guards_of(const struct lent *l)
{
    return l->bytes == l->memory.pages ? l->bytes + l->len : l->bytes - GUARDS;
}

void lend(struct lent *l, size_t len, int behind)
{
    uint8_t *end = l->memory.pages + l->memory.room;

    l->len = len;
    l->bytes = behind ? l->memory.pages : end - len;
    memset(guards_of(l), GUARD, GUARDS);
}

int guards_hold(const struct lent *l)
{
    const uint8_t *guards = guards_of(l);

    /* The first is right, and each equals the one behind it. */
    return guards[0] == GUARD && memcmp(guards, guards + 1, GUARDS - 1) == 0;
}
