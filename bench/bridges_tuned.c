#include "bridges.h"
#include "words.h"

struct search {
    const uint32_t *others;
    /* When a stripe was reached, from 1 on, and the earliest stripe to which a way leads from behind it. */
    size_t reached[STRIPES], earliest[STRIPES];
    size_t time, bridges;
};

/* Goes on from a stripe to all behind it. A disk is the only way if none leads from behind it to its near side. */
static void visit(struct search *search, size_t stripe, size_t from)
{
    uint32_t left = search->others[stripe] & ~(from < STRIPES ? 1u << from : 0);
    search->reached[stripe] = search->earliest[stripe] = ++search->time;
    for (; left != 0; left &= left - 1) {
        size_t next = lowest(left);
        if (search->reached[next] == 0) {
            visit(search, next, stripe);
            search->bridges += search->earliest[next] > search->reached[stripe];
        }
        if (search->earliest[next] < search->earliest[stripe])
            search->earliest[stripe] = search->earliest[next];
    }
}

size_t count_lost_tuned(const uint32_t others[STRIPES], size_t disks)
{
    struct search search = {.others = others};
    for (size_t stripe = 0; stripe < FIRST_COLUMN; stripe++)
        if (others[stripe] != 0 && search.reached[stripe] == 0)
            visit(&search, stripe, STRIPES);
    return disks - search.bridges;
}
