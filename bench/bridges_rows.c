#include "bridges.h"
#include "words.h"

struct search {
    const uint32_t *others;
    /* The stripes that were reached. */
    uint32_t reached;
    size_t bridges;
};

/* What lies behind a disk: stripes, and those to which their other disks lead. */
struct part {
    uint32_t stripes, leads;
};

/* Goes on from a stripe to all that are not reached yet. A disk is the only way if from behind it none leads back. */
static struct part visit(struct search *search, size_t stripe, uint32_t from)
{
    struct part part = {1u << stripe, search->others[stripe] & ~from};
    uint32_t fresh;
    search->reached |= part.stripes;
    while ((fresh = search->others[stripe] & ~search->reached) != 0) {
        struct part behind = visit(search, lowest(fresh), 1u << stripe);
        search->bridges += (behind.leads & ~behind.stripes) == 0;
        part.stripes |= behind.stripes;
        part.leads |= behind.leads;
    }
    return part;
}

size_t count_lost_rows(const uint32_t others[STRIPES], size_t disks)
{
    struct search search = {others, 0, 0};
    for (size_t stripe = 0; stripe < FIRST_COLUMN; stripe++)
        if (others[stripe] != 0 && (search.reached >> stripe & 1) == 0)
            visit(&search, stripe, 0);
    return disks - search.bridges;
}
