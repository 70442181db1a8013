/* Memory between pages without access. */
#define _DEFAULT_SOURCE
#include <stdio.h>
#include <stdlib.h>
#include <sys/mman.h>
#include <unistd.h>

#include "fence.h"

static size_t page_bytes(void)
{
    return (size_t)sysconf(_SC_PAGESIZE);
}

static void give_up(const char *what)
{
    perror(what);
    exit(2);
}

static void set_access(const struct fenced *f, int access)
{
    if (mprotect(f->pages, f->room, access) != 0)
        give_up("mprotect");
}

struct fenced make_fenced(size_t least)
{
    size_t page = page_bytes();
    struct fenced f;
    uint8_t *all;

    f.room = (least + page - 1) / page * page;
    if (f.room == 0)
        f.room = page;
    all = mmap(NULL, f.room + 2 * page, PROT_NONE,
               MAP_PRIVATE | MAP_ANONYMOUS, -1, 0);
    if (all == MAP_FAILED)
        give_up("mmap");
    f.pages = all + page;
    allow_writes(&f);
    return f;
}

void end_fenced(struct fenced *f)
{
    if (munmap(f->pages - page_bytes(), f->room + 2 * page_bytes()) != 0)
        give_up("munmap");
}

void forbid_writes(const struct fenced *f)
{
    set_access(f, PROT_READ);
}

void allow_writes(const struct fenced *f)
{
    set_access(f, PROT_READ | PROT_WRITE);
}
