/*
 * The tests of all calls through C: counting, lent memory, main.
 *
 * The program's argument says where lent bytes stand: between guards, which is
 * also meant without an argument; right before or right behind a page without
 * access, with a guard on the other side; or bare, in memory of just their
 * length, for tools that watch its ends. Prints the checks that fail, then one
 * line that counts all of them. The exit status is 0 where none failed. With
 * RAID2D_STOP in the environment the first that fails is the last.
 */
#include <stdarg.h>
#include <stdio.h>
#include <stdlib.h>
#include <string.h>

#include "raid2d.h"
#include "split.h"
#include "suite.h"

const struct known array_a = {
    { 2, 2, 1 }, { 1, 2, 3, 4, 8, 12, 5, 10, 15 }
};
const struct known array_wide = {
    { 2, 3, 1 }, { 1, 2, 4, 7, 8, 16, 32, 56, 9, 18, 36, 63 }
};
const struct known array_high = {
    { 3, 2, 1 }, { 1, 8, 9, 2, 16, 18, 4, 32, 36, 7, 56, 63 }
};

/* Bytes in a guard. An odd number, so that no buffer is aligned; the
   out-parameter has to be. */
#define GUARD 61
#define OUT_GUARD 64

enum placement { GUARDS, BEFORE, BEHIND, BARE };

static enum placement placement;

/* More failed checks than this are counted and not printed. */
#define PRINTED 20

static unsigned long passed, failed;

/* Whether the program ends with the first check that fails. */
static int stops;

static void print_count(void)
{
    printf("%lu passed, %lu failed\n", passed, failed);
}

void expect(int holds, const char *format, ...)
{
    va_list rest;

    if (holds) {
        passed++;
        return;
    }
    if (failed++ < PRINTED) {
        va_start(rest, format);
        printf("FAILED: ");
        vprintf(format, rest);
        printf("\n");
        va_end(rest);
    }
    if (stops) {
        print_count();
        exit(1);
    }
}

/* The next number of a fixed sequence (xorshift with a multiplication). */
static uint64_t arbitrary(void)
{
    static uint64_t state = 20;

    state ^= state >> 12;
    state ^= state << 25;
    state ^= state >> 27;
    return state * UINT64_C(2685821657736338717);
}

void fill(uint8_t *bytes, size_t len)
{
    size_t i;

    for (i = 0; i < len; i += sizeof(uint64_t)) {
        uint64_t number = arbitrary();
        size_t rest = len - i;

        memcpy(bytes + i, &number, rest < sizeof number ? rest : sizeof number);
    }
}

size_t below(size_t bound)
{
    return (size_t)(arbitrary() >> 16) % bound;
}

static uint8_t *allocate(size_t len)
{
    uint8_t *memory = malloc(len);

    if (memory == NULL && len > 0) {
        printf("no memory for the tests\n");
        exit(1);
    }
    return memory;
}

static int has_fence(void)
{
    return placement == BEFORE || placement == BEHIND;
}

/* Small fenced memory is kept for the next calls: to map it takes longer than
   most calls do. */
#define SMALL 4096
#define SPARES 8

static struct fenced spare[SPARES];
static size_t spares;

static struct fenced take_fenced(size_t least)
{
    return least <= SMALL && spares > 0 ? spare[--spares] : make_fenced(least);
}

static void leave_fenced(struct fenced *f)
{
    if (f->room == SMALL && spares < SPARES)
        spare[spares++] = *f;
    else
        end_fenced(f);
}

static struct lent lend(size_t len, size_t guard)
{
    size_t before = placement == GUARDS || placement == BEFORE ? guard : 0;
    size_t after = placement == GUARDS || placement == BEHIND ? guard : 0;
    struct lent l;

    l.len = len;
    l.memory_len = before + len + after;
    if (has_fence()) {
        l.fenced = take_fenced(l.memory_len);
        l.memory = l.fenced.pages;
        if (placement == BEFORE)
            l.memory += l.fenced.room - l.memory_len;
    } else {
        l.memory = allocate(l.memory_len);
    }
    l.expected_memory = allocate(l.memory_len);
    l.place = l.memory + before;
    l.bytes = len == 0 ? NULL : l.place;
    l.expected = l.expected_memory + before;
    fill(l.memory, l.memory_len);
    return l;
}

static void expect_lent_as_now(struct lent *l)
{
    if (l->memory_len > 0)
        memcpy(l->expected_memory, l->memory, l->memory_len);
}

static int lent_is_as_expected(const struct lent *l)
{
    return l->memory_len == 0
           || memcmp(l->expected_memory, l->memory, l->memory_len) == 0;
}

static void end_lent(struct lent *l)
{
    if (has_fence())
        leave_fenced(&l->fenced);
    else
        free(l->memory);
    free(l->expected_memory);
}

/* All disks are present. The guards' nearest bytes are as given, so that who
   reads past the map finds a disk there that would do. */
static void clear_map(struct lent *map, uint8_t beside)
{
    uint8_t *end = map->place + map->len;

    if (map->place > map->memory)
        map->place[-1] = beside;
    if (map->len > 0)
        memset(map->place, 0, map->len);
    if (end < map->memory + map->memory_len)
        *end = beside;
}

struct call new_call(enum function function, struct size size,
                     size_t array_len, size_t map_len, size_t data_len,
                     size_t sheet_len)
{
    struct call c;

    c.function = function;
    c.size = size;
    c.disk = 0;
    c.limit = SIZE_MAX;
    c.sectors = 1;
    c.sector = size.block;
    c.fatal = 0;
    c.array = lend(array_len, GUARD);
    c.map = lend(map_len, GUARD);
    c.data = lend(data_len, GUARD);
    c.sheet = lend(sheet_len, GUARD);
    c.out = lend(sizeof(size_t), OUT_GUARD);
    c.position = lend(sizeof(size_t), OUT_GUARD);
    clear_map(&c.map, function == PLAN_DISK);
    expect_as_now(&c);
    return c;
}

struct call fitting_call(enum function function, struct size size)
{
    return cut_call(function, size, 1);
}

struct call cut_call(enum function function, struct size size, size_t sectors)
{
    size_t disks = disks_of(size);
    struct call c = new_call(function, size, disks * size.block,
                             disks * sectors, size.block,
                             RAID2D_SHEET_BYTES * sectors);

    c.sectors = sectors;
    c.sector = size.block / sectors;
    return c;
}

struct call sealed_call(enum function function, struct size size)
{
    return sealed_cut_call(function, size, 1);
}

struct call sealed_cut_call(enum function function, struct size size,
                            size_t sectors)
{
    struct call c = cut_call(function, size, sectors);

    define_parities(c.array.bytes, size);
    expect_as_now(&c);
    return c;
}

size_t disks_of(struct size size)
{
    return (size.rows + 1) * (size.columns + 1);
}

size_t most_repairs(struct size size)
{
    return size.rows + size.columns + 1;
}

size_t disk_at(struct size size, size_t r, size_t c)
{
    return r * (size.columns + 1) + c;
}

uint8_t *cell(uint8_t *array, struct size size, size_t r, size_t c,
              size_t place)
{
    return &array[disk_at(size, r, c) * size.block + place];
}

void add_block(uint8_t *sum, const uint8_t *bytes, size_t block)
{
    const size_t word = sizeof(uint64_t);
    size_t place;

    for (place = 0; place + word <= block; place += word) {
        uint64_t old, added;

        memcpy(&old, sum + place, word);
        memcpy(&added, bytes + place, word);
        old ^= added;
        memcpy(sum + place, &old, word);
    }
    for (; place < block; place++)
        sum[place] ^= bytes[place];
}

static int is_data(struct size s, size_t disk)
{
    return disk < disk_at(s, s.rows, 0)
           && disk % (s.columns + 1) < s.columns;
}

static void clear_parities(uint8_t *array, struct size s)
{
    size_t disk;

    for (disk = 0; disk < disks_of(s); disk++)
        if (!is_data(s, disk))
            memset(array + disk * s.block, 0, s.block);
}

/* The superparity is the sum of all data. */
void define_parities(uint8_t *array, struct size s)
{
    size_t r, c;

    clear_parities(array, s);
    for (r = 0; r < s.rows; r++)
        for (c = 0; c < s.columns; c++) {
            const uint8_t *data = cell(array, s, r, c, 0);

            add_block(cell(array, s, r, s.columns, 0), data, s.block);
            add_block(cell(array, s, s.rows, c, 0), data, s.block);
            add_block(cell(array, s, s.rows, s.columns, 0), data, s.block);
        }
}

void expect_as_now(struct call *c)
{
    expect_lent_as_now(&c->array);
    expect_lent_as_now(&c->map);
    expect_lent_as_now(&c->data);
    expect_lent_as_now(&c->sheet);
    expect_lent_as_now(&c->out);
    expect_lent_as_now(&c->position);
}

/* The calls of an array without a map, and those that judge a sheet alone. */
static size_t call_without_map(struct call *c, size_t *out)
{
    size_t rows = c->size.rows, columns = c->size.columns;
    size_t block = c->size.block;

    switch (c->function) {
    case SEAL:
        return raid2d_seal(rows, columns, block, c->array.bytes, c->array.len);
    case CHECK:
        return raid2d_check(rows, columns, block, c->array.bytes,
                            c->array.len, out);
    case WRITE:
        return raid2d_write(rows, columns, block, c->array.bytes,
                            c->array.len, c->disk, c->data.bytes, c->data.len);
    default:
        return raid2d_tidy(c->sheet.bytes, c->sheet.len);
    }
}

static size_t call_library(struct call *c, size_t *out, size_t *position)
{
    size_t rows = c->size.rows, columns = c->size.columns;
    size_t block = c->size.block;

    switch (c->function) {
    case LOOK:
        return raid2d_look(rows, columns, block, c->array.bytes, c->array.len,
                           c->sector, c->map.bytes, c->map.len, c->disk, out);
    case PLAN:
        return raid2d_plan(rows, columns, c->sectors, c->map.bytes, c->map.len,
                           c->sheet.bytes, c->sheet.len, out, position);
    case PLAN_DISK:
        return raid2d_plan_disk(rows, columns, c->map.bytes, c->map.len,
                                c->sheet.bytes, c->sheet.len, c->disk, out);
    case REBUILD:
        return raid2d_rebuild(rows, columns, block, c->array.bytes,
                              c->array.len, c->sector, c->map.bytes,
                              c->map.len, c->sheet.bytes, c->sheet.len,
                              c->limit, out, position);
    case FOLLOW:
        return raid2d_follow(rows, columns, block, c->array.bytes,
                             c->array.len, c->sector, c->map.bytes, c->map.len,
                             c->sheet.bytes, c->sheet.len, out);
    case SAVE:
        return raid2d_save(rows, columns, block, c->array.bytes, c->array.len,
                           c->sector, c->map.bytes, c->map.len, out);
    default:
        return call_without_map(c, out);
    }
}

/* With a fence, sets the access to what the function may not write. */
static void set_access(const struct call *c,
                       void (*set)(const struct fenced *fenced))
{
    enum function f = c->function;
    int plans = f == PLAN || f == PLAN_DISK;

    if (!has_fence())
        return;
    if (f == CHECK || f == LOOK || plans || f == TIDY)
        set(&c->array.fenced);
    if (f != REBUILD)
        set(&c->map.fenced);
    set(&c->data.fenced);
    if (!plans && f != REBUILD && f != TIDY)
        set(&c->sheet.fenced);
}

size_t run(struct call *c)
{
    size_t before = OUT_BEFORE, result;

    memcpy(c->out.bytes, &before, sizeof before);
    memcpy(c->position.bytes, &before, sizeof before);
    set_access(c, forbid_writes);
    result = call_library(c, (size_t *)(void *)c->out.bytes,
                          (size_t *)(void *)c->position.bytes);
    set_access(c, allow_writes);
    return result;
}

static size_t number_in(const struct lent *l)
{
    size_t number;

    memcpy(&number, l->bytes, sizeof number);
    return number;
}

/* Sets what is expected of both out-parameters. */
static void expect_out(struct call *c, size_t result, size_t out)
{
    int names_position = c->function == PLAN || c->function == REBUILD;
    size_t position =
        names_position && result == 6 ? c->fatal : OUT_BEFORE;

    memcpy(c->out.expected, &out, sizeof out);
    memcpy(c->position.expected, &position, sizeof position);
}

/* The call as it is. */
static void expect_this_run(struct call *c, size_t result, size_t out,
                            const char *what)
{
    static const char *const names[] = {
        "seal", "check", "write", "look", "plan", "plan_disk", "rebuild",
        "follow", "save", "tidy"
    };
    size_t actual = run(c);
    int bytes = lent_is_as_expected(&c->array) && lent_is_as_expected(&c->map)
                && lent_is_as_expected(&c->data)
                && lent_is_as_expected(&c->sheet);

    expect_out(c, result, out);
    expect(actual == result && lent_is_as_expected(&c->out)
               && lent_is_as_expected(&c->position) && bytes,
           "%s: %s with %zu rows, %zu columns, block %zu, %zu sectors of %zu, "
           "disk %zu, limit %zu, lengths %zu (array), %zu (map), %zu (data), "
           "%zu (sheet): result %zu for %zu, out-parameter %zu for %zu, "
           "position %zu, bytes %s",
           what, names[c->function], c->size.rows, c->size.columns,
           c->size.block, c->sectors, c->sector, c->disk, c->limit,
           c->array.len, c->map.len, c->data.len, c->sheet.len, actual, result,
           number_in(&c->out), out, number_in(&c->position),
           bytes ? "as expected" : "NOT as expected");
}

void expect_run(struct call *c, size_t result, size_t out, const char *what)
{
    size_t sectors = split_into(c, result);
    struct call smaller;

    if (sectors > 1)
        smaller = split_call(c, result, sectors);
    expect_this_run(c, result, out, what);
    if (sectors > 1) {
        expect_this_run(&smaller, result, split_out(c, result, out, sectors),
                        what);
        end_call(&smaller);
    }
}

void end_call(struct call *c)
{
    end_lent(&c->array);
    end_lent(&c->map);
    end_lent(&c->data);
    end_lent(&c->sheet);
    end_lent(&c->out);
    end_lent(&c->position);
}

/* Every length at squares and at the two sizes that are the least square; else
   one in six, in turn. */
static int is_tried(size_t rows, size_t columns, size_t length)
{
    size_t most = RAID2D_SIDE_MAX - RAID2D_SIDE_MIN;

    return rows == columns || rows == columns + most || columns == rows + most
           || (rows + columns + length) % 6 == 0;
}

static void at_every_length(void (*test)(struct size size), size_t rows,
                            size_t columns)
{
    static const size_t blocks[] = {
        1, 2, 15, 16, 17, 127, 128, 129, 255, 256, 4095, 4096
    };
    size_t i;

    for (i = 0; i < sizeof blocks / sizeof blocks[0]; i++)
        if (is_tried(rows, columns, i)) {
            const struct size size = { rows, columns, blocks[i] };

            test(size);
        }
}

void at_every_size(void (*test)(struct size size))
{
    size_t rows, columns;

    for (rows = RAID2D_SIDE_MIN; rows <= RAID2D_SIDE_MAX; rows++)
        for (columns = RAID2D_SIDE_MIN; columns <= RAID2D_SIDE_MAX; columns++)
            at_every_length(test, rows, columns);
}

void at_every_grid(void (*test)(struct size size))
{
    struct size s = { 0, 0, 1 };

    for (s.rows = RAID2D_SIDE_MIN; s.rows <= RAID2D_SIDE_MAX; s.rows++)
        for (s.columns = RAID2D_SIDE_MIN; s.columns <= RAID2D_SIDE_MAX;
             s.columns++)
            test(s);
}

/* Where lent bytes are to stand, by the argument. */
static enum placement placement_of(const char *name)
{
    static const char *const names[] = { "guards", "before", "behind", "bare" };
    int p;

    for (p = GUARDS; p <= BARE; p++)
        if (strcmp(name, names[p]) == 0)
            return (enum placement)p;
    printf("%s is none of: guards before behind bare\n", name);
    exit(2);
}

int main(int argc, char **argv)
{
    if (argc > 1)
        placement = placement_of(argv[1]);
    stops = getenv("RAID2D_STOP") != NULL;
    /* A library that crashes should not take the lines before it along. */
    setvbuf(stdout, NULL, _IOLBF, BUFSIZ);
    test_header();
    test_fields();
    test_refusals();
    test_answers();
    test_losses();
    test_loops();
    test_wanted();
    test_turns();
    test_saves();
    test_sheets();
    test_tidies();
    test_sectors();
    test_sector_turns();
    print_count();
    return failed == 0 ? 0 : 1;
}
