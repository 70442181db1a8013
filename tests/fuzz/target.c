/*
 * Makes the call or the turns that an input stands for, through the archive,
 * and compares all that is returned and left with the model. A difference is
 * printed and ends the program, as a wrong access does by itself.
 */
#include <stdio.h>
#include <stdlib.h>
#include <string.h>

#include "input.h"
#include "lent.h"
#include "model.h"
#include "raid2d.h"

int LLVMFuzzerTestOneInput(const uint8_t *data, size_t size);

/* What is lent; the same memory in every call. The sheet is all sheets, one
   behind the other. */
static struct lent array, map, sheet, count, position;

/* The array, the map and the sheet as the model leaves them. */
static uint8_t *model_array;
static uint8_t model_map[MAP_LEN_MAX], model_sheet[SHEET_LEN_MAX];

/* What the count and the position hold before each call: no byte of it is
   zero. */
#define COUNT_BEFORE (SIZE_MAX / 255 * 0x5a)

static void make_all_room(void)
{
    if (model_array != NULL)
        return;
    make_room(&array, ARRAY_LEN_MAX);
    make_room(&map, MAP_LEN_MAX);
    make_room(&sheet, SHEET_LEN_MAX);
    make_room(&count, sizeof(size_t));
    make_room(&position, sizeof(size_t));
    model_array = malloc(ARRAY_LEN_MAX);
    if (model_array == NULL) {
        fprintf(stderr, "no memory\n");
        exit(2);
    }
}

static void set_count(void)
{
    size_t before = COUNT_BEFORE;

    memcpy(count.bytes, &before, sizeof before);
    memcpy(position.bytes, &before, sizeof before);
}

/* All but the array. */
static void lend_all(const struct input *in)
{
    lend(&map, in->map_len, in->behind);
    memcpy(map.bytes, in->map, in->map_len);
    lend(&sheet, in->sheet_len, in->behind);
    memcpy(sheet.bytes, in->sheet, in->sheet_len);
    lend(&count, sizeof(size_t), in->behind);
    lend(&position, sizeof(size_t), in->behind);
    set_count();
}

static void lend_array(const struct input *in)
{
    lend(&array, in->array_len, in->behind);
    fill_array(in, array.bytes);
    memcpy(model_array, array.bytes, in->array_len);
}

/* What is passed for lent bytes. */
static uint8_t *passed(const struct input *in, const struct lent *l)
{
    return in->pass_null && l->len == 0 ? NULL : l->bytes;
}

static size_t now_in(const struct lent *l)
{
    size_t now;

    memcpy(&now, l->bytes, sizeof now);
    return now;
}

static size_t count_now(void)
{
    return now_in(&count);
}

/* As an out-parameter. */
static size_t *out(const struct lent *l)
{
    return (size_t *)(void *)l->bytes;
}

static uint32_t call_follow(const struct input *in)
{
    uint32_t status;

    forbid_writes(&map.memory);
    forbid_writes(&sheet.memory);
    status = raid2d_follow(in->grid.rows, in->grid.columns, in->block,
                           passed(in, &array), in->array_len, in->sector,
                           passed(in, &map), in->map_len,
                           passed(in, &sheet), in->sheet_len, out(&count));
    allow_writes(&map.memory);
    allow_writes(&sheet.memory);
    return status;
}

/* What is wrong with a call that leaves an array, in words; NULL if nothing. */
static const char *judge_array(const struct input *in, uint32_t status,
                               uint32_t due, size_t due_count)
{
    if (status != due)
        return "the status of follow or save is another one";
    if (count_now() != due_count)
        return "the count of follow or save is another one";
    if (memcmp(array.bytes, model_array, in->array_len) != 0)
        return "follow or save leaves another array";
    return NULL;
}

static const char *try_follow(const struct input *in)
{
    size_t expected = COUNT_BEFORE;
    uint32_t status;

    lend_all(in);
    lend_array(in);
    status = model_follow(in->grid, in->block, model_array, in->array_len,
                          in->sector, in->map, in->map_len, in->sheet,
                          in->sheet_len, &expected);
    return judge_array(in, call_follow(in), status, expected);
}

static uint32_t call_save(const struct input *in)
{
    uint32_t status;

    forbid_writes(&map.memory);
    status = raid2d_save(in->grid.rows, in->grid.columns, in->block,
                         passed(in, &array), in->array_len, in->sector,
                         passed(in, &map), in->map_len, out(&count));
    allow_writes(&map.memory);
    return status;
}

static const char *try_save(const struct input *in)
{
    size_t expected = COUNT_BEFORE;
    uint32_t status;

    lend_all(in);
    lend_array(in);
    status = model_save(in->grid, in->block, model_array, in->array_len,
                        in->sector, in->map, in->map_len, &expected);
    return judge_array(in, call_save(in), status, expected);
}

static size_t call_look(const struct input *in)
{
    size_t length;

    forbid_writes(&map.memory);
    forbid_writes(&array.memory);
    length = raid2d_look(in->grid.rows, in->grid.columns, in->block,
                         passed(in, &array), in->array_len, in->sector,
                         passed(in, &map), in->map_len, in->wanted,
                         out(&count));
    allow_writes(&map.memory);
    allow_writes(&array.memory);
    return length;
}

/* What is wrong with look, which does not read the array. */
static const char *try_look(const struct input *in)
{
    size_t expected = COUNT_BEFORE;
    size_t length = model_look(in->grid, in->block, in->array_len, in->sector,
                               in->map, in->map_len, in->wanted, &expected);

    lend_all(in);
    lend(&array, in->array_len, in->behind);
    if (call_look(in) != length)
        return "look's length is another one";
    if (count_now() != expected)
        return "look's offset is another one";
    return NULL;
}

/* What is wrong with tidy. */
static const char *try_tidy(const struct input *in)
{
    uint32_t status;

    lend_all(in);
    lend(&array, 0, in->behind);
    memcpy(model_sheet, in->sheet, in->sheet_len);
    status = model_tidy(model_sheet, in->sheet_len);
    if (raid2d_tidy(passed(in, &sheet), in->sheet_len) != status)
        return "tidy's status is another one";
    if (memcmp(sheet.bytes, model_sheet, in->sheet_len) != 0)
        return "tidy leaves another sheet";
    return NULL;
}

static uint32_t call_plan(const struct input *in)
{
    uint32_t status;

    forbid_writes(&map.memory);
    status = raid2d_plan(in->grid.rows, in->grid.columns, in->sectors,
                         passed(in, &map), in->map_len,
                         passed(in, &sheet), in->sheet_len,
                         out(&count), out(&position));
    allow_writes(&map.memory);
    return status;
}

/* The sheet of plan, plan_disk or rebuild holds arbitrary bytes before a call,
   and the model's the same. */
static void fill_sheets(const struct input *in, uint32_t turn)
{
    fill_arbitrary(in->seed + turn, model_sheet, in->sheet_len);
    memcpy(sheet.bytes, model_sheet, in->sheet_len);
}

/* A status, with the count, the position and the sheets that came with it, for
   so many sectors. */
static struct planned answer(const struct input *in, size_t sectors,
                             uint32_t status)
{
    struct planned p;

    p.grid = in->grid;
    p.sectors = sectors;
    p.map = in->map;
    p.map_len = in->map_len;
    p.sheets_before = model_sheet;
    p.sheets = sheet.bytes;
    p.sheets_len = in->sheet_len;
    p.count_before = p.position_before = COUNT_BEFORE;
    p.count = count_now();
    p.position = now_in(&position);
    p.status = status;
    return p;
}

/* What is wrong with plan. */
static const char *try_plan(const struct input *in)
{
    struct planned p;

    lend_all(in);
    lend(&array, 0, in->behind);
    fill_sheets(in, 0);
    p = answer(in, in->sectors, call_plan(in));
    return judge_plan(&p);
}

static uint32_t call_plan_disk(const struct input *in)
{
    uint32_t status;

    forbid_writes(&map.memory);
    status = raid2d_plan_disk(in->grid.rows, in->grid.columns,
                              passed(in, &map), in->map_len,
                              passed(in, &sheet), in->sheet_len,
                              in->wanted, out(&count));
    allow_writes(&map.memory);
    return status;
}

/* What is wrong with plan_disk. */
static const char *try_plan_disk(const struct input *in)
{
    struct planned p;

    lend_all(in);
    lend(&array, 0, in->behind);
    fill_sheets(in, 0);
    p = answer(in, 1, call_plan_disk(in));
    return judge_plan_disk(&p, in->wanted);
}

static uint32_t call_rebuild(const struct input *in)
{
    return raid2d_rebuild(in->grid.rows, in->grid.columns, in->block,
                          passed(in, &array), in->array_len, in->sector,
                          passed(in, &map), in->map_len,
                          passed(in, &sheet), in->sheet_len,
                          in->limit, out(&count), out(&position));
}

/* What is wrong with one turn of rebuild, which should end with *status. */
static const char *try_turn(const struct input *in, uint32_t *status)
{
    size_t expected = COUNT_BEFORE, at = COUNT_BEFORE;

    *status = model_rebuild(in->grid, in->block, model_array, in->array_len,
                            in->sector, model_map, in->map_len, model_sheet,
                            in->sheet_len, in->limit, &expected, &at);
    if (call_rebuild(in) != *status)
        return "rebuild's status is another one";
    if (count_now() != expected)
        return "rebuild's count is another one";
    if (now_in(&position) != at)
        return "rebuild's position is another one";
    if (memcmp(array.bytes, model_array, in->array_len) != 0)
        return "rebuild leaves another array";
    if (memcmp(map.bytes, model_map, in->map_len) != 0)
        return "rebuild leaves another map";
    if (memcmp(sheet.bytes, model_sheet, in->sheet_len) != 0)
        return "rebuild leaves another sheet";
    return NULL;
}

/* What is wrong with rebuild's turns, up to one that is refused or after which
   no disk is erased. */
static const char *try_rebuild(const struct input *in)
{
    const char *wrong;
    uint32_t status, turn = 0;

    lend_all(in);
    lend_array(in);
    memcpy(model_map, in->map, in->map_len);
    do {
        fill_sheets(in, turn++);
        set_count();
        wrong = try_turn(in, &status);
    } while (wrong == NULL && status == RAID2D_OK &&
             count_erased(model_map, in->map_len) > 0);
    return wrong;
}

static const char *try_call(const struct input *in)
{
    switch (in->call) {
    case LOOK:
        return try_look(in);
    case PLAN_DISK:
        return try_plan_disk(in);
    case TIDY:
        return try_tidy(in);
    case SAVE:
        return try_save(in);
    case REBUILD:
        return try_rebuild(in);
    case FOLLOW:
        return try_follow(in);
    default:
        return try_plan(in);
    }
}

/* What must hold after every call: guards, and what is only read. */
static const char *try_rest(const struct input *in)
{
    if (!guards_hold(&array) || !guards_hold(&map) || !guards_hold(&sheet) ||
        !guards_hold(&count) || !guards_hold(&position))
        return "a byte beside a lent buffer has changed";
    if (in->call != REBUILD && memcmp(map.bytes, in->map, in->map_len) != 0)
        return "the map has changed";
    if (in->call == FOLLOW &&
        memcmp(sheet.bytes, in->sheet, in->sheet_len) != 0)
        return "follow has changed the sheet";
    return NULL;
}

int LLVMFuzzerTestOneInput(const uint8_t *data, size_t size)
{
    static struct input in;
    const char *wrong;

    make_all_room();
    read_input(&in, data, size);
    wrong = try_call(&in);
    if (wrong == NULL)
        wrong = try_rest(&in);
    if (wrong != NULL) {
        fprintf(stderr, "MISMATCH: %s\n", wrong);
        abort();
    }
    return 0;
}
