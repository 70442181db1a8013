/*
 * Blocks that are cut into sectors, of which each position is an array by
 * itself: the length of a sector and the number of them, the order of the map,
 * mixtures of losses that are restored, fatal or contradicted at the positions,
 * and the sheets that follow is given for them. refusals.c has the order of the
 * refusals, sector_turns.c turns that go over the positions.
 */
#include <string.h>

#include "positions.h"
#include "raid2d.h"
#include "suite.h"

/* ---- The length of a sector and the number of sectors ---- */

static const enum function by_length[] = { LOOK, REBUILD, FOLLOW, SAVE };

/* With nothing erased: every sheet is an empty list. */
static void accept_length(enum function function, struct size s,
                          size_t sectors)
{
    struct call c = sealed_cut_call(function, s, sectors);

    expect_kinds(&c, RAID2D_SHEET_REPAIRS);
    if (function != REBUILD)
        memcpy(c.sheet.bytes, c.sheet.expected, c.sheet.len);
    expect_run(&c, function == LOOK ? s.block : 0, 0, "a sector that divides");
    end_call(&c);
}

/* From 0 to more than a block. Where the sector divides the block, the buffers
   are for that many sectors, else for one. */
static void every_length(size_t block)
{
    const struct size s = { 2, 2, block };
    size_t i, length;

    for (i = 0; i < COUNT(by_length); i++) {
        struct call c = sealed_call(by_length[i], s);

        for (length = 0; length <= block + 2; length++) {
            c.sector = length;
            if (length > 0 && block % length == 0)
                accept_length(by_length[i], s, block / length);
            else
                expect_run(&c, by_length[i] == LOOK ? 0 : 16, OUT_BEFORE,
                           "a sector that does not divide");
        }
        end_call(&c);
    }
}

/* The map and the sheets are as long as the number asks for. */
static void plan_for(size_t sectors)
{
    const struct size s = { 2, 3, 1 };
    struct call c = new_call(PLAN, s, 0, RAID2D_MAP_BYTES(2, 3, sectors), 0,
                             RAID2D_SHEETS_BYTES(sectors));
    int fits = 1 <= sectors && sectors <= 4096;

    c.sectors = sectors;
    if (fits)
        expect_kinds(&c, RAID2D_SHEET_REPAIRS);
    expect_run(&c, fits ? 0 : 16, fits ? 0 : OUT_BEFORE, "sectors of plan");
    end_call(&c);
}

static void lengths_and_numbers(void)
{
    static const size_t blocks[] = {
        1, 2, 6, 12, 16, 17, 100, 128, 4095, 4096
    };
    static const size_t numbers[] = {
        0, 1, 2, 3, 255, 256, 257, 4095, 4096, 4097, 4098, 8192
    };
    size_t i;

    for (i = 0; i < COUNT(blocks); i++)
        every_length(blocks[i]);
    for (i = 0; i < COUNT(numbers); i++)
        plan_for(numbers[i]);
}

/* ---- What is expected of losses that are not fatal ---- */

/* The sheets list plan's repairs of each position. Returns how many. */
static size_t expect_lists(struct call *c)
{
    size_t position, repairs = 0;

    for (position = 0; position < c->sectors; position++) {
        struct repairs list = repairs_at(c, position);

        expect_list_at(c, position, &list, 0, list.count);
        repairs += list.count;
    }
    return repairs;
}

/* Plan, follow and save on what a call of rebuild is lent: plan's sheets, the
   array of the call, or 7 where the survivors do not agree. */
static void expect_others(struct call *c, size_t repairs, int agree,
                          const char *what)
{
    struct call plan = same_for(PLAN, c), follow = same_for(FOLLOW, c);
    struct call save = same_for(SAVE, c);
    size_t status = agree ? 0 : 7, count = agree ? repairs : OUT_BEFORE;

    memcpy(plan.array.expected, plan.array.bytes, plan.array.len);
    memcpy(plan.sheet.expected, c->sheet.expected, plan.sheet.len);
    memcpy(follow.sheet.bytes, c->sheet.expected, follow.sheet.len);
    memcpy(follow.sheet.expected, c->sheet.expected, follow.sheet.len);
    expect_run(&plan, 0, repairs, what);
    expect_run(&follow, status, count, what);
    expect_run(&save, status, count, what);
    end_call(&plan);
    end_call(&follow);
    end_call(&save);
}

/* All four calls on the loss of a call of rebuild. The array is then as
   expected, or all erased sectors and all sheets are zero. */
static void expect_all(struct call *c, int agree, const char *what)
{
    size_t repairs = expect_lists(c);

    if (!agree)
        expect_zero_sectors(c);
    expect_others(c, repairs, agree, what);
    if (agree)
        memset(c->map.expected, 0, c->map.len);
    else
        memset(c->sheet.expected, 0, c->sheet.len);
    expect_run(c, agree ? 0 : 7, agree ? repairs : OUT_BEFORE, what);
}

/* ---- The order of the map ---- */

/* Look hands out every disk but one, of which a sector is erased; and just that
   one, where a sector of every other is. */
static void look_beside(struct size s, size_t sectors, size_t position,
                        size_t erased)
{
    struct call c = cut_call(LOOK, s, sectors);
    size_t disks = disks_of(s);

    lose_sector(&c, position, erased);
    expect_as_now(&c);
    for (c.disk = 0; c.disk < disks; c.disk++)
        expect_run(&c, c.disk == erased ? 0 : s.block,
                   c.disk == erased ? OUT_BEFORE : c.disk * s.block,
                   "look, one sector erased");
    c.map.bytes[erased * sectors + position] = 0;
    for (c.disk = 0; c.disk < disks; c.disk++)
        if (c.disk != erased)
            lose_sector(&c, below(sectors), c.disk);
    expect_as_now(&c);
    for (c.disk = 0; c.disk < disks; c.disk++)
        expect_run(&c, c.disk == erased ? s.block : 0,
                   c.disk == erased ? erased * s.block : OUT_BEFORE,
                   "look, a sector of each other erased");
    end_call(&c);
}

/* Each sector by itself. */
static void every_sector(struct size s, size_t sectors)
{
    size_t position, disk;

    for (disk = 0; disk < disks_of(s); disk++)
        for (position = 0; position < sectors; position++) {
            struct call c = sealed_cut_call(REBUILD, s, sectors);

            lose_sector(&c, position, disk);
            expect_all(&c, 1, "one sector");
            end_call(&c);
        }
}

static void look_beside_every_sector(struct size s, size_t sectors)
{
    size_t position, disk;

    for (disk = 0; disk < disks_of(s); disk++)
        for (position = 0; position < sectors; position++)
            look_beside(s, sectors, position, disk);
}

/* Row 0 and column 0 are erased at one position, and some disk at the next. */
static void cross_beside_one(struct size s, size_t sectors)
{
    size_t position;

    for (position = 0; position < sectors; position++) {
        struct call c = sealed_cut_call(REBUILD, s, sectors);

        lose_at(&c, position, lose_cross);
        lose_sector(&c, (position + 1) % sectors, below(disks_of(s)));
        expect_all(&c, 1, "a cross beside one sector");
        end_call(&c);
    }
}

/* ---- Mixtures of losses ---- */

/* The disks 0 and 1, those below them, and a disk that is alone on its row: the
   first four are a cycle, and the fifth comes back. */
static void lose_four(struct call *c)
{
    lose(c, 0, 0);
    lose(c, 0, 1);
    lose(c, 1, 0);
    lose(c, 1, 1);
    lose(c, 2, 2);
}

/* A cycle of six disks. */
static void lose_six(struct call *c)
{
    lose(c, 0, 0);
    lose(c, 0, 1);
    lose(c, 1, 1);
    lose(c, 1, 2);
    lose(c, 2, 2);
    lose(c, 2, 0);
}

/* What a position has lost, and how many of these disks are undetermined or
   determined. */
enum loss { NOTHING, CROSS, FOUR, SIX, LOSSES };

static size_t undetermined_in(size_t loss)
{
    return loss == FOUR ? 4 : loss == SIX ? 6 : 0;
}

static size_t determined_in(struct size s, size_t loss)
{
    return loss == CROSS ? most_repairs(s) : loss == FOUR;
}

/* The sheet of a position shows the cycle of its loss. */
static void expect_cycle(struct call *c, size_t position, size_t loss)
{
    struct size s = c->size;
    struct call one = *c;
    size_t six = loss == SIX;

    one.sheet.expected += position * RAID2D_SHEET_BYTES;
    one.sheet.len = RAID2D_SHEET_BYTES;
    expect_kind(&one, RAID2D_SHEET_CYCLE);
    expect_record(&one, 1, disk_at(s, 0, 0), 0);
    expect_record(&one, 2, disk_at(s, 0, 1), 17);
    expect_record(&one, 3, disk_at(s, 1, 1), 1);
    if (six) {
        expect_record(&one, 4, disk_at(s, 1, 2), 18);
        expect_record(&one, 5, disk_at(s, 2, 2), 2);
    }
    expect_record(&one, six ? 6 : 4, disk_at(s, six ? 2 : 1, 0), 16);
}

/* Save brings back what is determined at its position. All else keeps its
   bytes. */
static void expect_saved(const struct call *c, const size_t *loss,
                         const char *what)
{
    struct call save = same_for(SAVE, c);
    size_t position, disk, saved = 0;

    for (position = 0; position < c->sectors; position++) {
        int fatal = undetermined_in(loss[position]) > 0;

        saved += determined_in(c->size, loss[position]);
        for (disk = 0; disk < disks_of(c->size) && fatal; disk++) {
            size_t at = sector_at(c, position, disk);

            if (loss[position] == SIX || disk != disk_at(c->size, 2, 2))
                memcpy(save.array.expected + at, c->array.bytes + at,
                       c->sector);
        }
    }
    expect_run(&save, 0, saved, what);
    end_call(&save);
}

/* Plan and rebuild name the lowest fatal position: its sheet shows the cycle,
   the others are zero, and the count is of that position. Array and map keep
   their bytes, also where the limit allows only repairs before it. */
static void expect_fatal_at(struct call *c, size_t position, size_t loss,
                            const char *what)
{
    struct call plan;

    c->fatal = position;
    memset(c->sheet.expected, 0, c->sheet.len);
    expect_cycle(c, position, loss);
    memcpy(c->array.expected, c->array.bytes, c->array.len);
    plan = same_for(PLAN, c);
    plan.fatal = position;
    memcpy(plan.sheet.expected, c->sheet.expected, plan.sheet.len);
    expect_run(&plan, 6, undetermined_in(loss), what);
    end_call(&plan);
    expect_run(c, 6, undetermined_in(loss), what);
    c->limit = 1;
    fill(c->sheet.bytes, c->sheet.len);
    expect_run(c, 6, undetermined_in(loss), what);
}

static void mix(struct size s, size_t sectors, const size_t *loss)
{
    static void (*const lose_this[LOSSES])(struct call *c) = {
        lose_nothing, lose_cross, lose_four, lose_six
    };
    struct call c = sealed_cut_call(REBUILD, s, sectors);
    size_t position, fatal = 0;

    for (position = 0; position < sectors; position++)
        lose_at(&c, position, lose_this[loss[position]]);
    expect_saved(&c, loss, "a mixture of losses");
    while (fatal < sectors && undetermined_in(loss[fatal]) == 0)
        fatal++;
    if (fatal < sectors)
        expect_fatal_at(&c, fatal, loss[fatal], "a mixture of losses");
    else
        expect_all(&c, 1, "a mixture of losses");
    end_call(&c);
}

/* The digits of a number, from the lowest on. */
static void digits(size_t number, size_t base, size_t *digit, size_t count)
{
    size_t i;

    for (i = 0; i < count; i++) {
        digit[i] = number % base;
        number /= base;
    }
}

/* Every loss at each of four positions. */
static void every_mixture(struct size s)
{
    size_t number, loss[4];

    for (number = 0; number < LOSSES * LOSSES * LOSSES * LOSSES; number++) {
        digits(number, LOSSES, loss, 4);
        mix(s, 4, loss);
    }
}

/* ---- Contradictions ---- */

/* A position has lost nothing or most of a stair, and has a changed survivor in
   the last row or not: of that row no disk is erased. */
enum state { WHOLE, CHANGED, STAIR, CHANGED_STAIR, STATES };

static void contradict(struct size s, size_t sectors, const size_t *state)
{
    struct call c = sealed_cut_call(REBUILD, s, sectors);
    int agree = 1;
    size_t position;

    for (position = 0; position < sectors; position++) {
        if (state[position] == STAIR || state[position] == CHANGED_STAIR)
            lose_at(&c, position, lose_most_of_stair);
        if (state[position] == CHANGED || state[position] == CHANGED_STAIR) {
            damage_at(&c, position, s.rows, below(s.columns + 1));
            agree = 0;
        }
    }
    expect_all(&c, agree, "contradictions");
    end_call(&c);
}

static void every_contradiction(struct size s)
{
    size_t number, state[3];

    for (number = 0; number < STATES * STATES * STATES; number++) {
        digits(number, STATES, state, 3);
        contradict(s, 3, state);
    }
}

/* Survivors at one position that contradict each other, and fatal losses at all
   positions. Save zeroes all that is erased, also what is undetermined where
   all agree. No erased disks lead from the row of the changed one to its
   column. */
static void save_contradicted(struct size s, size_t sectors, size_t changed)
{
    struct call c = sealed_cut_call(SAVE, s, sectors);
    size_t position;

    for (position = 0; position < sectors; position++)
        lose_at(&c, position, position == changed ? lose_four : lose_six);
    damage_at(&c, changed, 2, 0);
    expect_zero_sectors(&c);
    expect_run(&c, 7, OUT_BEFORE, "contradicted beside fatal losses");
    end_call(&c);
}

/* A call finds the loss fatal before it finds the contradiction. */
static void fatal_before_contradiction(struct size s, size_t sectors,
                                       size_t changed)
{
    struct call c = sealed_cut_call(REBUILD, s, sectors);
    size_t fatal = (changed + 1) % sectors;

    lose_at(&c, fatal, lose_six);
    lose_sector(&c, changed, 0);
    damage_at(&c, changed, 1, 1);
    expect_fatal_at(&c, fatal, SIX, "fatal, and contradicted elsewhere");
    end_call(&c);
}

static void contradict_beside_fatal(struct size s, size_t sectors)
{
    size_t changed;

    for (changed = 0; changed < sectors; changed++) {
        save_contradicted(s, sectors, changed);
        if (sectors > 1)
            fatal_before_contradiction(s, sectors, changed);
    }
}

/* ---- Follow ---- */

/* What is wrong at a position, in the order in which follow judges it, each at
   all positions before the next. */
static const size_t verdicts[] = { 10, 13, 14, 11, 7, 0 };

enum { RIGHT = COUNT(verdicts) - 1 };

/* Disk 1 is erased at each position. The sheet lists it, by its row, as record
   2, but for what is wrong. */
static void prepare_position(struct call *c, size_t position, size_t verdict)
{
    uint8_t *sheet = c->sheet.bytes + position * RAID2D_SHEET_BYTES;

    lose_sector(c, position, 1);
    memset(sheet, 0, RAID2D_SHEET_BYTES);
    memcpy(sheet, "\1\2\0\0\0\1\0\0", 8);
    switch (verdicts[verdict]) {
    case 10:
        sheet[position % 2 == 0 ? 0 : 7] = 33;
        break;
    case 13:
        sheet[7] = 2;
        break;
    case 14:
        sheet[2 + below(3)] = 1;
        break;
    case 11:
        sheet[position % 2 == 0 ? 5 : 6] = 18;
        break;
    case 7:
        damage_at(c, position, 1, 1);
        break;
    default:
        break;
    }
}

static void follow_verdicts(struct size s, const size_t *verdict,
                            size_t sectors)
{
    struct call c = sealed_cut_call(FOLLOW, s, sectors);
    size_t position, first = RIGHT, status;

    for (position = 0; position < sectors; position++) {
        prepare_position(&c, position, verdict[position]);
        if (verdict[position] < first)
            first = verdict[position];
    }
    status = verdicts[first];
    memcpy(c.sheet.expected, c.sheet.bytes, c.sheet.len);
    if (status == 7)
        expect_zero_sectors(&c);
    if (status >= 10)
        memcpy(c.array.expected, c.array.bytes, c.array.len);
    expect_run(&c, status, status == 0 ? sectors : OUT_BEFORE,
               "follow, something wrong at some positions");
    end_call(&c);
}

static void every_verdict(struct size s)
{
    size_t number, verdict[3];

    for (number = 0; number < 216; number++) {
        digits(number, COUNT(verdicts), verdict, 3);
        follow_verdicts(s, verdict, 3);
    }
}

/* The sheets of two positions are exchanged: each lists the other's sectors. */
static void follow_exchanged(struct size s, size_t sectors)
{
    struct call c = sealed_cut_call(FOLLOW, s, sectors);
    size_t position;

    for (position = 0; position < sectors; position++)
        lose_sector(&c, position, position);
    for (position = 0; position < sectors; position++) {
        struct repairs list = repairs_at(&c, (position + 1) % sectors);

        expect_list_at(&c, position, &list, 0, list.count);
    }
    memcpy(c.sheet.bytes, c.sheet.expected, c.sheet.len);
    memcpy(c.array.expected, c.array.bytes, c.array.len);
    expect_run(&c, 11, OUT_BEFORE, "sheets of other positions");
    end_call(&c);
}

/* ---- The most sectors ---- */

static const struct size largest = { 15, 15, 4096 };

static void restore_most(void)
{
    struct call c = sealed_cut_call(REBUILD, largest, 4096);

    lose_most_sectors(&c);
    expect(expect_lists(&c) == 126976, "the most repairs");
    expect_all(&c, 1, "all sectors of 31 disks");
    end_call(&c);
}

/* The last position is the only one that is fatal, or is contradicted. */
static void refuse_most(void)
{
    struct call fatal = sealed_cut_call(REBUILD, largest, 4096);
    struct call changed = sealed_cut_call(REBUILD, largest, 4096);
    size_t position;

    for (position = 0; position < 4095; position++) {
        lose_sector(&fatal, position, position % 256);
        lose_sector(&changed, position, position % 240);
    }
    lose_at(&fatal, 4095, lose_six);
    expect_fatal_at(&fatal, 4095, SIX, "fatal at position 4095");
    end_call(&fatal);
    damage_at(&changed, 4095, 15, 3);
    expect_all(&changed, 0, "contradicted at position 4095");
    end_call(&changed);
}

/* ---- All of it ---- */

/* Losses of all kinds that come back at the positions, at every size. */
static void restore_mixed(struct size s, size_t sectors)
{
    static void (*const kinds[])(struct call *c) = {
        lose_cross, lose_nothing, lose_stair, lose_most_of_stair
    };
    struct call c = sealed_cut_call(REBUILD, s, sectors);
    size_t position;

    for (position = 0; position < sectors; position++)
        if (below(3) == 0)
            lose_sector(&c, position, below(disks_of(s)));
        else
            lose_at(&c, position, kinds[below(COUNT(kinds))]);
    expect_all(&c, 1, "losses of all kinds");
    end_call(&c);
}

/* The least number of sectors but one, and the greatest up to 128. */
static void at_size(struct size s)
{
    size_t least = 2, most = s.block < 128 ? s.block : 128;

    while (least < s.block && s.block % least != 0)
        least++;
    while (s.block % most != 0)
        most--;
    restore_mixed(s, s.block == 1 ? 1 : least);
    if (disks_of(s) * most < 4096) {
        restore_mixed(s, most);
        contradict_beside_fatal(s, most < 8 ? most : 1);
    }
}

void test_sectors(void)
{
    static const struct size sizes[] = {
        { 2, 2, 12 }, { 2, 3, 12 }, { 3, 2, 24 }
    };
    size_t i;

    lengths_and_numbers();
    for (i = 0; i < COUNT(sizes); i++) {
        every_sector(sizes[i], 6);
        look_beside_every_sector(sizes[i], 6);
        cross_beside_one(sizes[i], 12);
        every_mixture(sizes[i]);
        every_contradiction(sizes[i]);
        every_verdict(sizes[i]);
        follow_exchanged(sizes[i], 4);
    }
    every_sector((struct size){ 15, 15, 2 }, 2);
    look_beside((struct size){ 15, 15, 2 }, 2, 1, 17);
    look_beside((struct size){ 2, 15, 4096 }, 4096, 4095, 47);
    every_mixture((struct size){ 2, 15, 4 });
    every_contradiction((struct size){ 15, 2, 3 });
    at_every_size(at_size);
    restore_most();
    refuse_most();
}
