/*
 * An example host for raid2d: the rooms of a building, one name to a disk.
 *
 * It draws the numbers of disks and stripes, fills an array while the
 * superparity is not there yet, writes a block, loses disks and gets them
 * back, follows a list of repairs that came from elsewhere, repairs two disks
 * at a time between the machine's cuts, repairs first the one disk that is
 * wanted at the counter, meets a survivor that was changed behind its back,
 * saves what can be saved of a cabinet with nine dead cards, tidies a sheet
 * that came by mail, repairs disks that fail in spots, sector by sector, and
 * meets in the end a loss that nothing brings back.
 * `make example` builds and runs it, and examples/host.expected has what it
 * prints.
 *
 * It is C99 and C++. Whatever it gets back is compared with what was stored:
 * the exit status is 0 only if all went as it should.
 */
#include <stdio.h>
#include <string.h>

#include "raid2d.h"

/* 3 rows and 4 columns of data disks with blocks of 8 bytes; with the parities
   4 rows of 5 disks. */
enum { ROWS = 3, COLUMNS = 4, BLOCK = 8 };
enum { ACROSS = COLUMNS + 1, DOWN = ROWS + 1, SUPERPARITY = 19 };

/* All memory is the host's own: the library allocates nothing. A map of zeros
   says that every disk is present. But for chapter 11 a disk fails as a whole:
   it has one sector, which is its block, and there is one sheet. */
static uint8_t array[RAID2D_ARRAY_BYTES(ROWS, COLUMNS, BLOCK)];
static uint8_t map[RAID2D_DISKS(ROWS, COLUMNS)];
static uint8_t sheet[RAID2D_SHEET_BYTES];

/* What the data disks are to hold. Each name has 8 letters, and behind them
   the zero that ends a string in C. */
static char names[ROWS][COLUMNS][BLOCK + 1] = {
    { "entrance", "mailroom", "workshop", "washroom" },
    { "basement", "stairway", "corridor", "playroom" },
    { "elevator", "darkroom", "showroom", "backroom" }
};

/* How many things went otherwise than they should. */
static int failures;

static void expect(int right, const char *what)
{
    if (!right) {
        printf("WRONG: %s\n", what);
        failures++;
    }
}

/* ---- The array and its disks. */

/* Where a disk's block begins. */
static uint8_t *block_of(size_t disk)
{
    return array + disk * BLOCK;
}

/* A data disk by its name, a parity by the first of its bytes: a sum of
   letters is not text. */
static void print_disk(size_t disk)
{
    const uint8_t *b = block_of(disk);

    printf("  %2zu ", disk);
    if (map[disk])
        printf("(erased)");
    else if (disk / ACROSS < ROWS && disk % ACROSS < COLUMNS)
        printf("%-10.*s", BLOCK, (const char *)b);
    else
        printf("%02x%02x%02x%02x..", b[0], b[1], b[2], b[3]);
}

static void print_array(void)
{
    size_t disk;

    for (disk = 0; disk < RAID2D_DISKS(ROWS, COLUMNS); disk++) {
        print_disk(disk);
        if (disk % ACROSS == COLUMNS)
            printf("\n");
    }
}

/* What a disk holds: data, the parity of its row or its column, or the
   superparity. */
static char letter(size_t row, size_t column)
{
    if (row < ROWS)
        return column < COLUMNS ? ' ' : 'P';
    return column < COLUMNS ? 'Q' : 'S';
}

/* A row of the grid, with the number of its stripe and those of its disks. */
static void draw_numbers(size_t row)
{
    size_t column;

    printf("stripe %-3zu", row);
    for (column = 0; column < ACROSS; column++)
        printf(column < COLUMNS ? "    %2zu %c  " : " |    %2zu %c\n",
               row * ACROSS + column, letter(row, column));
}

static void draw_grid(void)
{
    static const char line[] = "----------------------------------------";
    size_t row, column;

    printf("%10s", "");
    for (column = 0; column < ACROSS; column++)
        printf(column < COLUMNS ? " stripe %2zu" : " | stripe %2zu\n",
               RAID2D_COLUMN_STRIPE + column);
    for (row = 0; row < ROWS; row++)
        draw_numbers(row);
    printf("%10s%.*s-+%.10s\n", "", 10 * COLUMNS, line, line);
    draw_numbers(ROWS);
}

/* Whether every room is on its disk and the array is sealed: the parities
   then follow from the data, so that this is every byte of the array. */
static int all_is_there(void)
{
    size_t row, column, stripe;

    for (row = 0; row < ROWS; row++)
        for (column = 0; column < COLUMNS; column++)
            if (memcmp(block_of(row * ACROSS + column), names[row][column],
                       BLOCK) != 0)
                return 0;
    return raid2d_check(ROWS, COLUMNS, BLOCK, array, sizeof array, &stripe)
        == RAID2D_OK;
}

/* Disks fail. Nobody can rely on what a failed disk holds. */
static void lose(const size_t *disks, size_t count)
{
    size_t i;

    for (i = 0; i < count; i++) {
        map[disks[i]] = 1;
        memset(block_of(disks[i]), '?', BLOCK);
    }
}

/* ---- The calls, each with its outcome in words. */

/* Stripes below RAID2D_COLUMN_STRIPE are rows, the others are columns. */
static void print_stripe(size_t stripe)
{
    if (stripe < RAID2D_COLUMN_STRIPE)
        printf("stripe %zu (row %zu)\n", stripe, stripe);
    else
        printf("stripe %zu (column %zu)\n", stripe,
               stripe - RAID2D_COLUMN_STRIPE);
}

/* The records of a list of repairs, from the first to the last. */
static void print_repairs(const uint8_t *list)
{
    size_t k;

    for (k = raid2d_sheet_first(list); k != 0; k = raid2d_sheet_next(list, k)) {
        printf("  disk %zu by ", raid2d_sheet_disk(list, k));
        print_stripe(raid2d_sheet_stripe(list, k));
    }
}

/* The disks that are erased. */
static void print_left(void)
{
    size_t disk, count = 0;

    printf("  left:");
    for (disk = 0; disk < RAID2D_DISKS(ROWS, COLUMNS); disk++)
        if (map[disk])
            printf(count++ > 0 ? ", %zu" : " %zu", disk);
    printf(count > 0 ? "\n" : " none, and all stripes are checked\n");
}

static void seal(void)
{
    uint32_t status = raid2d_seal(ROWS, COLUMNS, BLOCK, array, sizeof array);

    printf("seal: %s\n", raid2d_strerror(status));
    expect(status == RAID2D_OK, "seal");
}

static uint32_t check(void)
{
    size_t stripe = 0;
    uint32_t status = raid2d_check(ROWS, COLUMNS, BLOCK, array, sizeof array,
                                   &stripe);

    if (status == RAID2D_NOT_SEALED) {
        printf("check: not sealed, see ");
        print_stripe(stripe);
    } else
        printf("check: %s\n", status == RAID2D_OK ? "the array is sealed"
                                                  : raid2d_strerror(status));
    return status;
}

static void write_name(size_t disk, const char *name)
{
    uint32_t status = raid2d_write(ROWS, COLUMNS, BLOCK, array, sizeof array,
                                   disk, (const uint8_t *)name, BLOCK);

    printf("write %s to disk %zu: %s\n", name, disk, raid2d_strerror(status));
    expect(status == RAID2D_OK, "write");
}

/* A block where it stands in the array, or nothing if its disk is erased. */
static void look_at(size_t disk)
{
    size_t offset = 0;
    size_t length = raid2d_look(ROWS, COLUMNS, BLOCK, array, sizeof array,
                                BLOCK, map, sizeof map, disk, &offset);

    if (length == 0)
        printf("look at disk %zu: nothing there\n", disk);
    else
        printf("look at disk %zu: %.*s\n", disk, (int)length,
               (const char *)(array + offset));
    expect(map[disk] ? length == 0
                     : length == BLOCK && offset == disk * BLOCK, "look");
}

/* Which repairs bring all disks back, in which order. */
static void plan(void)
{
    size_t count = 0, position = 0;
    uint32_t status = raid2d_plan(ROWS, COLUMNS, 1, map, sizeof map,
                                  sheet, sizeof sheet, &count, &position);

    printf("plan: %s, %zu repairs\n", raid2d_strerror(status), count);
    expect(status == RAID2D_OK, "plan");
    if (status == RAID2D_OK)
        print_repairs(sheet);
}

/* The fewest repairs that bring one disk back, whatever else is erased. */
static uint32_t plan_disk(size_t disk)
{
    size_t count = 0;
    uint32_t status = raid2d_plan_disk(ROWS, COLUMNS, map, sizeof map,
                                       sheet, sizeof sheet, disk, &count);

    printf("plan for disk %zu: %s, %zu repairs\n", disk,
           raid2d_strerror(status), count);
    if (status == RAID2D_OK)
        print_repairs(sheet);
    return status;
}

/* At most so many repairs. The library marks the disks repaired as present in
   the map. */
static uint32_t repair(size_t limit, size_t *count)
{
    size_t position = 0;

    return raid2d_rebuild(ROWS, COLUMNS, BLOCK, array, sizeof array, BLOCK,
                          map, sizeof map, sheet, sizeof sheet, limit, count,
                          &position);
}

/* Rebuild makes its own plan: a host that does not want to see it first needs
   no other call. With the largest limit one turn is enough. */
static void rebuild(void)
{
    size_t count = 0;
    uint32_t status = repair(SIZE_MAX, &count);

    printf("rebuild: %s, %zu repairs\n", raid2d_strerror(status), count);
    expect(status == RAID2D_OK, "rebuild");
    expect(all_is_there(), "what rebuild has restored");
}

/* ---- The story, one chapter after another. */

/* Without a superparity the array is a plain two-dimensional one. In the
   library's words the superparity is erased. Seal computes its block too, but
   no disk is there to keep it. */
static void fill(void)
{
    static const size_t missing[] = { SUPERPARITY };
    size_t row, column;

    printf("\n1. The array is filled. The superparity, disk 19, is not there"
           " yet.\n");
    for (row = 0; row < ROWS; row++)
        for (column = 0; column < COLUMNS; column++)
            memcpy(block_of(row * ACROSS + column), names[row][column], BLOCK);
    seal();
    lose(missing, 1);
    print_array();
}

/* Write changes the block of the superparity as well. While that is erased,
   it counts for nothing. */
static void rename_a_room(void)
{
    printf("\n2. A room is renamed. The parities of its disk change with"
           " it.\n");
    memcpy(names[0][2], "ballroom", BLOCK);
    write_name(2, names[0][2]);
    look_at(2);
}

/* The missing superparity and the failed disk are repaired in one go. */
static void add_superparity(void)
{
    static const size_t failed[] = { 6 };

    printf("\n3. The superparity is put in, still empty, and disk 6"
           " fails.\n");
    lose(failed, 1);
    plan();
    rebuild();
    expect(check() == RAID2D_OK, "check after a rebuild");
}

/* Disk 2 shares a row with disk 4 and a column with disk 17: only the
   superparity can bring the first of them back. */
static const size_t disk_with_parities[] = { 2, 4, 17 };

static void lose_disk_with_parities(void)
{
    printf("\n4. A data disk fails with both its parities: disks 2, 4 and"
           " 17.\n");
    lose(disk_with_parities, 3);
    look_at(2);
    plan();
    rebuild();
    look_at(2);
}

/* A list of repairs that is not plan's. Its chain visits records 4, 1 and 3;
   record 2 is off the chain and holds zeros, like those behind record 4. */
static const uint8_t notes[RAID2D_SHEET_BYTES] = {
    RAID2D_SHEET_REPAIRS, 4,
    2, 18, 3,
    0, 0, 0,
    4, 0, 0,
    17, 3, 1
};

/* Follow judges the whole sheet before it changes a block. The records are
   printed after a success only: a wrong chain may never end. */
static void follow(const uint8_t *list, uint32_t expected)
{
    size_t count = 0;
    uint32_t status = raid2d_follow(ROWS, COLUMNS, BLOCK, array, sizeof array,
                                    BLOCK, map, sizeof map,
                                    list, RAID2D_SHEET_BYTES, &count);

    printf("follow: %s\n", raid2d_strerror(status));
    expect(status == expected, "follow");
    if (status == RAID2D_OK)
        print_repairs(list);
}

/* For a while disk 6 is out as well, of which the list knows nothing. Follow
   only reads the map: the host decides when the disks count as present. */
static void follow_notes(void)
{
    printf("\n5. The same disks fail again. A list of repairs comes from"
           " elsewhere.\n");
    lose(disk_with_parities, 3);
    printf("Disk 6 is pulled out by mistake.\n");
    map[6] = 1;
    follow(notes, RAID2D_ERR_REPAIRS);
    printf("Disk 6 is back, as it was.\n");
    map[6] = 0;
    follow(notes, RAID2D_OK);
    expect(all_is_there(), "what follow has restored");
    memset(map, 0, sizeof map);
}

/* A turn of two repairs at most, and then a cut. What the next turn needs is
   the array and the map: a host stores the blocks repaired, and after them the
   map. If the cut comes between the two, the turn is made again and gives the
   same blocks. The sheet is for whoever wants to see it. */
static void make_turn(size_t turn, size_t repairs)
{
    size_t count = 0;
    uint32_t status = repair(2, &count);

    printf("turn %zu: %s\n", turn, raid2d_strerror(status));
    expect(status == RAID2D_OK && count == repairs, "a turn");
    if (status == RAID2D_OK)
        print_repairs(sheet);
    print_left();
    memset(sheet, '?', sizeof sheet);
}

/* Five disks by two: the third turn makes the last repair and checks all
   stripes. */
static void repair_between_cuts(void)
{
    static const size_t failed[] = { 5, 6, 7, 8, 9 };

    printf("\n6. Row 1 fails, disks 5 to 9. Between two cuts there is time for"
           " two disks.\n");
    lose(failed, 5);
    make_turn(1, 2);
    make_turn(2, 2);
    make_turn(3, 1);
    expect(all_is_there(), "what the turns have restored");
}

/* A repair without the library: the sum of the other disks of a row, which
   stand side by side, or of a column, which are a row apart. Then the disk
   counts as present. */
static void repair_by(size_t disk, size_t stripe)
{
    size_t other = stripe * ACROSS, step = 1, disks = ACROSS, i;

    if (stripe >= RAID2D_COLUMN_STRIPE) {
        other = stripe - RAID2D_COLUMN_STRIPE;
        step = ACROSS;
        disks = DOWN;
    }
    memset(block_of(disk), 0, BLOCK);
    for (; disks > 0; disks--, other += step)
        for (i = 0; i < BLOCK && other != disk; i++)
            block_of(disk)[i] ^= block_of(other)[i];
    map[disk] = 0;
}

/* The repairs of the sheet, in its order. */
static void make_repairs(void)
{
    size_t k;

    for (k = raid2d_sheet_first(sheet); k != 0; k = raid2d_sheet_next(sheet, k))
        repair_by(raid2d_sheet_disk(sheet, k), raid2d_sheet_stripe(sheet, k));
}

/* By plan's order disk 7 would come fourth. Follow takes no list that leaves
   disks erased, so the host makes the repairs up to disk 7 itself. Nothing is
   checked before the last turn, and until then a host keeps a copy of the map
   from before the first repair. */
static void serve_the_counter(void)
{
    static const size_t failed[] = { 0, 1, 2, 7, 8, 13 };
    uint32_t status;

    printf("\n7. Disks 0, 1, 2, 7, 8 and 13 fail. A customer waits for disk 7,"
           " the corridor.\n");
    lose(failed, 6);
    plan();
    status = plan_disk(7);
    expect(status == RAID2D_OK, "plan for a disk");
    if (status == RAID2D_OK)
        make_repairs();
    look_at(7);
    print_left();
    expect(memcmp(block_of(7), names[1][2], BLOCK) == 0, "the wanted disk");
    make_turn(1, 2);
    make_turn(2, 1);
    expect(all_is_there(), "what was restored behind the wanted disk");
}

/* A sum over a wrong block gives a wrong block. So rebuild checks all stripes
   after the last repair, and rather gives zeros than something made up. The
   disk stays erased in the map. */
static void meet_a_changed_survivor(void)
{
    static const size_t failed[] = { 0 };
    size_t count = 0;
    uint32_t status;

    printf("\n8. A bit of disk 6 flips, and nobody says so. Then disk 0"
           " fails.\n");
    block_of(6)[0] ^= 1;
    expect(check() == RAID2D_NOT_SEALED, "check of a changed block");
    lose(failed, 1);
    status = repair(SIZE_MAX, &count);
    printf("rebuild: %s\n", raid2d_strerror(status));
    expect(status == RAID2D_ERR_SURVIVORS, "rebuild from a changed block");
    expect(block_of(0)[0] == 0 && map[0] == 1, "zeros on an erased disk");
    printf("Disk 6 is taken as failed too.\n");
    map[6] = 1;
    rebuild();
}

/* ---- Another array, with a fatal loss of which a disk can be saved. */

/* The locksmith's cabinet: 3 rows and 3 columns of data disks, which are cards
   there, with blocks of the same length. */
enum { SIDE = 3, SIDE_ACROSS = SIDE + 1 };

static const char keys[SIDE][SIDE][BLOCK + 1] = {
    { "keyblank", "padlocks", "tumblers" },
    { "cylinder", "deadbolt", "latchkey" },
    { "keyholes", "lockpick", "doorknob" }
};

static uint8_t cabinet[RAID2D_ARRAY_BYTES(SIDE, SIDE, BLOCK)];
static uint8_t dead[RAID2D_DISKS(SIDE, SIDE)];

static const size_t nine_cards[] = { 0, 1, 4, 5, 6, 10, 11, 14, 15 };

static void fill_cabinet(void)
{
    size_t row, column, i;
    uint32_t status;

    for (row = 0; row < SIDE; row++)
        for (column = 0; column < SIDE; column++)
            memcpy(cabinet + (row * SIDE_ACROSS + column) * BLOCK,
                   keys[row][column], BLOCK);
    status = raid2d_seal(SIDE, SIDE, BLOCK, cabinet, sizeof cabinet);
    expect(status == RAID2D_OK, "seal of the cabinet");
    for (i = 0; i < 9; i++) {
        dead[nine_cards[i]] = 1;
        memset(cabinet + nine_cards[i] * BLOCK, '?', BLOCK);
    }
}

/* Plan needs no array. */
static uint32_t plan_cards(size_t *count)
{
    size_t position = 0;

    return raid2d_plan(SIDE, SIDE, 1, dead, sizeof dead, sheet, sizeof sheet,
                       count, &position);
}

/* How many disks are lost, 0 where the loss is not fatal. */
static size_t count_lost(void)
{
    size_t count = 0;

    return plan_cards(&count) == RAID2D_FATAL ? count : 0;
}

/* Save restores every disk that is not lost, and leaves the others. */
static void save_cards(void)
{
    size_t count = 0, i;
    uint32_t status = raid2d_save(SIDE, SIDE, BLOCK, cabinet, sizeof cabinet,
                                  BLOCK, dead, sizeof dead, &count);

    printf("save: %s, %zu card restored\n", raid2d_strerror(status), count);
    expect(status == RAID2D_OK && count == 1, "save");
    for (i = 0; i < 9; i++)
        expect((cabinet[nine_cards[i] * BLOCK] == '?') == (nine_cards[i] != 6),
               "which cards are restored");
}

/* Save only reads the map. A lost disk is on a loop, so without it fewer would
   be lost; without a disk that is saved as many are. */
static void find_saved_cards(void)
{
    size_t lost = count_lost(), i;

    for (i = 0; i < 9; i++) {
        size_t card = nine_cards[i], without;

        dead[card] = 0;
        without = count_lost();
        printf("  without card %2zu: %zu lost%s\n", card, without,
               without == lost ? ", so this one is saved" : "");
        dead[card] = without < lost;
    }
}

/* No row and no column has a single dead card. But cards 2, 3, 6, 7, 8, 9, 12
   and 13 add up to zero in a sealed array: they are what is in rows 0 and 1 or
   in columns 0 and 1, but not in both. Only card 6 of them is dead. */
static void save_a_card(void)
{
    size_t count = 0;
    uint32_t status;

    printf("\n9. In a locksmith's cabinet, 3 rows and 3 columns, nine cards are"
           " dead.\n");
    fill_cabinet();
    status = plan_cards(&count);
    printf("plan: %s, %zu cards are lost\n", raid2d_strerror(status), count);
    expect(status == RAID2D_FATAL && count == 8, "plan for nine cards");
    save_cards();
    find_saved_cards();
    printf("Card 6 holds %.*s again.\n", BLOCK,
           (const char *)(cabinet + 6 * BLOCK));
    expect(dead[6] == 0 && count_lost() == 8, "the map without saved cards");
    expect(memcmp(cabinet + 6 * BLOCK, keys[1][2], BLOCK) == 0,
           "what save has restored");
}

/* ---- A sheet that holds more than its list. */

/* Its chain is that of the notes. Record 2 is left over from another list:
   whoever takes every record for a repair sums row 1 into disk 6 as well, which
   is present. */
static uint8_t mail[RAID2D_SHEET_BYTES] = {
    RAID2D_SHEET_REPAIRS, 4,
    2, 18, 3,
    6, 1, 0,
    4, 0, 0,
    17, 3, 1
};

/* Follow cannot know what the sender meant. Once the host does, tidy leaves the
   list of the chain on the sheet and nothing else. */
static void follow_mail(void)
{
    uint32_t status;

    printf("\n10. Disks 2, 4 and 17 fail again. A sheet comes by mail, with"
           " leftovers.\n");
    lose(disk_with_parities, 3);
    follow(mail, RAID2D_ERR_LEFTOVERS);
    printf("The sender says that the chain is what counts.\n");
    status = raid2d_tidy(mail, sizeof mail);
    printf("tidy: %s\n", raid2d_strerror(status));
    expect(status == RAID2D_OK, "tidy");
    follow(mail, RAID2D_OK);
    expect(check() == RAID2D_OK, "check after the mail");
    expect(all_is_there(), "what the mail has restored");
    memset(map, 0, sizeof map);
}

/* ---- The picture of a loop. */

/* The disks that are on the loop, in the form of a map. */
static uint8_t loop[RAID2D_DISKS(ROWS, COLUMNS)];

static void read_loop(const uint8_t *list)
{
    size_t k, disk;

    expect(raid2d_sheet_kind(list) == RAID2D_SHEET_CYCLE, "kind of sheet");
    memset(loop, 0, sizeof loop);
    for (k = raid2d_sheet_first(list); k != 0; k = raid2d_sheet_next(list, k)) {
        disk = raid2d_sheet_disk(list, k);
        expect(map[disk] == 1, "a disk of the loop is erased");
        loop[disk] = 1;
    }
}

/* Whether the loop runs on behind the first disks of a stripe: a stripe that
   it touches holds two of its disks, and then just one of them is passed. */
static int runs_on(size_t first, size_t step, size_t passed)
{
    int odd = 0;

    for (; passed > 0; passed--, first += step)
        odd ^= loop[first];
    return odd;
}

/* On the loop, erased but not on the loop, or present. */
static void draw_disk(size_t disk)
{
    if (loop[disk])
        printf("[%2zu]", disk);
    else if (map[disk])
        printf("(%2zu)", disk);
    else
        printf(disk % ACROSS < COLUMNS ? " %2zu " : " %2zu", disk);
}

static void draw_row(size_t row)
{
    size_t column;

    printf("    ");
    for (column = 0; column < ACROSS; column++) {
        if (column > 0)
            printf(runs_on(row * ACROSS, 1, column) ? "----" : "    ");
        draw_disk(row * ACROSS + column);
    }
    printf("\n");
}

static void draw_links_below(size_t row)
{
    size_t column;
    int width = 7;

    for (column = 0; column < ACROSS; column++, width += 8)
        if (runs_on(column, ACROSS, row + 1)) {
            printf("%*c", width, '|');
            width = 0;
        }
    printf("\n");
}

static void draw_loop(void)
{
    size_t row;

    for (row = 0; row <= ROWS; row++) {
        draw_row(row);
        draw_links_below(row);
    }
}

/* ---- Disks that fail in spots. */

/* A block has four sectors of two letters. The sectors at one position are an
   array by themselves, with bytes of their own in the map and their own
   sheet. */
enum { SECTOR = 2, SECTORS = BLOCK / SECTOR };

static uint8_t spots[RAID2D_MAP_BYTES(ROWS, COLUMNS, SECTORS)];
static uint8_t sheets[RAID2D_SHEETS_BYTES(SECTORS)];

static const size_t four_disks[] = { 0, 2, 10, 12 };

static const uint8_t *sheet_of(size_t position)
{
    return sheets + RAID2D_SHEET_BYTES * position;
}

static void lose_sector(size_t disk, size_t position)
{
    spots[disk * SECTORS + position] = 1;
    memset(block_of(disk) + position * SECTOR, '?', SECTOR);
}

/* Each of the disks loses two sectors, and each position two disks. */
static void lose_spots(void)
{
    size_t i;

    for (i = 0; i < 4; i++) {
        lose_sector(four_disks[i], i);
        lose_sector(four_disks[i], (i + 1) % SECTORS);
        printf("  %2zu %.*s\n", four_disks[i], BLOCK,
               (const char *)block_of(four_disks[i]));
    }
}

/* As whole disks the four are a loop. */
static void plan_both_ways(void)
{
    size_t count = 0, position = 0, i;
    uint32_t status;

    for (i = 0; i < 4; i++)
        map[four_disks[i]] = 1;
    status = raid2d_plan(ROWS, COLUMNS, 1, map, sizeof map,
                         sheet, sizeof sheet, &count, &position);
    printf("plan by disks: %s\n", raid2d_strerror(status));
    expect(status == RAID2D_FATAL && count == 4, "plan by disks");
    status = raid2d_plan(ROWS, COLUMNS, SECTORS, spots, sizeof spots,
                         sheets, sizeof sheets, &count, &position);
    printf("plan by sectors: %s, %zu repairs\n", raid2d_strerror(status),
           count);
    expect(status == RAID2D_OK && count == 8, "plan by sectors");
}

static uint32_t repair_sectors(size_t limit, size_t *count, size_t *position)
{
    return raid2d_rebuild(ROWS, COLUMNS, BLOCK, array, sizeof array, SECTOR,
                          spots, sizeof spots, sheets, sizeof sheets, limit,
                          count, position);
}

/* Three sectors at most. A turn takes the positions in rising order, and may
   end in the midst of one. */
static void make_sector_turn(size_t turn, size_t repairs)
{
    size_t count = 0, position = 0, p;
    uint32_t status = repair_sectors(3, &count, &position);

    printf("turn %zu: %s\n", turn, raid2d_strerror(status));
    expect(status == RAID2D_OK && count == repairs, "a turn by sectors");
    for (p = 0; status == RAID2D_OK && p < SECTORS; p++)
        if (raid2d_sheet_first(sheet_of(p)) != 0) {
            printf("position %zu:\n", p);
            print_repairs(sheet_of(p));
        }
}

/* The map of one position: a byte for each disk. */
static void take_position(size_t position)
{
    size_t disk;

    for (disk = 0; disk < RAID2D_DISKS(ROWS, COLUMNS); disk++)
        map[disk] = spots[disk * SECTORS + position];
}

/* One fatal position refuses the repairs of all. Its number says where on the
   disks to look for old copies, and its sheet on which of them. */
static void meet_a_fatal_position(void)
{
    size_t count = 0, position = 0, i;
    uint32_t status;

    printf("Then all four fail at position 2, and disk 6 at position 1.\n");
    for (i = 0; i < 4; i++)
        lose_sector(four_disks[i], 2);
    lose_sector(6, 1);
    status = repair_sectors(SIZE_MAX, &count, &position);
    printf("rebuild: %s at position %zu, %zu disks are undetermined there\n\n",
           raid2d_strerror(status), position, count);
    expect(status == RAID2D_FATAL && position == 2 && count == 4,
           "rebuild with a fatal position");
    if (status == RAID2D_FATAL) {
        take_position(position);
        read_loop(sheet_of(position));
        draw_loop();
    }
}

/* With the true sector of one disk of the loop the others can be repaired. */
static void put_letters_back(void)
{
    size_t count = 0, position = 0;
    uint32_t status;

    printf("A door sign has what disk 2 held there: \"%.*s\".\n", SECTOR,
           names[0][2] + 2 * SECTOR);
    memcpy(block_of(2) + 2 * SECTOR, names[0][2] + 2 * SECTOR, SECTOR);
    spots[2 * SECTORS + 2] = 0;
    status = repair_sectors(SIZE_MAX, &count, &position);
    printf("rebuild: %s, %zu repairs\n", raid2d_strerror(status), count);
    expect(status == RAID2D_OK && count == 4, "rebuild by sectors");
    expect(all_is_there(), "what was restored by sectors");
    memset(map, 0, sizeof map);
}

static void repair_spots(void)
{
    printf("\n11. Disks 0, 2, 10 and 12 fail in spots: two sectors of each are"
           " left.\n");
    lose_spots();
    plan_both_ways();
    make_sector_turn(1, 3);
    make_sector_turn(2, 3);
    make_sector_turn(3, 2);
    expect(all_is_there(), "what the turns by sectors have restored");
    meet_a_fatal_position();
    put_letters_back();
}

/* ---- A fatal loss. */

/* Each stripe holds two disks of the loop or none. So one bit changed on all
   of them changes no sum. */
static void change_along_loop(void)
{
    size_t disk;

    for (disk = 0; disk < RAID2D_DISKS(ROWS, COLUMNS); disk++)
        block_of(disk)[0] ^= loop[disk];
}

/* A fatal loss leaves the array and the map as they are. */
static void fail_to_rebuild(void)
{
    static uint8_t kept[sizeof array];
    size_t count = 0;
    uint32_t status;

    memcpy(kept, array, sizeof array);
    status = repair(SIZE_MAX, &count);
    printf("rebuild: %s, %zu disks are undetermined\n\n",
           raid2d_strerror(status), count);
    expect(status == RAID2D_FATAL && count == 6, "rebuild of a fatal loss");
    expect(memcmp(array, kept, sizeof array) == 0, "the array of a fatal loss");
}

/* Disk 19 alone could be repaired: no stripe has just one of the others. */
static void meet_a_fatal_loss(void)
{
    static const size_t failed[] = { 0, 3, 6, 8, 10, 11, 19 };
    static uint8_t before[sizeof array];

    printf("\n12. Disks 0, 3, 6, 8, 10, 11 and 19 fail.\n");
    memcpy(before, array, sizeof array);
    lose(failed, 7);
    fail_to_rebuild();
    read_loop(sheet);
    draw_loop();

    printf("The array as it was, but with a bit changed on each disk of the"
           " loop:\n");
    memcpy(array, before, sizeof array);
    change_along_loop();
    expect(check() == RAID2D_OK, "another array with the same survivors");
    printf("Two sealed arrays have the same survivors: nobody can tell which"
           " was lost.\n");
}

int main(void)
{
    draw_grid();
    fill();
    rename_a_room();
    add_superparity();
    lose_disk_with_parities();
    follow_notes();
    repair_between_cuts();
    serve_the_counter();
    meet_a_changed_survivor();
    save_a_card();
    follow_mail();
    repair_spots();
    meet_a_fatal_loss();
    return failures == 0 ? 0 : 1;
}
