/*
 * raid2d.h: parities and repair of a two-dimensional RAID array.
 *
 * The library keeps the parities of a grid of disks and restores lost disks,
 * or lost sectors of them, in memory that the caller lends. Each function of
 * the archive is proved, in the Rattle sources it is made from, against a
 * definition of its result and of every byte it leaves, for every argument.
 * The header puts those definitions into words, and the manual pages are made
 * from it. It is C99 and C++98; the archive is for x86-64 with the System V
 * calling convention.
 *
 * THE ARRAY
 *
 * An array has rows times columns data disks. One more column beside them and
 * one more row below them hold parities, so the grid has rows + 1 rows and
 * columns + 1 columns, each numbered from 0. The disk in row r and column c
 * has number r * (columns + 1) + c: disk d stands in row d / (columns + 1) and
 * column d % (columns + 1). For rows = 2 and columns = 3:
 *
 *              column 0       column 1       column 2       column 3
 *     row 0    0 data         1 data         2 data         3 row parity
 *     row 1    4 data         5 data         6 data         7 row parity
 *     row 2    8 col. parity  9 col. parity 10 col. parity 11 superparity
 *
 * SECTORS
 *
 * Many disks fail in spots and not as a whole. So every block is cut into
 * sectors of one length, and the map says of each sector whether it is lost.
 * The sectors at one position, one of each disk, are an array by themselves:
 * the grid and its stripes are the same, the repairs and their sheet are those
 * of the position. With blocks of 12 bytes and sectors of 4, this is the first
 * byte in the array of each sector of disk d, its byte in the map, and the
 * first byte of the sheet of its position:
 *
 *              position 0    position 1    position 2
 *     array    12 * d        12 * d + 4    12 * d + 8
 *     map       3 * d         3 * d + 1     3 * d + 2
 *     sheets    0            98            196
 *
 * A host without sectors passes block for sector, 1 for sectors and a variable
 * for position. A disk then has one sector, which is its block; the map has a
 * byte for each disk; there is one sheet, and 0 is the only position.
 *
 * WORDS
 *
 *   sum            Exclusive or of blocks or of sectors, at each byte place by
 *                  itself.
 *   block          The bytes of one disk: as many for every disk.
 *   sector         A part of a block. Every block is cut into as many, all of
 *                  one length, without a rest.
 *   position       The place of a sector in its block, counted from 0. At a
 *                  position a disk stands for its sector there: it is present,
 *                  erased, repaired and so on if that sector is.
 *   disk           A place in the grid, with one block.
 *   data row       A row other than the last, 0 to rows - 1.
 *   data column    A column other than the last, 0 to columns - 1.
 *   data disk      A disk in a data row and a data column.
 *   row parity     The last disk of a data row: the sum of the row's data.
 *   column parity  The last disk of a data column: the sum of the column's
 *                  data.
 *   superparity    The last disk of all, in the last row and column: the sum
 *                  of all row parities, which is also that of all column
 *                  parities.
 *   stripe         All disks of a row, columns + 1 of them, or of a column,
 *                  rows + 1 of them: parity disks and superparity included.
 *                  Row r is stripe r, column c is stripe 16 + c, whatever the
 *                  size.
 *   sealed         Every stripe's sum is zero at every byte place: all
 *                  parities are as defined above.
 *   array          The blocks of all disks, in the order of disk numbers. The
 *                  sector of disk d at position p begins at byte
 *                  d * block + p * sector.
 *   map            One byte for each sector: 0 present, 1 erased. All sectors
 *                  of disk 0 come first, then those of disk 1: the byte of
 *                  disk d at position p is byte d * sectors + p.
 *   erased         Said of a sector whose bytes count for nothing. Calls
 *                  without a map take every sector as present. A host that
 *                  has not stored a superparity yet marks that disk as erased
 *                  in the map, at every position.
 *   loss           All sectors that a map says are erased. What is erased at
 *                  one position is the loss there, which is judged by itself.
 *   survivors      All other sectors. They belong to a sealed array if one
 *                  with the same rows, columns and block has the same bytes in
 *                  each of them.
 *   repair         Sets a disk that is erased at a position to the sum of the
 *                  other disks of one stripe through it, at this position. It
 *                  is allowed if no other disk of that stripe is still erased
 *                  there. Afterwards the disk counts as present there.
 *   plan's order   The repairs of position 0, then those of position 1, and so
 *                  on. At a position each step has the lowest-numbered disk
 *                  that can be repaired there, by its row if that is allowed,
 *                  else by its column.
 *   residual       The sectors that are still erased when no repair is allowed
 *                  any more: the same, whatever the order of the repairs.
 *   undetermined   Said of an erased sector if two sealed arrays agree on
 *                  every sector that is not erased and differ in this one:
 *                  nobody can tell what it held. This follows from rows,
 *                  columns and what the map has for its position alone. Such a
 *                  sector is in the residual; the residual can have other
 *                  sectors too, which no repair reaches and which follow from
 *                  the survivors all the same.
 *   determined     Said of every other erased sector.
 *   fatal          Said of a position if some of its sectors are in the
 *                  residual, and of a loss if it has a fatal position. Then,
 *                  and only then, a sector there is undetermined: two
 *                  different sealed arrays agree on every sector that is not
 *                  erased. With up to three disks erased at it no position is
 *                  fatal, with more than rows + columns + 1 every one is.
 *   cycle          A loop of different disks that are erased at one position,
 *                  at least four: the first and the second share a row, the
 *                  second and the third a column, and so on in turn, the last
 *                  and the first a column; each stripe touched holds exactly
 *                  two of them. It begins with its lowest-numbered disk. Each
 *                  fatal position has a cycle, and no other has one. Of
 *                  several the shortest is listed, and of equally short ones
 *                  that whose disk numbers in ascending order come first,
 *                  compared number by number from the left.
 *   turn           One call of raid2d_rebuild: it makes the next repairs of
 *                  plan's order, as many as its limit allows.
 *   sheet          A list of repairs or a cycle at one position, in
 *                  RAID2D_SHEET_BYTES bytes. A chain of records leads through
 *                  it, each with a disk, a stripe and the number of the next.
 *                  raid2d_sheet_first and its like read them; SPECIFICATION.md
 *                  has the bytes. It does not say for which rows, columns and
 *                  position it is.
 *   sheets         A sheet for each position, one behind another in rising
 *                  order: that of position p begins at byte
 *                  RAID2D_SHEET_BYTES * p.
 *   off the chain  Said of every byte of a sheet but the kind, the number of
 *                  the first record and the bytes of the records that the
 *                  chain visits.
 *   tidy           Said of a list of repairs whose chain visits the records 1,
 *                  2, 3 and so on, in this order, and that has only zeros off
 *                  the chain. Every list of repairs that the library writes is
 *                  tidy. The tidy form of a sheet is the tidy sheet with the
 *                  same list.
 *
 * PARAMETERS
 *
 * These mean the same in every call.
 *
 *   rows        data rows, RAID2D_SIDE_MIN to RAID2D_SIDE_MAX
 *   columns     data columns, likewise
 *   block       bytes in a block, RAID2D_BLOCK_MIN to RAID2D_BLOCK_MAX
 *   array       the blocks of all disks
 *   array_len   its length, RAID2D_ARRAY_BYTES(rows, columns, block)
 *   sector      bytes in a sector: block, or a divisor of it; sectors is then
 *               block / sector
 *   sectors     sectors in a block, RAID2D_SECTORS_MIN to RAID2D_SECTORS_MAX
 *   map         which sectors are erased: every byte 0 or 1
 *   map_len     its length, RAID2D_MAP_BYTES(rows, columns, sectors)
 *   sheets      a sheet for each position
 *   sheets_len  their length together, RAID2D_SHEETS_BYTES(sectors)
 *   sheet_len   the length of one sheet, RAID2D_SHEET_BYTES
 *   position    receives the lowest fatal position, with RAID2D_FATAL only
 *
 * CONVENTIONS
 *
 * Numbers. rows, columns, block, sector, sectors, disk, limit and record may
 * have any value of size_t: each is tested as it is given and never shortened
 * before its test. A number or a length that is out of range is refused, by 0
 * where a function returns no status, and does no harm. But 2 rows and 3
 * columns are another array than 3 rows and 2 columns, of the same length, and
 * a map with all disks of position 0 first has the length of one with all
 * sectors of disk 0 first: no call can see that the two were swapped, and what
 * it writes is then wrong.
 *
 * Buffers. Each pointer to bytes is followed by its length, but for the sheet
 * of raid2d_sheet_kind and its like. The caller sees to three things, which no
 * call can test:
 *
 *   - a pointer is valid for its length, the sheet of such a reader for
 *     RAID2D_SHEET_BYTES; it may be NULL where the length is 0;
 *   - an out-parameter points to a size_t, also where the call refuses;
 *   - nothing that is lent to one call overlaps anything else lent to it:
 *     count and position are two variables.
 *
 * Bytes may stand at any address. A buffer that is const is only read. No
 * pointer is kept after the call. A call that does not return, as at a power
 * cut, may leave anything in what it writes.
 *
 * Statuses. Where several apply, the first in the call's list is returned.
 * RAID2D_OK and RAID2D_NOT_SEALED are answers, every other status is a
 * refusal. A call that refuses leaves every buffer and every out-parameter as
 * it was, but for what the lists of raid2d_plan, raid2d_plan_disk,
 * raid2d_rebuild, raid2d_follow and raid2d_save say of RAID2D_FATAL and
 * RAID2D_ERR_SURVIVORS. A status is that of the whole call: what refuses one
 * position refuses all of them. To learn which it was, or to go on with the
 * others, a host copies the sectors of one position, and their bytes of the
 * map, into an array and a map of their own, and calls with the sector's length
 * for block and for sector. A status keeps its number for good.
 *
 * State. There is none: no memory is allocated, nothing is read or written but
 * what is lent and less than 4 KB of stack. Of the C library the archive needs
 * memcpy and memset, which take stack of their own, and at their first call so
 * does a dynamic linker that has to find them. Calls may run at the same time,
 * also from a signal handler, unless one writes what another is lent.
 *
 * Pointers that are not valid. The archive has no unwind tables and no line
 * numbers. A debugger that stops in it on a bad pointer names a function of
 * the sources, such as xor::fill::fill, or the call, and mostly cannot say who
 * called it. With a breakpoint on the call, such as raid2d_seal, it can.
 */

#ifndef RAID2D_H
#define RAID2D_H

#include <stddef.h>
#include <stdint.h>

#ifdef __cplusplus
extern "C" {
#endif

/* The version of this header, as three numbers, as one, and as a string. */
#define RAID2D_VERSION_MAJOR   0
#define RAID2D_VERSION_MINOR   11
#define RAID2D_VERSION_PATCH   0
#define RAID2D_VERSION_NUMBER  1100
#define RAID2D_VERSION_STRING  "0.11.0"

/* The range of a side: of data rows, and of data columns. */
#define RAID2D_SIDE_MIN  2
#define RAID2D_SIDE_MAX  15

/* Bytes in a block: the range of block. */
#define RAID2D_BLOCK_MIN  1
#define RAID2D_BLOCK_MAX  4096

/* Sectors in a block: the range of sectors. */
#define RAID2D_SECTORS_MIN  1
#define RAID2D_SECTORS_MAX  4096

/*
 * The number of disks, parity disks included; the length of an array; that of
 * a map, one byte for each sector; and that of the sheets, one for each
 * position. With constants each can size a static array. They test nothing:
 * with numbers out of range they may wrap, where raid2d_disks and
 * raid2d_array_bytes give 0.
 */
#ifdef __cplusplus
#define RAID2D_DISKS(rows, columns) \
    ((static_cast<size_t>(rows) + 1) * (static_cast<size_t>(columns) + 1))
#define RAID2D_ARRAY_BYTES(rows, columns, block) \
    (RAID2D_DISKS(rows, columns) * static_cast<size_t>(block))
#define RAID2D_MAP_BYTES(rows, columns, sectors) \
    (RAID2D_DISKS(rows, columns) * static_cast<size_t>(sectors))
#define RAID2D_SHEETS_BYTES(sectors) \
    (RAID2D_SHEET_BYTES * static_cast<size_t>(sectors))
#else
#define RAID2D_DISKS(rows, columns) \
    (((size_t)(rows) + 1) * ((size_t)(columns) + 1))
#define RAID2D_ARRAY_BYTES(rows, columns, block) \
    (RAID2D_DISKS(rows, columns) * (size_t)(block))
#define RAID2D_MAP_BYTES(rows, columns, sectors) \
    (RAID2D_DISKS(rows, columns) * (size_t)(sectors))
#define RAID2D_SHEETS_BYTES(sectors) \
    (RAID2D_SHEET_BYTES * (size_t)(sectors))
#endif

/* The stripe number of column 0. */
#define RAID2D_COLUMN_STRIPE  16

/* Bytes of a sheet, how many records fit, and the two kinds. */
#define RAID2D_SHEET_BYTES    98
#define RAID2D_SHEET_RECORDS  32
#define RAID2D_SHEET_REPAIRS  1
#define RAID2D_SHEET_CYCLE    2

/* What a call returns. raid2d_strerror has the words. */
enum raid2d_status {
    RAID2D_OK = 0,
    RAID2D_ERR_SIDE = 1,
    RAID2D_ERR_BLOCK = 2,
    RAID2D_ERR_ARRAY_LENGTH = 3,
    RAID2D_ERR_MAP = 4,
    RAID2D_ERR_SHEET_LENGTH = 5,
    RAID2D_FATAL = 6,
    RAID2D_ERR_SURVIVORS = 7,
    RAID2D_ERR_DISK = 8,
    RAID2D_ERR_DATA_LENGTH = 9,
    RAID2D_ERR_CHAIN = 10,
    RAID2D_ERR_REPAIRS = 11,
    RAID2D_ERR_LIMIT = 12,
    RAID2D_ERR_RING = 13,
    RAID2D_ERR_LEFTOVERS = 14,
    RAID2D_ERR_WANTED = 15,
    RAID2D_ERR_SECTOR = 16,
    RAID2D_NOT_SEALED = 64
};

/*
 * raid2d_strerror: a status in words.
 *
 *   status     a status, or any other number
 *
 * Returns a constant string, never NULL: "unknown status" for a number that is
 * no status. This function stands in the header only, since the prover's
 * compiler exports none that returns a pointer: another language needs its
 * own.
 */
static inline const char *raid2d_strerror(uint32_t status)
{
    switch (status) {
    case RAID2D_OK:
        return "success";
    case RAID2D_ERR_SIDE:
        return "rows or columns is not 2 to 15";
    case RAID2D_ERR_BLOCK:
        return "the block's length is not 1 to 4096";
    case RAID2D_ERR_ARRAY_LENGTH:
        return "the array's length is not that of its disks";
    case RAID2D_ERR_MAP:
        return "the map's length is wrong, or a byte is neither 0 nor 1";
    case RAID2D_ERR_SHEET_LENGTH:
        return "the length of the sheets is not 98 for each position";
    case RAID2D_FATAL:
        return "the loss is fatal";
    case RAID2D_ERR_SURVIVORS:
        return "the survivors belong to no sealed array";
    case RAID2D_ERR_DISK:
        return "the disk is not a data disk";
    case RAID2D_ERR_DATA_LENGTH:
        return "the new block's length is not that of a block";
    case RAID2D_ERR_CHAIN:
        return "the sheet's kind is not 1, or its chain leads outside";
    case RAID2D_ERR_REPAIRS:
        return "a repair of the sheet is not allowed, or a disk stays erased";
    case RAID2D_ERR_LIMIT:
        return "the limit of repairs is 0";
    case RAID2D_ERR_RING:
        return "the sheet's chain comes back to a record";
    case RAID2D_ERR_LEFTOVERS:
        return "a byte off the sheet's chain is not zero";
    case RAID2D_ERR_WANTED:
        return "the wanted disk is not in the array, or not erased";
    case RAID2D_ERR_SECTOR:
        return "sector does not divide block, or sectors is not 1 to 4096";
    case RAID2D_NOT_SEALED:
        return "the array is not sealed";
    default:
        return "unknown status";
    }
}

/*
 * raid2d_version_number: the version of the archive, as one number.
 *
 * Returns 10000 times the major version, plus 100 times the minor version,
 * plus the patch: RAID2D_VERSION_NUMBER, if the header that a host was built
 * with and the archive are of one version.
 */
uint32_t raid2d_version_number(void);

/*
 * raid2d_disks, raid2d_array_bytes: how many disks and bytes an array has.
 *
 * Return how many disks an array has, parity disks included, and how many
 * bytes; 0 if rows, columns or block is out of range. A map has sectors bytes
 * for each of the disks.
 */
size_t raid2d_disks(size_t rows, size_t columns);
size_t raid2d_array_bytes(size_t rows, size_t columns, size_t block);

/*
 * raid2d_sheet_kind, raid2d_sheet_first, raid2d_sheet_disk,
 * raid2d_sheet_stripe, raid2d_sheet_next: read a sheet.
 *
 * Records are numbered from 1 to RAID2D_SHEET_RECORDS, and 0 stands for none,
 * so a sheet that the library has written is read by
 *
 *     for (k = raid2d_sheet_first(sheet); k != 0;
 *          k = raid2d_sheet_next(sheet, k))
 *         use(raid2d_sheet_disk(sheet, k), raid2d_sheet_stripe(sheet, k));
 *
 * In a list of repairs the stripe is the one that is summed. In a cycle it is
 * the one that the disk shares with the next disk, the last with the first.
 * Both are at the position that the sheet is for: of sheets, that of position
 * p is sheets + RAID2D_SHEET_BYTES * p.
 *
 *   sheet      the sheet, RAID2D_SHEET_BYTES bytes
 *   record     the number of a record
 *
 * Return the kind, RAID2D_SHEET_REPAIRS or RAID2D_SHEET_CYCLE, or 0 in the
 * zeros that raid2d_rebuild leaves with RAID2D_ERR_SURVIVORS, and raid2d_plan
 * and raid2d_rebuild beside a cycle; the number of the first record, 0 for
 * none; and of a record its disk, its stripe, and the number of the next
 * record, 0 for none. If no record has that number, the last three return 0,
 * which is also a disk and a stripe.
 *
 * A sheet from elsewhere can have any bytes: another kind, on its chain a
 * number that no record has, a chain that comes back to a record and never
 * ends. raid2d_follow and raid2d_tidy refuse such a sheet, and every cycle;
 * the loop above is for what they take. For any other sheet it has to stop at
 * a number above RAID2D_SHEET_RECORDS, and after RAID2D_SHEET_RECORDS records.
 */
size_t raid2d_sheet_kind(const uint8_t *sheet);
size_t raid2d_sheet_first(const uint8_t *sheet);
size_t raid2d_sheet_disk(const uint8_t *sheet, size_t record);
size_t raid2d_sheet_stripe(const uint8_t *sheet, size_t record);
size_t raid2d_sheet_next(const uint8_t *sheet, size_t record);

/*
 * raid2d_seal: fill the parities of an array.
 *
 * Sets each row parity to the sum of its row's data, each column parity to
 * the sum of its column's data, and the superparity to the sum of all row
 * parities. The array is then sealed. However blocks are cut into sectors,
 * each position gets its parities from its own data alone.
 *
 *   Reads      the blocks of the data disks
 *   Writes     the blocks of all other disks, the parities, whatever they
 *              held, with RAID2D_OK
 *   Unchanged  the blocks of the data disks, always
 *
 * Returns the first of these that applies:
 *
 *   RAID2D_ERR_SIDE
 *   RAID2D_ERR_BLOCK
 *   RAID2D_ERR_ARRAY_LENGTH
 *   RAID2D_OK                the array is sealed, its data unchanged
 */
uint32_t raid2d_seal(size_t rows, size_t columns, size_t block,
                     uint8_t *array, size_t array_len);

/*
 * raid2d_check: say whether an array is sealed.
 *
 * Sums every stripe, rows before columns. One damaged byte of a sealed array
 * is on two stripes and shows as its row. Two equal changes at the same place
 * of two disks of a row cancel in the row and show as the lower of the two
 * columns.
 *
 *   stripe     receives the lowest stripe whose sum is not zero
 *
 *   Reads      the whole array
 *   Writes     *stripe with RAID2D_NOT_SEALED, else nothing
 *   Unchanged  the array, always
 *
 * Returns the first of these that applies:
 *
 *   RAID2D_ERR_SIDE
 *   RAID2D_ERR_BLOCK
 *   RAID2D_ERR_ARRAY_LENGTH
 *   RAID2D_NOT_SEALED        some stripe's sum is not zero at some byte
 *                            place; *stripe is the lowest such stripe
 *   RAID2D_OK                the array is sealed
 */
uint32_t raid2d_check(size_t rows, size_t columns, size_t block,
                      const uint8_t *array, size_t array_len,
                      size_t *stripe);

/*
 * raid2d_write: store a new block on a data disk and bring the parities along.
 *
 * The disk's row parity, its column parity and the superparity change by the
 * difference of the old block and the new one. So every stripe's sum stays
 * what it was: a sealed array stays sealed and is then what raid2d_seal makes
 * of the changed data, and damage stays visible to raid2d_check. Overwriting
 * a damaged block moves its damage into the three parities. At a byte place
 * where the new block has the old byte, nothing changes. data must not be a
 * part of array.
 *
 * Do not write to an erased sector, but rebuild or save it first; of a sector
 * that is undetermined raid2d_save says what can be done. Write takes what it
 * finds in the block for the old contents, so that what a later
 * raid2d_rebuild, raid2d_follow or raid2d_save gives is the sum of the sector
 * that was lost, of what was found and of the new one: the new one only where
 * the lost one still stood there. Into a block with erased sectors a host
 * writes the others by giving, at the places of the erased ones, the bytes
 * that stand there in the array. Other disks may be erased, the parities too:
 * the write is right, and what changes in their erased sectors counts for
 * nothing.
 *
 *   disk       the number of a data disk: r * (columns + 1) + c with r < rows
 *              and c < columns
 *   data       the new block
 *   data_len   its length, equal to block
 *
 *   Reads      data, and the blocks of the four disks that it writes
 *   Writes     the blocks of the disk, of its row parity, of its column parity
 *              and of the superparity, with RAID2D_OK
 *   Unchanged  the blocks of all other disks and data, always
 *
 * Returns the first of these that applies:
 *
 *   RAID2D_ERR_SIDE
 *   RAID2D_ERR_BLOCK
 *   RAID2D_ERR_ARRAY_LENGTH
 *   RAID2D_ERR_DISK          disk is a parity disk, the superparity or no
 *                            disk of the grid
 *   RAID2D_ERR_DATA_LENGTH   data_len is not block
 *   RAID2D_OK                the block is stored and its three parities are
 *                            changed
 */
uint32_t raid2d_write(size_t rows, size_t columns, size_t block,
                      uint8_t *array, size_t array_len,
                      size_t disk,
                      const uint8_t *data, size_t data_len);

/*
 * raid2d_look: find the block of a present disk in the array.
 *
 * The block is that very part of the array: block bytes from array + *offset.
 * Any disk of the grid can be looked at, parities too. It is handed out only
 * if all its sectors are present. Of any other disk a host takes what is there
 * by the map: where map[disk * sectors + p] is 0, the sector that begins at
 * array + disk * block + p * sector.
 *
 *   disk       the number of a disk, less than RAID2D_DISKS(rows, columns)
 *   offset     receives where the block begins in the array: disk * block
 *
 *   Reads      the map
 *   Writes     *offset with a result above 0, else nothing
 *   Unchanged  the array and the map, always
 *
 * Returns a length and no status:
 *
 *   0          rows, columns, block, array_len or map_len is wrong, or sector
 *              is 0 or does not divide block, or a byte of the map, wherever
 *              it stands, is neither 0 nor 1, or disk is no disk of the grid,
 *              or a sector of it is erased
 *   block      otherwise; *offset is disk * block
 */
size_t raid2d_look(size_t rows, size_t columns, size_t block,
                   const uint8_t *array, size_t array_len,
                   size_t sector,
                   const uint8_t *map, size_t map_len,
                   size_t disk,
                   size_t *offset);

/*
 * raid2d_plan: say how a loss can be repaired, or why it cannot.
 *
 * The answer follows from rows, columns and the map, and holds for every block
 * that has so many sectors. If the loss is not fatal, the sheet of each
 * position lists the repairs there in plan's order, each erased disk once, and
 * none where no disk is erased.
 *
 * If it is fatal, *position is the lowest fatal position, the sheet of this
 * position lists its shortest cycle, and all other sheets are zero. The disks
 * of the cycle are undetermined there; there can be more of these, up to all
 * of the grid, and determined disks beside them. Other positions can be fatal
 * too: with 1 for sectors and the bytes map[d * sectors + p] of all disks d
 * for a map, the call answers for position p alone. raid2d_save restores what
 * is determined, at every position.
 *
 * Of equally short cycles that is listed whose disk numbers in ascending order
 * come first, compared number by number from the left. With 3 rows and 3
 * columns and the disks 0, 1, 4, 6, 7, 9, 11, 13 and 14 erased there are three
 * cycles, each of six disks: 0 1 4 6 13 14, 0 1 4 7 9 11 and 6 7 9 11 13 14.
 * The first of these is listed.
 *
 *   sheets     receives the repairs of each position, or the cycle of one
 *   count      receives the number of repairs, which is that of the erased
 *              sectors and at most sectors * (rows + columns + 1), or the
 *              number of undetermined disks at *position
 *
 *   Reads      the map
 *   Writes     all sheets and *count with RAID2D_OK and RAID2D_FATAL,
 *              *position with RAID2D_FATAL, else nothing
 *   Unchanged  the map, always
 *
 * Returns the first of these that applies:
 *
 *   RAID2D_ERR_SIDE
 *   RAID2D_ERR_SECTOR        sectors is not RAID2D_SECTORS_MIN to
 *                            RAID2D_SECTORS_MAX
 *   RAID2D_ERR_MAP
 *   RAID2D_ERR_SHEET_LENGTH
 *   RAID2D_FATAL             the loss is fatal; *position is the lowest fatal
 *                            position, its sheet lists its shortest cycle,
 *                            all others are zero; *count is the number of
 *                            undetermined disks there; raid2d_save restores the
 *                            determined ones
 *   RAID2D_OK                the sheets list the repairs, *count is their
 *                            number: none and 0 where no sector is erased
 */
uint32_t raid2d_plan(size_t rows, size_t columns, size_t sectors,
                     const uint8_t *map, size_t map_len,
                     uint8_t *sheets, size_t sheets_len,
                     size_t *count, size_t *position);

/*
 * raid2d_plan_disk: say how the disk that is wanted first can be repaired.
 *
 * The call keeps to one position: its map has a byte for each disk, and there
 * is one sheet. A host with sectors calls it for each position p where the
 * disk is erased, with the bytes map[d * sectors + p] of all disks d as the
 * map.
 *
 * The sheet has the shortest list of allowed repairs that ends with the disk,
 * whatever else is erased, also where the loss is fatal: no shorter one
 * exists. Where a list that ends by the disk's row and one that ends by its
 * column are equally short, it is the one by the row. All shortest lists by
 * one stripe repair the same disks. Those before the last go by lowest number:
 * each step has the lowest-numbered disk still to come in this list that can
 * be repaired then. Just one of its stripes allows that. With 2 rows and 2
 * columns, the disks 1, 2, 3, 4 and 6 erased and disk 4 wanted, these are 6 by
 * stripe 2, 3 by stripe 16 and 4 by stripe 1.
 *
 * The host makes the repairs: for each record it sets the sector of the disk
 * at this position to the sum of those of the other disks of the stripe, and
 * then the disk's byte of the map to 0. Disk d has its sector at
 * array + d * block + p * sector, and its byte of the whole map is byte
 * d * sectors + p. Row s has the disks s * (columns + 1) + k with k up to
 * columns, and column c, which is stripe RAID2D_COLUMN_STRIPE + c, the disks
 * k * (columns + 1) + c with k up to rows. After the last repair, at the last
 * of the positions, raid2d_look hands the disk out. raid2d_follow takes such a
 * sheet, as that of its position, only if the list has every disk that is
 * erased there, and leaves the map as it is.
 *
 * These repairs check nothing. They may come before the turns of
 * raid2d_rebuild or between them, and for one disk after another. The host
 * keeps a copy of the map from before the first repair or turn. In the end it
 * calls raid2d_rebuild, also if nothing is left erased:
 *
 *   - With RAID2D_OK and a map without a byte 1 the array is the only sealed
 *     one with the survivors that there were at first. A damaged survivor
 *     shows as far as raid2d_rebuild says.
 *   - With RAID2D_FATAL array and map are as they were. A loss that is fatal
 *     at first stays fatal, and raid2d_save restores what is determined.
 *   - After RAID2D_ERR_SURVIVORS from raid2d_rebuild or raid2d_save the
 *     sectors repaired may be wrong, those of the wanted disk too, and the host
 *     copies the first map back.
 *
 * As with turns, raid2d_write before the end is not part of this.
 *
 *   map        which disks are erased at this position: every byte 0 or 1
 *   map_len    its length, RAID2D_DISKS(rows, columns)
 *   sheet      receives the repairs or the cycle
 *   disk       the number of the disk that is wanted
 *   count      receives the number of repairs, at least 1 and at most
 *              rows + columns + 1, or the number of undetermined disks
 *
 *   Reads      the map
 *   Writes     the whole sheet and *count with RAID2D_OK and RAID2D_FATAL,
 *              else nothing
 *   Unchanged  the map, always
 *
 * Returns the first of these that applies:
 *
 *   RAID2D_ERR_SIDE
 *   RAID2D_ERR_MAP
 *   RAID2D_ERR_SHEET_LENGTH  sheet_len is not RAID2D_SHEET_BYTES
 *   RAID2D_ERR_WANTED        the array has no disk of that number, or the
 *                            disk is not erased
 *   RAID2D_FATAL             no list of allowed repairs reaches the disk: it
 *                            is in the residual; the sheet and *count are
 *                            those of raid2d_plan for this map, with 1 for
 *                            sectors; the cycle need not hold the disk;
 *                            raid2d_save restores the disk if it is determined
 *   RAID2D_OK                the sheet lists the repairs, that of the disk
 *                            last; *count is their number
 */
uint32_t raid2d_plan_disk(size_t rows, size_t columns,
                          const uint8_t *map, size_t map_len,
                          uint8_t *sheet, size_t sheet_len,
                          size_t disk, size_t *count);

/*
 * raid2d_rebuild: restore erased sectors, at most so many in one turn.
 *
 * Makes the first repairs of raid2d_plan, at most limit, whatever the erased
 * sectors hold, and marks the sectors repaired as present in the map: those of
 * position 0 before those of position 1, and so on. The last turn is the one
 * after which no sector is erased; a turn on a map without a byte 1 is a last
 * turn too. It also checks all stripes at all positions, which limit does not
 * count: it reads each block twice. Nor does limit count that every turn reads
 * the whole map, plans all positions and writes all sheets: with many sectors
 * a small limit takes longer in all. A limit of
 * sectors * (rows + columns + 1) or more, such as SIZE_MAX, makes the first
 * turn the last. A fatal position refuses the whole turn, and nothing is
 * repaired at the other positions either: raid2d_save restores those, and what
 * is determined at the fatal ones.
 *
 * Turns one after another, each on the array and the map that the one before
 * left, make the repairs of raid2d_plan in its order. The host goes on until
 * the map has no byte 1 any more or a turn is refused. If the loss is not
 * fatal and the survivors belong to a sealed array, the last turn leaves that
 * array. A turn is the last if its limit and those of the turns before it add
 * up to the number of sectors erased at first, or more: with f sectors erased
 * and a limit of k there are f / k turns, rounded up, or one where none is
 * erased, and each before the last makes k repairs.
 *
 * This holds if nothing else changes the map or a present sector between the
 * turns. A sector that fails between them is marked in the map; what follows
 * is then the repair of the loss that the map has, which can be fatal though
 * the first was not. raid2d_write between turns is not part of this statement.
 *
 * With RAID2D_OK and a map without a byte 1 the whole array is sealed: it is
 * the only sealed array with the survivors that there were before the first
 * turn. With RAID2D_OK and any other map nothing was checked. A survivor that
 * was damaged shows only where the other survivors contradict it, and in the
 * last turn only; at a position where rows + columns + 1 disks were erased at
 * first no damage shows.
 *
 * So a host that repairs in turns keeps a copy of the map from before the
 * first of them until the last has succeeded. If that one returns
 * RAID2D_ERR_SURVIVORS, the sectors that earlier turns wrote may be wrong,
 * though the map has them as present, and no further turn on this map makes
 * them right. The host copies the first map back: then all these sectors are
 * erased again, and the survivors are as they were. Before it calls again, it
 * erases in the map the survivor that it suspects, as with raid2d_save.
 *
 *   map        which sectors are erased: every byte 0 or 1; the bytes of the
 *              sectors repaired become 0
 *   sheets     receives the repairs of this turn at each position, or the
 *              cycle; after RAID2D_OK, with the map from before this turn,
 *              raid2d_follow makes these repairs if this was the last turn,
 *              and else returns RAID2D_ERR_REPAIRS
 *   limit      the most repairs for this turn, any number from 1 on
 *   count      receives the number of repairs made, at all positions
 *              together, or of undetermined disks, as from raid2d_plan
 *
 *   Reads      the map, and the sectors that are not erased
 *   Writes     the sectors repaired with RAID2D_OK and RAID2D_ERR_SURVIVORS,
 *              their bytes of the map with RAID2D_OK; all sheets with these
 *              and with RAID2D_FATAL; *count with RAID2D_OK and RAID2D_FATAL;
 *              *position with RAID2D_FATAL
 *   Unchanged  all other sectors and their bytes of the map, always
 *
 * Returns the first of these that applies:
 *
 *   RAID2D_ERR_SIDE
 *   RAID2D_ERR_BLOCK
 *   RAID2D_ERR_ARRAY_LENGTH
 *   RAID2D_ERR_SECTOR        sector is 0 or does not divide block
 *   RAID2D_ERR_MAP
 *   RAID2D_ERR_SHEET_LENGTH
 *   RAID2D_ERR_LIMIT
 *   RAID2D_FATAL             the loss is fatal, whatever the survivors hold
 *                            and whatever the limit is; sheets, *count and
 *                            *position are those of raid2d_plan, array and map
 *                            unchanged
 *   RAID2D_ERR_SURVIVORS     this is the last turn, and a stripe's sum is not
 *                            zero at some position: the survivors belong to no
 *                            sealed array; this turn's sectors, at every
 *                            position, and all sheets are zero, the map and
 *                            *count unchanged
 *   RAID2D_OK                the sheets list the repairs of this turn, *count
 *                            is their number: none and 0 where no sector is
 *                            erased
 */
uint32_t raid2d_rebuild(size_t rows, size_t columns, size_t block,
                        uint8_t *array, size_t array_len,
                        size_t sector,
                        uint8_t *map, size_t map_len,
                        uint8_t *sheets, size_t sheets_len,
                        size_t limit,
                        size_t *count, size_t *position);

/*
 * raid2d_follow: restore all erased sectors by given lists.
 *
 * Makes the repairs of each sheet at its position, in the order of its chain,
 * whatever the erased sectors hold, and then checks all stripes. Any list will
 * do in which each repair is allowed at its step and after which no disk is
 * erased at the position: it need not be that of raid2d_plan, and its chain
 * may visit the records in any order. A position where no disk is erased needs
 * an empty list, as raid2d_plan writes it: the byte RAID2D_SHEET_REPAIRS and
 * zeros behind it. A sheet of zeros is no list, and is refused by
 * RAID2D_ERR_CHAIN. The array is then what raid2d_rebuild makes of it in one
 * turn with a limit that allows all repairs. A fatal loss has no such lists: it
 * gets RAID2D_ERR_REPAIRS where no status before that applies, and never
 * RAID2D_FATAL. All sheets are judged as a whole before any sector is changed,
 * and by one status after another: each of those below is tried on the sheets
 * of all positions before the next. The map is not cleared.
 *
 * A sheet that is not zero off its chain is refused: another reader may take
 * what stands there for repairs. A host that knows from the sender that only
 * the chain counts calls raid2d_tidy first, for each sheet, and follow then
 * judges just what they list. Every status but RAID2D_ERR_SURVIVORS follows
 * from the numbers, the map and the sheets: follow on an array of zeros, with
 * a sector of 1 and a block of as many bytes as there are sectors, tells
 * whether sheets will do, before they are followed on the array itself.
 *
 *   sheets     the repairs of each position, each disk erased there once
 *   count      receives the number of repairs, which is that of the erased
 *              sectors
 *
 *   Reads      the map, the sheets, and the sectors that are not erased
 *   Writes     the erased sectors with RAID2D_OK and RAID2D_ERR_SURVIVORS;
 *              *count with RAID2D_OK
 *   Unchanged  all other sectors, the map and the sheets, always
 *
 * Returns the first of these that applies:
 *
 *   RAID2D_ERR_SIDE
 *   RAID2D_ERR_BLOCK
 *   RAID2D_ERR_ARRAY_LENGTH
 *   RAID2D_ERR_SECTOR        sector is 0 or does not divide block
 *   RAID2D_ERR_MAP
 *   RAID2D_ERR_SHEET_LENGTH
 *   RAID2D_ERR_CHAIN         of some sheet the kind is not 1, or a number on
 *                            the chain, of the first record or of a next one,
 *                            is above 32
 *   RAID2D_ERR_RING          some chain reaches a record twice, and so never
 *                            ends
 *   RAID2D_ERR_LEFTOVERS     a byte off the chain of some sheet is not zero
 *   RAID2D_ERR_REPAIRS       a repair is not allowed at its step: its disk is
 *                            not in the grid, is not erased at the position or
 *                            was repaired before, its stripe does not go
 *                            through the disk, or another disk of the stripe
 *                            is still erased; or a disk is still erased at the
 *                            end
 *   RAID2D_ERR_SURVIVORS     the survivors belong to no sealed array, also
 *                            where no sector is erased; the erased sectors of
 *                            all positions are zero, *count unchanged
 *   RAID2D_OK                the erased sectors are restored; *count is the
 *                            number of repairs: 0 where no sector is erased
 */
uint32_t raid2d_follow(size_t rows, size_t columns, size_t block,
                       uint8_t *array, size_t array_len,
                       size_t sector,
                       const uint8_t *map, size_t map_len,
                       const uint8_t *sheets, size_t sheets_len,
                       size_t *count);

/*
 * raid2d_tidy: rewrite a list of repairs in its tidy form.
 *
 * The records of the chain become the records 1, 2, 3 and so on, in the
 * chain's order, and every byte behind them becomes zero: what stood off the
 * chain is lost. The disks and stripes that the chain lists stay, in their
 * order, and are not judged: any numbers will do. Two sheets that are taken
 * have the same tidy form exactly if they list the same disks and stripes in
 * the same order, so that comparing bytes then compares lists, whatever rows,
 * columns and position they are for. A sheet that is tidy keeps its bytes.
 * Tidying a copy tells, without an array, whether a sheet is a list of
 * repairs. The call takes one sheet; of several, that of position p begins at
 * sheets + RAID2D_SHEET_BYTES * p.
 *
 *   sheet      a list of repairs, which becomes tidy
 *
 *   Reads      the sheet
 *   Writes     the whole sheet with RAID2D_OK, else nothing
 *
 * Returns the first of these that applies:
 *
 *   RAID2D_ERR_SHEET_LENGTH  sheet_len is not RAID2D_SHEET_BYTES
 *   RAID2D_ERR_CHAIN         the kind is not 1, as that of a cycle, or a
 *                            number on the chain, of the first record or of a
 *                            next one, is above 32
 *   RAID2D_ERR_RING          the chain reaches a record twice, and so never
 *                            ends
 *   RAID2D_OK                the sheet is tidy
 */
uint32_t raid2d_tidy(uint8_t *sheet, size_t sheet_len);

/*
 * raid2d_save: restore every erased sector that the survivors determine.
 *
 * This is for a fatal loss, of which raid2d_rebuild restores nothing. If the
 * survivors belong to a sealed array, each determined sector gets the bytes
 * that it has there, whatever the erased sectors hold, and each undetermined
 * sector keeps its bytes: RAID2D_OK does not say that every sector is back.
 * Where no repair reaches a determined sector, it is a sum over disks of
 * several stripes, at its position; SPECIFICATION.md has these sums. Survivors
 * can belong to several sealed arrays: these have the same bytes in each
 * determined sector. A loss that is not fatal has no undetermined sector:
 * status, array and count are then those of raid2d_rebuild in one turn with a
 * limit that allows all repairs.
 *
 * If the survivors belong to no sealed array, all erased sectors become zero,
 * at every position, also the undetermined ones: a host that may still want
 * what stands there keeps a copy. The survivors and the map are as they were;
 * a host that suspects a survivor erases it in the map too and calls again.
 * One damaged survivor does not show exactly if erased disks at its position
 * lead from its row to its column: the first in its row, the last in its
 * column, each sharing a stripe with the next. A sector whose sum takes it in
 * is then saved wrong.
 *
 * The map is only read, and the host marks the saved sectors as present
 * itself. If *count is the number of erased sectors, all were saved. Otherwise
 * the loss is fatal, and the others are undetermined. raid2d_plan tells which:
 * with 1 for sectors and the map of one position it counts the undetermined
 * disks there, with RAID2D_FATAL, and there are none with RAID2D_OK. A disk
 * that is erased there is determined exactly if this number stays what it is
 * where the byte of that disk alone is set to 0. So this marks the saved
 * sectors of any loss in the map, after RAID2D_OK, with disks for
 * RAID2D_DISKS(rows, columns), a buffer one of as many bytes, one sheet, and
 * size_t for all else:
 *
 *     for (p = 0; p < sectors; p++) {
 *         for (d = 0; d < disks; d++)
 *             one[d] = map[d * sectors + p];
 *         if (raid2d_plan(rows, columns, 1, one, disks, sheet, sheet_len,
 *                         &all, &at) != RAID2D_FATAL)
 *             all = 0;
 *         for (d = 0; d < disks; d++)
 *             if (one[d] == 1) {
 *                 one[d] = 0;
 *                 if (raid2d_plan(rows, columns, 1, one, disks, sheet,
 *                                 sheet_len, &now, &at) != RAID2D_FATAL)
 *                     now = 0;
 *                 one[d] = now != all;
 *                 map[d * sectors + p] = one[d];
 *             }
 *     }
 *
 * An undetermined sector is not to be marked as present, unless its true bytes
 * were put back, as from a backup. Any bytes in one such sector fit the
 * survivors: no call can see that they are wrong, and other sectors would be
 * restored by them. After true bytes were put back and marked, raid2d_plan
 * says whether the loss is still fatal, and raid2d_save or raid2d_rebuild
 * restores what is determined then. To go on without them, a host, after
 * RAID2D_OK, copies new bytes into the undetermined sectors of data disks,
 * calls raid2d_seal and clears the map. The parities are then those of the new
 * data: true bytes that are found later restore no others.
 *
 *   count      receives the number of sectors saved: of determined sectors
 *
 *   Reads      the map, and the sectors that are not erased
 *   Writes     the determined sectors with RAID2D_OK, all erased sectors with
 *              RAID2D_ERR_SURVIVORS; *count with RAID2D_OK
 *   Unchanged  all other sectors and the map, always
 *
 * Returns the first of these that applies:
 *
 *   RAID2D_ERR_SIDE
 *   RAID2D_ERR_BLOCK
 *   RAID2D_ERR_ARRAY_LENGTH
 *   RAID2D_ERR_SECTOR        sector is 0 or does not divide block
 *   RAID2D_ERR_MAP
 *   RAID2D_ERR_SURVIVORS     the survivors belong to no sealed array, also
 *                            where no sector is erased; all erased sectors, at
 *                            every position, are zero, also the undetermined
 *                            ones, *count unchanged
 *   RAID2D_OK                the determined sectors are restored; *count is
 *                            their number: 0 where every erased sector is
 *                            undetermined, or none is erased
 */
uint32_t raid2d_save(size_t rows, size_t columns, size_t block,
                     uint8_t *array, size_t array_len,
                     size_t sector,
                     const uint8_t *map, size_t map_len,
                     size_t *count);

#ifdef __cplusplus
}
#endif

#endif /* RAID2D_H */
