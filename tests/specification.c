/*
 * Runs worked examples on the archive. They come on standard input as
 * docs/SPECIFICATION.md has them, without their indent and with an empty line
 * behind each:
 *
 *     CALL     rows N, columns N, block N, sector N, disk N, limit N, record N
 *     array    bytes that are lent; likewise map, data and sheet
 *     returns  N, count N, position N
 *     array    bytes afterwards; what is not named here keeps its bytes
 *
 * Of the numbers those that the call does not take are left out; plan takes
 * `sectors N`. A sector that is not named is a whole block, and the number of
 * sectors 1. The out-parameter is called count, stripe or offset, that of plan
 * and rebuild beside it position; each keeps its value where it is not named.
 * `..` repeats the byte before it up to the buffer's right length. Each
 * position has a line `sheet` of its own, in their order, and `..` goes to the
 * end of that sheet. Sheets that are not given are lent with arbitrary bytes.
 * The last line counts the examples.
 */
#include <stdio.h>
#include <stdlib.h>
#include <string.h>

#include "raid2d.h"

enum { LINE_MAX_BYTES = 8192, BYTES_MAX = 2048, ARBITRARY = 0xaa };

/* What an out-parameter holds before each call. */
#define OUT_BEFORE 123456789u

enum { ARRAY, MAP, DATA, SHEET, BUFFERS };

static const char *const buffer_names[BUFFERS] = {
    "array", "map", "data", "sheet"
};

struct buffer {
    uint8_t bytes[BYTES_MAX], expected[BYTES_MAX];
    size_t len;
};

struct example {
    char call[16];
    size_t rows, columns, block, sector, sectors, disk, limit, record;
    struct buffer buffers[BUFFERS];
    size_t sheets; /* how many lines `sheet` there were, before and after */
    int returned;  /* whether the line `returns` has been read */
    size_t result, out, position;
};

static void stop(const char *why, const char *line)
{
    printf("FAILED: %s: %s\n0 passed, 1 failed\n", why, line);
    exit(1);
}

/* The length that a buffer should have, or one sheet. */
static size_t right_length(const struct example *e, int buffer)
{
    switch (buffer) {
    case ARRAY:
        return RAID2D_ARRAY_BYTES(e->rows, e->columns, e->block);
    case MAP:
        return RAID2D_MAP_BYTES(e->rows, e->columns, e->sectors);
    case DATA:
        return e->block;
    default:
        return RAID2D_SHEET_BYTES;
    }
}

/* The number behind a name such as `rows` in a line, or a default. */
static size_t number(const char *line, const char *name, size_t otherwise)
{
    const char *at = line;
    size_t length = strlen(name);

    while ((at = strstr(at, name)) != NULL) {
        if ((at == line || at[-1] == ' ') && at[length] == ' ')
            return strtoul(at + length, NULL, 10);
        at++;
    }
    return otherwise;
}

/* Bytes in decimal, and `..` for more of the last. Returns how many. */
static size_t read_bytes(const char *line, uint8_t *bytes, size_t right)
{
    size_t len = 0;
    const char *at = line + strcspn(line, " ");

    for (at += strspn(at, " "); *at != '\0'; at += strspn(at, " ")) {
        char *end;
        unsigned long byte = strtoul(at, &end, 10);

        if (strcmp(at, "..") == 0 && len > 0 && right <= BYTES_MAX) {
            for (; len < right; len++)
                bytes[len] = bytes[len - 1];
            return len;
        }
        if (end == at || byte > 255 || len == BYTES_MAX)
            stop("not a list of bytes", line);
        bytes[len++] = (uint8_t)byte;
        at = end;
    }
    return len;
}

/* The next sheet. Before the call the first one sets the length to its own, and
   each further one adds to it. */
static void read_sheet(struct example *e, const char *line)
{
    struct buffer *b = &e->buffers[SHEET];
    size_t at = e->sheets++ * RAID2D_SHEET_BYTES;
    uint8_t *bytes = e->returned ? b->expected : b->bytes;
    uint8_t sheet[BYTES_MAX];
    size_t length = read_bytes(line, sheet, RAID2D_SHEET_BYTES);

    if (at + length > (e->returned ? b->len : BYTES_MAX))
        stop("more sheets than there is room for", line);
    if (e->returned && length < RAID2D_SHEET_BYTES && at + length < b->len)
        stop("less than a sheet", line);
    memcpy(bytes + at, sheet, length);
    if (!e->returned) {
        b->len = at + length;
        memcpy(b->expected, b->bytes, b->len);
    }
}

static void read_buffer(struct example *e, int which, const char *line)
{
    struct buffer *b = &e->buffers[which];

    if (which == SHEET)
        read_sheet(e, line);
    else if (!e->returned) {
        b->len = read_bytes(line, b->bytes, right_length(e, which));
        memcpy(b->expected, b->bytes, b->len);
    } else if (read_bytes(line, b->expected, b->len) != b->len)
        stop("another length than before", line);
}

/* How many sectors the numbers ask for: 1 where they ask for none. */
static size_t sectors_of(const struct example *e, const char *line)
{
    if (strcmp(e->call, "plan") == 0)
        return number(line, "sectors", 1);
    return e->sector > 0 && e->sector <= e->block ? e->block / e->sector : 1;
}

/* The first line of an example. */
static void read_call(struct example *e, const char *line)
{
    struct buffer *sheets = &e->buffers[SHEET];

    sscanf(line, "%15s", e->call);
    e->rows = number(line, "rows", 0);
    e->columns = number(line, "columns", 0);
    e->block = number(line, "block", 0);
    e->sector = number(line, "sector", e->block);
    e->sectors = sectors_of(e, line);
    e->disk = number(line, "disk", 0);
    e->limit = number(line, "limit", 0);
    e->record = number(line, "record", 0);
    sheets->len = RAID2D_SHEETS_BYTES(e->sectors > 0 ? e->sectors : 1);
    if (sheets->len > BYTES_MAX)
        sheets->len = RAID2D_SHEET_BYTES;
    memset(sheets->bytes, ARBITRARY, BYTES_MAX);
    memset(sheets->expected, ARBITRARY, BYTES_MAX);
}

/* One line of an example. The first has the call. */
static void read_line(struct example *e, const char *line)
{
    int i;

    if (e->call[0] == '\0') {
        read_call(e, line);
        return;
    }
    if (strncmp(line, "returns ", 8) == 0) {
        e->returned = 1;
        e->sheets = 0;
        e->result = number(line, "returns", 0);
        e->out = number(line, "count", number(line, "stripe",
                        number(line, "offset", OUT_BEFORE)));
        e->position = number(line, "position", OUT_BEFORE);
        return;
    }
    for (i = 0; i < BUFFERS; i++) {
        size_t length = strlen(buffer_names[i]);

        if (strncmp(line, buffer_names[i], length) == 0 && line[length] == ' ') {
            read_buffer(e, i, line);
            return;
        }
    }
    stop("not a line of an example", line);
}

/* The calls that have no buffer but a sheet to read, or none. */
static size_t run_small(const struct example *e)
{
    const uint8_t *sheet = e->buffers[SHEET].bytes;

    if (strcmp(e->call, "disks") == 0)
        return raid2d_disks(e->rows, e->columns);
    if (strcmp(e->call, "array_bytes") == 0)
        return raid2d_array_bytes(e->rows, e->columns, e->block);
    if (strcmp(e->call, "sheet_kind") == 0)
        return raid2d_sheet_kind(sheet);
    if (strcmp(e->call, "sheet_first") == 0)
        return raid2d_sheet_first(sheet);
    if (strcmp(e->call, "sheet_disk") == 0)
        return raid2d_sheet_disk(sheet, e->record);
    if (strcmp(e->call, "sheet_stripe") == 0)
        return raid2d_sheet_stripe(sheet, e->record);
    if (strcmp(e->call, "sheet_next") == 0)
        return raid2d_sheet_next(sheet, e->record);
    stop("not a call", e->call);
    return 0;
}

/* The calls that write a sheet and take no array. */
static size_t run_sheet(struct example *e, size_t *out, size_t *position)
{
    uint8_t *map = e->buffers[MAP].bytes, *sheet = e->buffers[SHEET].bytes;
    size_t map_len = e->buffers[MAP].len, sheet_len = e->buffers[SHEET].len;

    if (strcmp(e->call, "plan") == 0)
        return raid2d_plan(e->rows, e->columns, e->sectors, map, map_len,
                           sheet, sheet_len, out, position);
    if (strcmp(e->call, "plan_disk") == 0)
        return raid2d_plan_disk(e->rows, e->columns, map, map_len,
                                sheet, sheet_len, e->disk, out);
    if (strcmp(e->call, "tidy") == 0)
        return raid2d_tidy(sheet, sheet_len);
    return run_small(e);
}

static size_t run(struct example *e, size_t *out, size_t *position)
{
    size_t rows = e->rows, columns = e->columns, block = e->block;
    size_t sector = e->sector;
    uint8_t *array = e->buffers[ARRAY].bytes, *map = e->buffers[MAP].bytes;
    uint8_t *data = e->buffers[DATA].bytes, *sheet = e->buffers[SHEET].bytes;
    size_t array_len = e->buffers[ARRAY].len, map_len = e->buffers[MAP].len;
    size_t data_len = e->buffers[DATA].len, sheet_len = e->buffers[SHEET].len;

    if (strcmp(e->call, "seal") == 0)
        return raid2d_seal(rows, columns, block, array, array_len);
    if (strcmp(e->call, "check") == 0)
        return raid2d_check(rows, columns, block, array, array_len, out);
    if (strcmp(e->call, "write") == 0)
        return raid2d_write(rows, columns, block, array, array_len, e->disk,
                            data, data_len);
    if (strcmp(e->call, "look") == 0)
        return raid2d_look(rows, columns, block, array, array_len, sector,
                           map, map_len, e->disk, out);
    if (strcmp(e->call, "rebuild") == 0)
        return raid2d_rebuild(rows, columns, block, array, array_len, sector,
                              map, map_len, sheet, sheet_len, e->limit, out,
                              position);
    if (strcmp(e->call, "follow") == 0)
        return raid2d_follow(rows, columns, block, array, array_len, sector,
                             map, map_len, sheet, sheet_len, out);
    if (strcmp(e->call, "save") == 0)
        return raid2d_save(rows, columns, block, array, array_len, sector,
                           map, map_len, out);
    return run_sheet(e, out, position);
}

/* Whether the call answers and leaves what the example says. */
static int holds(struct example *e, unsigned number)
{
    size_t out = OUT_BEFORE, position = OUT_BEFORE, i;
    size_t result = run(e, &out, &position);
    int good = e->returned && result == e->result && out == e->out
               && position == e->position;

    if (!good)
        printf("FAILED: example %u, %s: returns %zu, out-parameter %zu, "
               "position %zu\n", number, e->call, result, out, position);
    for (i = 0; i < BUFFERS; i++) {
        struct buffer *b = &e->buffers[i];
        size_t k;

        if (memcmp(b->bytes, b->expected, b->len) == 0)
            continue;
        good = 0;
        printf("FAILED: example %u, %s: %s", number, e->call, buffer_names[i]);
        for (k = 0; k < b->len; k++)
            printf(" %u", (unsigned)b->bytes[k]);
        printf("\n");
    }
    return good;
}

int main(void)
{
    static struct example example;
    static char line[LINE_MAX_BYTES];
    unsigned passed = 0, failed = 0;

    while (fgets(line, sizeof line, stdin) != NULL) {
        size_t length = strcspn(line, "\n");

        while (length > 0 && line[length - 1] == ' ')
            length--;
        line[length] = '\0';
        if (length > 0)
            read_line(&example, line);
        else if (example.call[0] != '\0') {
            if (holds(&example, passed + failed + 1))
                passed++;
            else
                failed++;
            memset(&example, 0, sizeof example);
        }
    }
    printf("%u passed, %u failed\n", passed, failed);
    return failed != 0 || passed == 0;
}
