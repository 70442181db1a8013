#include "tidied.h"
#include "guards.h"
#include "raid2d.h"
#include "random.h"
#include "sheet.h"
#include "timing.h"

#include <stdio.h>

enum { RECORDS = RAID2D_SHEET_RECORDS };

/* The sheets that are timed: so many records, in a tidy sheet or scattered in another one with the same list. */
static const struct kind {
    size_t records;
    int scattered;
} kinds[] = {{0, 0}, {0, 1}, {5, 0}, {5, 1}, {31, 0}, {31, 1}};

/* Tidy may take so many times the time of the plain loop. */
static const double MOST = 1.7;

static uint8_t random_byte(void)
{
    static uint64_t state = 88172645463325252u;
    return (uint8_t)next_random(&state);
}

/* A tidy sheet with any disks and stripes. */
static void draw_tidy(size_t records, uint8_t *sheet)
{
    put_kind(sheet, SHEET_BYTES, REPAIRS);
    for (size_t k = 0; k < records; k++)
        put_record(sheet, k, random_byte(), random_byte());
}

/* The numbers of all records in some order. */
static void draw_numbers(uint8_t numbers[RECORDS])
{
    for (size_t k = 0; k < RECORDS; k++) {
        size_t other = random_byte() % (k + 1);
        numbers[k] = numbers[other];
        numbers[other] = (uint8_t)(k + 1);
    }
}

/* A sheet with the list of a tidy one: its records stand at any places, and any bytes off the chain. */
static void scatter(const uint8_t *tidy, size_t records, uint8_t *sheet)
{
    uint8_t numbers[RECORDS + 1];
    draw_numbers(numbers);
    numbers[records] = 0;
    for (size_t i = 0; i < SHEET_BYTES; i++)
        sheet[i] = random_byte();
    sheet[0] = REPAIRS;
    sheet[1] = numbers[0];
    for (size_t k = 0; k < records; k++) {
        sheet[3 * numbers[k] - 1] = (uint8_t)disk_of(tidy, k);
        sheet[3 * numbers[k]] = (uint8_t)stripe_of(tidy, k);
        sheet[3 * numbers[k] + 1] = numbers[k + 1];
    }
}

/* Whether the library and the plain loop give this status for a sheet, and leave these bytes. */
static int both_give(const uint8_t *sheet, uint32_t status, const uint8_t *bytes)
{
    uint8_t library[SHEET_BYTES], plain[SHEET_BYTES];
    memcpy(library, sheet, SHEET_BYTES);
    memcpy(plain, sheet, SHEET_BYTES);
    return raid2d_tidy(library, SHEET_BYTES) == status && memcmp(library, bytes, SHEET_BYTES) == 0
        && plain_tidy(plain, SHEET_BYTES) == status && memcmp(plain, bytes, SHEET_BYTES) == 0;
}

/* Whether both refuse a sheet after one byte of it is set to another value, and leave it. The byte is then put back. */
static int both_refuse(uint8_t *sheet, uint8_t *byte, uint8_t value, uint32_t status)
{
    uint8_t before = *byte;
    int refused;
    *byte = value;
    refused = both_give(sheet, status, sheet);
    *byte = before;
    return refused;
}

/* The byte with the number of record k of the chain, counted from 0, or with the 0 that ends it. */
static uint8_t *number_of(uint8_t *sheet, size_t k)
{
    uint8_t *number = sheet + 1;
    while (k-- > 0)
        number = sheet + 3 * *number + 1;
    return number;
}

static int both_refuse_other_kinds(uint8_t *sheet)
{
    return both_refuse(sheet, sheet, 0, RAID2D_ERR_CHAIN) && both_refuse(sheet, sheet, LOOP, RAID2D_ERR_CHAIN)
        && both_refuse(sheet, sheet, 255, RAID2D_ERR_CHAIN);
}

/* A number above 32 at each place of the chain. */
static int both_refuse_numbers(uint8_t *sheet, size_t records)
{
    int refused = 1;
    for (size_t k = 0; k <= records; k++)
        refused = refused && both_refuse(sheet, number_of(sheet, k), RECORDS + 1, RAID2D_ERR_CHAIN)
               && both_refuse(sheet, number_of(sheet, k), random_byte() | 64, RAID2D_ERR_CHAIN);
    return refused;
}

/* The end of the chain led back to each record of it. */
static int both_refuse_rings(uint8_t *sheet, size_t records)
{
    int refused = 1;
    for (size_t k = 0; k < records; k++)
        refused = refused && both_refuse(sheet, number_of(sheet, records), *number_of(sheet, k), RAID2D_ERR_RING);
    return refused;
}

/* Tidy and scattered sheets with one list, and ones that are refused. */
static int list_agrees(size_t records)
{
    uint8_t tidy[SHEET_BYTES], sheet[SHEET_BYTES];
    draw_tidy(records, tidy);
    scatter(tidy, records, sheet);
    return both_give(tidy, RAID2D_OK, tidy) && both_give(sheet, RAID2D_OK, tidy) && both_refuse_other_kinds(sheet)
        && both_refuse_numbers(sheet, records) && both_refuse_rings(sheet, records);
}

int tidy_agrees(void)
{
    enum { LISTS = 100 };
    int agrees = 1;
    for (size_t records = 0; records <= RECORDS; records++)
        for (size_t i = 0; i < LISTS; i++)
            agrees = agrees && list_agrees(records);
    if (!agrees)
        puts("DIFFERENT: tidy and the plain loop, or one of them from what it should give.");
    return agrees;
}

/* The sheet that is timed. */
static uint8_t given[SHEET_BYTES];

/* Tidy changes its sheet, so that every call is lent a copy, and the copying is timed with the call. */
static void run_copy(const struct peer *peer, struct input *input)
{
    (void)peer;
    memcpy(input->sheet, given, SHEET_BYTES);
}

static void run_tidy(const struct peer *peer, struct input *input)
{
    run_copy(peer, input);
    input->status = raid2d_tidy(input->sheet, SHEET_BYTES);
}

static void run_plain(const struct peer *peer, struct input *input)
{
    run_copy(peer, input);
    input->status = plain_tidy(input->sheet, SHEET_BYTES);
}

static void draw_given(const struct kind *kind)
{
    uint8_t list[SHEET_BYTES];
    draw_tidy(kind->records, list);
    memcpy(given, list, SHEET_BYTES);
    if (kind->scattered)
        scatter(list, kind->records, given);
}

static const struct call tidy = {.name = "tidy", .run = run_tidy};
static const struct call plain = {.name = "plain", .run = run_plain};
static const struct call copy = {.name = "copy", .run = run_copy};

/* The time of tidy over that of the plain loop. */
static double tidy_over_plain(struct input *input)
{
    const struct call *both[] = {&tidy, &plain};
    double medians[2];
    time_calls(both, 2, input, medians);
    return medians[0] / medians[1];
}

static void print_time(const char *title, const char *what, const struct call *call, struct input *input)
{
    printf("%-28s %-28s %6.1f ns\n", title, what, time_call(call, input));
}

/* Compares and times on one sheet. */
static int compare_on(const struct kind *kind, struct input *input)
{
    char title[TITLE_MAX];
    int warnings;
    draw_given(kind);
    snprintf(title, sizeof title, "tidy    %2zu %srecords", kind->records, kind->scattered ? "scattered " : "");
    warnings = judge_titled(title, "tidy / plain loop", tidy_over_plain(input), MOST);
    print_time(title, "tidy", &tidy, input);
    return warnings;
}

int compare_tidy(struct input *input)
{
    int warnings = 0;
    puts("Tidy: over a plain loop in C, on tidy sheets and on such whose records are scattered among other bytes.");
    puts("It changes its sheet: so a copy of the sheet is timed with each call.");
    for (size_t i = 0; i < sizeof kinds / sizeof *kinds; i++)
        warnings += compare_on(&kinds[i], input);
    print_time("tidy", "the copy alone", &copy, input);
    return warnings;
}
