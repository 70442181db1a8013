/*
 * The loop that the sheet of a fatal loss shows, by the order's words: the
 * shortest among the erased disks, and of equal ones that whose disk numbers in
 * ascending order come first, compared number by number from the left. All
 * loops are tried, length by length. The C tests, the fuzzer's model and the
 * wrong archives share this.
 */
#ifndef LOOP_H
#define LOOP_H

#include <stddef.h>
#include <stdint.h>

/* A loop has two disks on each stripe that it touches, and no grid has more
   than 16 rows. */
enum { LOOP_LEAST = 4, LOOP_MOST = 32 };

/* The disks in the order of the listing: the lowest first, from there along its
   row to the second, along a column to the third, and so on. */
struct loop {
    size_t length;
    size_t disk[LOOP_MOST];
};

/* A grid, given by its data rows and data columns, and which of its disks are
   erased at one position, a byte for each. */
struct loss_at {
    size_t rows, columns;
    const uint8_t *map;
};

/* What is called for each loop that is found. */
typedef void loop_visit(const struct loop *loop, void *kept);

/* Calls `visit` for every loop of so many erased disks that begins with this
   one. */
void each_loop_from(const struct loss_at *loss, size_t first, size_t length,
                    loop_visit *visit, void *kept);

/* The numbers of a loop's disks in ascending order. */
void ascending(const struct loop *loop, size_t numbers[LOOP_MOST]);

/* One of two loops of equal length comes before the other. */
int comes_first(const struct loop *one, const struct loop *two);

/* The loop that is shown. Its length is 0 where the loss has no loop: then it
   is not fatal. */
struct loop smallest_loop(const struct loss_at *loss);

/* The three other corners of a rectangle with this disk are erased. Losses of
   many disks whose shortest loops are longer are made by this. */
int closes_rectangle(const struct loss_at *loss, size_t disk);

/* The sheet that lists a loop, all 98 bytes. */
void list_loop(const struct loss_at *loss, const struct loop *loop,
               uint8_t *sheet);

#endif
