/* The smallest loop of a fatal loss, for the peers in C: the shortest, and of equal ones that whose disk numbers in
   ascending order come first. */
#ifndef LOOP_H
#define LOOP_H

#include "peer.h"

/* Writes it into the sheet. Here the disks that are left have a byte each, 0 for all others. */
void put_loop_plain(size_t columns, const uint8_t *left, size_t disks, uint8_t *sheet, size_t sheet_len);

/* The same with the words of these disks, which may be used up: disk by disk, as the library does, or row by row. */
typedef void put_loop_call(size_t columns, uint32_t others[STRIPES], uint8_t *sheet, size_t sheet_len);
put_loop_call put_loop_tuned, put_loop_rows;

#endif
