/*
 * Chains of sheets: what is on them and off them, and what tidy makes of them.
 * The tests of tidy and of the calls that write or read a sheet share this.
 */
#ifndef CHAIN_H
#define CHAIN_H

#include "loss.h"

/* What the chain of a sheet lists, up to its end, a number that no record has
   or a record that it comes back to. */
struct repairs listed_on(const uint8_t *sheet);

/* Which bytes of a sheet are on that chain: 1 for these, else 0. */
void mark_chain(const uint8_t *sheet, uint8_t on[RAID2D_SHEET_BYTES]);

/* All others become this. */
void set_off_chain(uint8_t *sheet, uint8_t byte);

/* Tidy on such a sheet answers this and leaves that. A sheet that is taken then
   stays as it is when tidied again. */
void expect_tidy(const uint8_t *sheet, size_t status, const uint8_t *after,
                 const char *what);

/* The same for the sheet of a call of follow, which may go on with it. Where
   tidy does not refuse, the sheet lists these repairs. */
void expect_tidied(struct call *follow, size_t status,
                   const struct repairs *list, const char *what);

#endif
