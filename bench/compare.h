/* Compares the results of every peer with the library's. */
#ifndef COMPARE_H
#define COMPARE_H

#include "calls.h"

/* Whether all agree, byte for byte; the first difference is printed. A time means nothing where they do not. */
int peers_agree(void);

/* The same for one call at its sizes. */
int call_agrees(const struct call *call);

/* The array before the calls, and after the first; and the sheet and the map as the first leaves them. */
struct expected {
    uint8_t *before, *after;
    uint8_t sheet[SHEET_BYTES], map[DISKS_MAX];
};

void expected_open(struct expected *expected);
void expected_close(struct expected *expected);

/* Whether another call gives what a first one does on a prepared input, whose array is then as it was. Of a fatal loss
   they may show different loops. */
int calls_agree(const struct call *first, const struct call *other, struct input *input, struct expected *expected);

#endif
