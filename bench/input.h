/* What the calls are made on: a size, buffers for it, and the results of the last call. */
#ifndef INPUT_H
#define INPUT_H

#include <stddef.h>
#include <stdint.h>

struct size {
    size_t rows, columns, block;
    /* Which map of maps.h is timed. */
    size_t map;
};

enum { SHEET_BYTES = 98 };

struct input {
    struct size size;
    /* Bytes in the array, and in the map. */
    size_t bytes, disks;
    uint8_t *array, *map;
    /* The copy of the map that rebuild is lent, in which it marks its repairs, and its limit. */
    uint8_t *lent;
    size_t limit;
    /* The new block of a write, and its disk, or the disk that a plan is for. */
    uint8_t *data;
    size_t disk;
    /* What the last call returned and gave. */
    uint32_t status;
    size_t stripe, count;
    uint8_t *sheet;
};

/* Buffers for the largest size, aligned to 64 bytes; the program ends where there is no memory. */
void input_open(struct input *input);
void input_close(struct input *input);

/* Takes a size, fills the array and the new block with random bytes, and draws the map. The limit is the largest. */
void input_resize(struct input *input, struct size size);
void input_fill(struct input *input);

/* Fills the blocks of erased disks with random bytes. */
void input_spoil(struct input *input);

/* Memory for one largest array, and the smaller buffers behind it, aligned to 64 bytes. */
uint8_t *largest_array(void);

/* So many bytes of memory, aligned likewise. */
uint8_t *take_space(size_t bytes);

#endif
