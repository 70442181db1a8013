#define _POSIX_C_SOURCE 200112L

#include "input.h"
#include "maps.h"
#include "peer.h"
#include "random.h"

#include <stdio.h>
#include <stdlib.h>

/* The bytes of the largest array. */
enum { LARGEST = DISKS_MAX * BLOCK_MAX };

/* The other buffers stand behind the array at fixed distances, the new block at no multiple of a block: where buffers
   stand modulo the page decides speed too, and must be the same in every run. */
enum {
    DATA_DISTANCE = LARGEST + 2048 + 64,
    MAP_DISTANCE = DATA_DISTANCE + BLOCK_MAX + 64,
    SHEET_DISTANCE = MAP_DISTANCE + DISKS_MAX + 64,
    LENT_DISTANCE = SHEET_DISTANCE + 128 + 64,
    SPACE = LENT_DISTANCE + DISKS_MAX
};

uint8_t *take_space(size_t bytes)
{
    void *space;
    if (posix_memalign(&space, 64, bytes) != 0) {
        fputs("bench: out of memory\n", stderr);
        exit(1);
    }
    return space;
}

uint8_t *largest_array(void)
{
    return take_space(SPACE);
}

void input_open(struct input *input)
{
    input->array = largest_array();
    input->data = input->array + DATA_DISTANCE;
    input->map = input->array + MAP_DISTANCE;
    input->sheet = input->array + SHEET_DISTANCE;
    input->lent = input->array + LENT_DISTANCE;
}

void input_close(struct input *input)
{
    free(input->array);
}

/* Each random number gives four bytes. */
static void fill(uint8_t *bytes, size_t length)
{
    static uint64_t state = 88172645463325252u;
    uint64_t number = 0;
    for (size_t i = 0; i < length; i++) {
        number = i % 4 == 0 ? next_random(&state) : number >> 8;
        bytes[i] = (uint8_t)number;
    }
}

void input_fill(struct input *input)
{
    fill(input->array, input->bytes);
    fill(input->data, input->size.block);
}

void input_spoil(struct input *input)
{
    for (size_t d = 0; d < input->disks; d++)
        if (input->map[d] != 0)
            fill(input->array + d * input->size.block, input->size.block);
}

void input_resize(struct input *input, struct size size)
{
    input->size = size;
    input->disks = (size.rows + 1) * (size.columns + 1);
    input->bytes = input->disks * size.block;
    input->disk = 0;
    input->limit = SIZE_MAX;
    input_fill(input);
    draw_map(size.map, size.rows, size.columns, input->map);
}
