/* The table of peers. The library stands first; each ratio is its time over the peer's. */
#include "peer.h"
#include "raid2d.h"

seal_call plain_seal, tuned_seal, native_seal, rust_seal, isal_seal, isal_sse_seal, read_seal, copy_seal;
check_call plain_check, tuned_check, native_check, rust_check, isal_check, read_check, copy_check;
write_call plain_write, tuned_write, native_write, rust_write, read_write, copy_write;
plan_call plain_plan, rows_plan, rust_plan;
rebuild_call plain_rebuild, tuned_rebuild, native_rebuild, rust_rebuild, isal_rebuild, read_rebuild, copy_rebuild;

/* The library on blocks of one sector. With one position there is no choice of a fatal one. */
static uint32_t library_plan(size_t rows, size_t columns, const uint8_t *map, size_t map_len, uint8_t *sheet,
                             size_t sheet_len, size_t *count)
{
    size_t position;
    return raid2d_plan(rows, columns, 1, map, map_len, sheet, sheet_len, count, &position);
}

static uint32_t library_rebuild(size_t rows, size_t columns, size_t block, uint8_t *array, size_t array_len,
                                uint8_t *map, size_t map_len, uint8_t *sheet, size_t sheet_len, size_t limit,
                                size_t *count)
{
    size_t position;
    return raid2d_rebuild(rows, columns, block, array, array_len, block, map, map_len, sheet, sheet_len, limit, count,
                          &position);
}

const struct peer peers[PEERS] = {
    [LIBRARY] = {"library", 1, 0, raid2d_seal, raid2d_check, raid2d_write, library_plan, library_rebuild},
    [PLAIN] = {"gcc -O3 plain loops", 1, 0, plain_seal, plain_check, plain_write, plain_plan, plain_rebuild},
    [TUNED] = {"gcc -O3 tuned", 1, 0, tuned_seal, tuned_check, tuned_write, tuned_plan, tuned_rebuild},
    [ROWS] = {"gcc -O3 by rows", 1, 0, NULL, NULL, NULL, rows_plan, NULL},
    [NATIVE] = {"gcc -O3 -march=native tuned", 1, 0, native_seal, native_check, native_write, NULL, native_rebuild},
    [RUST] = {"Rust release", 1, 0, rust_seal, rust_check, rust_write, rust_plan, rust_rebuild},
#ifdef ISAL_HEADER
    [ISAL] = {"ISA-L", 32, 0, isal_seal, isal_check, NULL, NULL, isal_rebuild},
    [ISAL_SSE] = {"ISA-L xor_gen_sse", 32, 0, isal_sse_seal, NULL, NULL, NULL, NULL},
#endif
    [READ] = {"one SSE2 read (for scale)", 1, 1, read_seal, read_check, read_write, NULL, read_rebuild},
    [COPY] = {"one memcpy (for scale)", 1, 1, copy_seal, copy_check, copy_write, NULL, copy_rebuild},
};
