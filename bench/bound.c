/*
 * Bounds on speed: one plain SSE2 read, and one memcpy, of as many bytes as a call has to touch. For seal, check and
 * rebuild these are the whole array, for write as many as the four blocks that change.
 */
#include "peer.h"

#include <emmintrin.h>
#include <string.h>

/* What is read has to go somewhere, or the compiler leaves the reading out. */
static volatile int sink;

static __m128i load(const uint8_t *bytes)
{
    return _mm_loadu_si128((const __m128i *)bytes);
}

static void read_bytes(const uint8_t *bytes, size_t length)
{
    __m128i a = _mm_setzero_si128(), b = a, c = a, d = a;
    uint8_t rest = 0;
    size_t i = 0;
    for (; length - i >= 64; i += 64) {
        a = _mm_or_si128(a, load(bytes + i));
        b = _mm_or_si128(b, load(bytes + i + 16));
        c = _mm_or_si128(c, load(bytes + i + 32));
        d = _mm_or_si128(d, load(bytes + i + 48));
    }
    for (; length - i >= 16; i += 16)
        a = _mm_or_si128(a, load(bytes + i));
    for (; i < length; i++)
        rest |= bytes[i];
    a = _mm_or_si128(_mm_or_si128(a, b), _mm_or_si128(c, d));
    sink = _mm_movemask_epi8(a) | rest;
}

static void copy_bytes(const uint8_t *bytes, size_t length)
{
    static uint8_t copy[DISKS_MAX * BLOCK_MAX];
    memcpy(copy, bytes, length);
    sink = copy[length - 1];
}

/* The calls for scale: the prototypes of a peer around one way of moving bytes. */
#define BOUND(peer, move)                                                                                             \
    uint32_t peer##_seal(size_t rows, size_t columns, size_t block, uint8_t *array, size_t array_len)                 \
    {                                                                                                                 \
        (void)rows, (void)columns, (void)block;                                                                       \
        move(array, array_len);                                                                                       \
        return 0;                                                                                                     \
    }                                                                                                                 \
    uint32_t peer##_check(size_t rows, size_t columns, size_t block, const uint8_t *array, size_t array_len,          \
                          size_t *stripe)                                                                             \
    {                                                                                                                 \
        (void)rows, (void)columns, (void)block, (void)stripe;                                                         \
        move(array, array_len);                                                                                       \
        return 0;                                                                                                     \
    }                                                                                                                 \
    uint32_t peer##_write(size_t rows, size_t columns, size_t block, uint8_t *array, size_t array_len, size_t disk,   \
                          const uint8_t *data, size_t data_len)                                                       \
    {                                                                                                                 \
        (void)rows, (void)columns, (void)array_len, (void)disk, (void)data, (void)data_len;                           \
        move(array, 4 * block);                                                                                       \
        return 0;                                                                                                     \
    }                                                                                                                 \
    uint32_t peer##_rebuild(size_t rows, size_t columns, size_t block, uint8_t *array, size_t array_len,              \
                            uint8_t *map, size_t map_len, uint8_t *sheet, size_t sheet_len, size_t limit,             \
                            size_t *count)                                                                            \
    {                                                                                                                 \
        (void)rows, (void)columns, (void)block, (void)map, (void)map_len;                                             \
        (void)sheet, (void)sheet_len, (void)limit, (void)count;                                                       \
        move(array, array_len);                                                                                       \
        return 0;                                                                                                     \
    }

seal_call read_seal, copy_seal;
check_call read_check, copy_check;
write_call read_write, copy_write;
rebuild_call read_rebuild, copy_rebuild;

BOUND(read, read_bytes)
BOUND(copy, copy_bytes)
