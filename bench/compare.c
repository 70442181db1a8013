#include "compare.h"
#include "calls.h"
#include "maps.h"

#include <stdio.h>
#include <stdlib.h>
#include <string.h>

/* What an out-parameter, and each byte of the sheet, holds before a call. */
static const size_t UNTOUCHED = 4242;
static const uint8_t UNTOUCHED_BYTE = 42;

void expected_open(struct expected *expected)
{
    expected->before = largest_array();
    expected->after = largest_array();
}

void expected_close(struct expected *expected)
{
    free(expected->before);
    free(expected->after);
}

static void run_from(const struct call *call, const struct peer *peer, struct input *input, const uint8_t *before)
{
    memcpy(input->array, before, input->bytes);
    memset(input->sheet, UNTOUCHED_BYTE, SHEET_BYTES);
    memset(input->lent, UNTOUCHED_BYTE, input->disks);
    input->stripe = input->count = UNTOUCHED;
    call->run(peer, input);
}

/* Makes the library's call on a prepared input, keeps what it leaves, and gives the input with its results. */
static struct input expect(const struct call *call, struct input *input, struct expected *expected)
{
    memcpy(expected->before, input->array, input->bytes);
    run_from(call, &peers[LIBRARY], input, expected->before);
    memcpy(expected->after, input->array, input->bytes);
    memcpy(expected->sheet, input->sheet, SHEET_BYTES);
    memcpy(expected->map, input->lent, input->disks);
    return *input;
}

/* Makes a call on the same input, and says whether it gives the results in `given` and leaves the same array and map. */
static int gives(const struct call *call, const struct peer *peer, struct input *input, const struct input *given,
                 const struct expected *expected)
{
    run_from(call, peer, input, expected->before);
    return input->status == given->status && input->stripe == given->stripe && input->count == given->count
        && memcmp(input->array, expected->after, input->bytes) == 0
        && memcmp(input->lent, expected->map, input->disks) == 0;
}

static int same_sheet(const struct input *input, const struct expected *expected)
{
    return memcmp(input->sheet, expected->sheet, SHEET_BYTES) == 0;
}

static void print_difference(const struct call *call, struct size size, const char *what, const char *peer)
{
    char title[TITLE_MAX];
    put_title(title, call, size);
    printf("DIFFERENT: %s: %s %s\n", title, what, peer);
}

/* Compares all peers on one prepared input. */
static int input_agrees(const struct call *call, struct input *input, struct expected *expected)
{
    struct input given = expect(call, input, expected);
    for (size_t p = LIBRARY + 1; p < PEERS; p++) {
        if (peers[p].bound || !takes_part(&peers[p], call, input->size))
            continue;
        if (!gives(call, &peers[p], input, &given, expected) || !same_sheet(input, expected)) {
            print_difference(call, input->size, "the library and", peers[p].name);
            return 0;
        }
    }
    return 1;
}

int calls_agree(const struct call *first, const struct call *other, struct input *input, struct expected *expected)
{
    struct input given = expect(first, input, expected);
    int agree = gives(other, &peers[LIBRARY], input, &given, expected)
        && (input->status == FATAL || same_sheet(input, expected));
    memcpy(input->array, expected->before, input->bytes);
    return agree;
}

/* Whether the call did its work on the input that is timed. A refusal would be quick and time nothing. */
static int did_its_work(const struct input *input)
{
    return input->status == (is_fatal(input->size.map) ? FATAL : 0);
}

/* Compares all variants of a call at one size: two for each disk, and the one that is timed. */
static int size_agrees(const struct call *call, struct size size, struct input *input, struct expected *expected)
{
    input_resize(input, size);
    for (size_t v = 0; v <= 2 * input->disks; v++) {
        call->prepare(input, v);
        if (!input_agrees(call, input, expected))
            return 0;
        if (v == 0 && !did_its_work(input)) {
            print_difference(call, size, "an unexpected status from", peers[LIBRARY].name);
            return 0;
        }
    }
    return 1;
}

int call_agrees(const struct call *call)
{
    int agree = 1;
    struct input input;
    struct expected expected;
    expected_open(&expected);
    input_open(&input);
    for (size_t s = 0; s < call->size_count; s++)
        agree = agree && size_agrees(call, call->sizes[s], &input, &expected);
    input_close(&input);
    expected_close(&expected);
    return agree;
}

int peers_agree(void)
{
    int agree = 1;
    for (size_t c = 0; c < CALLS; c++)
        agree = agree && call_agrees(&calls[c]);
    return agree;
}
