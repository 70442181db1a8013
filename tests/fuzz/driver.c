/*
 * Runs the fuzzer's inputs without libFuzzer: every file that is named, and
 * then mutations of them, without feedback.
 *
 *   driver RUNS SEED FILE..
 *
 * The last line counts the inputs. The first that fails is printed in
 * hexadecimal and ends the run.
 */
#define _DEFAULT_SOURCE
#include <signal.h>
#include <stdio.h>
#include <stdlib.h>
#include <string.h>
#include <unistd.h>

#include "input.h"

/* The longest time for one input, in seconds. */
enum { LIMIT = 20 };

int LLVMFuzzerTestOneInput(const uint8_t *data, size_t size);
size_t LLVMFuzzerMutate(uint8_t *data, size_t size, size_t max_size);
size_t LLVMFuzzerCustomMutator(uint8_t *data, size_t size, size_t max_size,
                               unsigned int seed);

struct bytes {
    uint8_t data[INPUT_MAX];
    size_t size;
};

/* The input that is being run, and how many ran well before it. */
static struct bytes current;
static unsigned long passed;

static struct numbers random_numbers;

/* In place of libFuzzer's own mutator: some bytes become arbitrary. */
size_t LLVMFuzzerMutate(uint8_t *data, size_t size, size_t max_size)
{
    uint32_t left = 1 + draw(&random_numbers, 4);

    if (size == 0)
        return 0;
    for (; left > 0; left--)
        data[draw(&random_numbers, (uint32_t)size)] =
            (uint8_t)draw(&random_numbers, 256);
    return size < max_size ? size : max_size;
}

/* The end of a run: a difference (abort), a wrong access, or no answer. */
static void fail(int number)
{
    size_t i;

    printf("FAILED with signal %d on input ", number);
    for (i = 0; i < current.size; i++)
        printf("%02x", (unsigned)current.data[i]);
    printf("\n%lu passed, 1 failed\n", passed);
    fflush(stdout);
    _exit(1);
}

static void run_current(void)
{
    alarm(LIMIT);
    LLVMFuzzerTestOneInput(current.data, current.size);
    passed++;
}

static struct bytes read_file(const char *name)
{
    struct bytes b;
    FILE *file = fopen(name, "rb");

    if (file == NULL) {
        perror(name);
        exit(2);
    }
    memset(&b, 0, sizeof b);
    b.size = fread(b.data, 1, INPUT_MAX, file);
    fclose(file);
    return b;
}

static void run_files(struct bytes *kept, char **names, size_t count)
{
    size_t i;

    for (i = 0; i < count; i++) {
        kept[i] = read_file(names[i]);
        current = kept[i];
        run_current();
    }
    printf("%lu kept inputs ran\n", passed);
}

/* Some rounds of mutations on a kept input, each of which is run. */
static void run_mutations(const struct bytes *kept, size_t count,
                          unsigned long runs)
{
    for (; runs > 0; runs--) {
        if (draw(&random_numbers, 4) == 0)
            current = kept[draw(&random_numbers, (uint32_t)count)];
        current.size = LLVMFuzzerCustomMutator(
            current.data, current.size, INPUT_MAX,
            draw(&random_numbers, UINT32_MAX));
        run_current();
    }
}

int main(int argc, char **argv)
{
    static const int signals[] = {SIGABRT, SIGSEGV, SIGBUS, SIGILL, SIGTRAP,
                                  SIGFPE, SIGALRM};
    struct bytes *kept;
    size_t i, count;

    if (argc < 4) {
        fprintf(stderr, "usage: driver RUNS SEED FILE..\n");
        return 2;
    }
    count = (size_t)argc - 3;
    kept = malloc(count * sizeof *kept);
    if (kept == NULL)
        return 2;
    for (i = 0; i < sizeof signals / sizeof *signals; i++)
        signal(signals[i], fail);
    printf("seed %s\n", argv[2]);
    random_numbers = numbers_from((uint32_t)strtoul(argv[2], NULL, 10));
    run_files(kept, argv + 3, count);
    run_mutations(kept, count, strtoul(argv[1], NULL, 10));
    free(kept);
    printf("%lu passed, 0 failed\n", passed);
    return 0;
}
