#include "speed.h"
#include "calls.h"
#include "maps.h"
#include "timing.h"

#include <stdio.h>
#include <string.h>

/* The processor's name, where the system tells it. */
static void print_processor(void)
{
    char line[256];
    FILE *file = fopen("/proc/cpuinfo", "r");
    const char *name = NULL;
    while (file != NULL && name == NULL && fgets(line, sizeof line, file) != NULL)
        if (strncmp(line, "model name", 10) == 0)
            name = strchr(line, ':');
    printf("By the clock, on one core%s%s", name != NULL ? " of a processor" : "", name != NULL ? name : "\n");
    if (file != NULL)
        fclose(file);
}

void print_speeds(struct input *input)
{
    static const struct size largest = {15, 15, 4096, ROW_AND_COLUMN};
    static const size_t timed[] = {SEAL, CHECK, REBUILD};
    print_processor();
    input_resize(input, largest);
    for (size_t i = 0; i < sizeof timed / sizeof *timed; i++) {
        const struct call *call = &calls[timed[i]];
        char title[TITLE_MAX];
        double time;
        call->prepare(input, 0);
        time = time_call(call, input);
        put_title(title, call, largest);
        printf("%-28s %6.1f us, %5.2f GB/s of the array\n", title, time / 1e3, (double)input->bytes / time);
    }
}
