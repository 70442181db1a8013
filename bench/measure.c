#include "measure.h"
#include "guards.h"
#include "timing.h"

#include <stdio.h>

void measure(const struct call *call, struct size size, struct input *input, double ratios[PEERS])
{
    double medians[PEERS];
    char title[TITLE_MAX];
    input_resize(input, size);
    call->prepare(input, 0);
    put_title(title, call, size);
    time_peers(call, input, medians);
    for (size_t p = LIBRARY + 1; p < PEERS; p++) {
        ratios[p] = medians[p] > 0 ? medians[LIBRARY] / medians[p] : 0;
        if (medians[p] > 0)
            print_titled(title, peers[p].name, ratios[p]);
    }
    fflush(stdout);
}
