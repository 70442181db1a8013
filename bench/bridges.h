/* The lost disks of a fatal loss, for the tuned peers in C. */
#ifndef BRIDGES_H
#define BRIDGES_H

#include "peer.h"

/* How many of the disks that no repair brings back are lost, by their words. The others join two parts of the stripes
   that nothing else joins. One search from stripe to stripe finds these: it notes when it comes to each stripe, or for
   the peer by rows the sets of stripes behind a disk. */
typedef size_t count_lost_call(const uint32_t others[STRIPES], size_t disks);
count_lost_call count_lost_tuned, count_lost_rows;

#endif
