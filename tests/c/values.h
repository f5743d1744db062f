// Transactions of random batches as C gives them without a frame.
#ifndef VALUES_H
#define VALUES_H

#include <stdlib.h>

#include "chains.h"

// The transactions as C has them. A single key is given as one every other time, and as a range
// else.
typedef struct {
    archcaraway_txn *txns;
    archcaraway_range *ranges;
} Values;

static inline archcaraway_bytes bytes_of(Bytes key) {
    archcaraway_bytes bytes = {key.length == 0 ? NULL : key.bytes, key.length};
    return bytes;
}

static inline Values values_of(const Batch *batch) {
    size_t count = 0, at = 0;
    for (unsigned i = 0; i < batch->count; i++)
        count += batch->transactions[i].reads + batch->transactions[i].writes;
    Values values = {demand_memory(batch->count * sizeof *values.txns),
                     demand_memory(count * sizeof *values.ranges)};
    for (unsigned i = 0; i < batch->count; i++) {
        const Transaction *t = &batch->transactions[i];
        archcaraway_range *ranges = values.ranges + at;
        for (unsigned k = 0; k < t->reads + t->writes; k++) {
            ranges[k].begin = bytes_of(t->ranges[k].begin);
            ranges[k].end = bytes_of(t->ranges[k].end);
            ranges[k].single = (i + k) % 2 == 0 && is_single(&t->ranges[k]);
            if (ranges[k].single) ranges[k].end.bytes = NULL;
        }
        archcaraway_txn txn = {
            t->snapshot, ranges, t->reads, ranges + t->reads, t->writes, t->report};
        values.txns[i] = txn;
        at += t->reads + t->writes;
    }
    return values;
}

static inline void free_values(Values *values) {
    free(values->txns);
    free(values->ranges);
}

#endif
