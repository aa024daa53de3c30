// What the plain count of plain_count.c and the logs of counting.c share. The proved count is qm_count of the header.
#ifndef BENCH_COUNTING_H
#define BENCH_COUNTING_H

#include "../include/quartzmitten.h"
#include "receiver.h"

enum { MAX_ENTRIES = 4096, MAX_TILES = 256, MAX_PITS = 8192, MAX_MESSAGE = 1048576 };

// Answers 0 and fills the report as qm_count does, or the refusal.
u32 plain_count(const u8 *log, u64 length, u8 *store, u64 store_length, u32 *ledger, u64 ledger_length, u64 *report);

#endif
