/* Power that fails, for tests over SQLite: from power_begin on, each file that SQLite opens has what is
 * written, and what of it is on the disk since it was synced. Before one of its syncs or deletions the
 * power fails: of what wasn't synced all is lost, or a part that a seed draws sector by sector, and the
 * process ends at once with POWER_FAILED. Nothing is asked of the real disk, so it is quick. */
#ifndef POWER_H
#define POWER_H

#include <stdint.h>

enum { POWER_FAILED = 77 };

/* The power fails at the step'th of them, or never if that is 0; a seed of 0 loses all that wasn't synced. */
void power_begin(uint64_t step, uint64_t seed);

#endif
