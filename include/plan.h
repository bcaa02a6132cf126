/* The plan of a seat, for firmware written in C.
 *
 * A recording job asks for `writes` page writes in each period of `period` ticks; a run of the collector wins
 * back `alpha` pages. alpha is 1 to 32, period 1 to 60,000, writes 1 to 1,024. Each function gives 0 where one
 * of the three is out of its range, and never 0 otherwise.
 *
 * The functions keep no state and may be called from anywhere. Link libplan.a, which tools/libplan makes.
 */
#ifndef PLAN_H
#define PLAN_H

#include <stdint.h>

#ifdef __cplusplus
extern "C" {
#endif

/* The meta-period in ticks: the time over which writes and runs are counted. At most 1,920,000. */
uint32_t plan_meta_period(uint32_t alpha, uint32_t period, uint32_t writes);

/* How many pages the job may write in each meta-period. At most 1,024. */
uint32_t plan_writes(uint32_t alpha, uint32_t period, uint32_t writes);

/* How many runs the collector makes for the job in each meta-period. At most 1,024. */
uint32_t plan_runs(uint32_t alpha, uint32_t period, uint32_t writes);

#ifdef __cplusplus
}
#endif

#endif
