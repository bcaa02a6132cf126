/* Prints eight plans, a line each: meta-period, writes and runs. */
#include <inttypes.h>
#include <stdio.h>

#include "plan.h"

struct job {
    uint32_t alpha, period, writes;
};

static const struct job jobs[] = {
    {16, 20, 2},  {16, 200, 5}, {13, 20, 2},  {8, 200, 5},
    {16, 20, 30}, {16, 20, 16}, {16, 20, 17}, {1, 1, 1},
};

int main(void)
{
    for (size_t i = 0; i < sizeof jobs / sizeof jobs[0]; i++) {
        struct job j = jobs[i];
        printf("%" PRIu32 " %" PRIu32 " %" PRIu32 "\n",
               plan_meta_period(j.alpha, j.period, j.writes),
               plan_writes(j.alpha, j.period, j.writes),
               plan_runs(j.alpha, j.period, j.writes));
    }
    return 0;
}
