#define _POSIX_C_SOURCE 199309L /* for clock_gettime */

#include "clock.h"

#include <time.h>

double now(void)
{
    struct timespec t;

    clock_gettime(CLOCK_MONOTONIC, &t);
    return (double)t.tv_sec + (double)t.tv_nsec / 1e9;
}
