/* A clock, and the median of the times it measured. */
#ifndef TIMING_H
#define TIMING_H

#include <stddef.h>

double now(void); /* in nanoseconds */

/* Sorts the samples. */
double median(double *samples, size_t count);

#endif
