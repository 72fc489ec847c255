/* Numbers for the tests, the same in every run. */
#ifndef RANDOM_H
#define RANDOM_H

#include <stdbool.h>
#include <stdint.h>

uint32_t below(uint32_t bound);
bool one_in(uint32_t bound);

/* A number at or around k, zero, or an end of the range, where a wrong comparison would show. */
int32_t some_load(int32_t k);

/* Such a number that is over k, or at most k. Where k is the highest number, no load is over, and k is given. */
int32_t load_on_side(int32_t k, bool over);

#endif
