#include "random.h"

/* SplitMix64; the remainder's bias does no harm here. */
uint32_t below(uint32_t bound)
{
    static uint64_t state = 20241115;
    state += 0x9e3779b97f4a7c15u;
    uint64_t z = state;
    z = (z ^ (z >> 30)) * 0xbf58476d1ce4e5b9u;
    z = (z ^ (z >> 27)) * 0x94d049bb133111ebu;
    return (uint32_t)((z ^ (z >> 31)) >> 32) % bound;
}

bool one_in(uint32_t bound)
{
    return below(bound) == 0;
}

int32_t some_load(int32_t k)
{
    const int32_t points[] = {k, k, k, 0, INT32_MIN, INT32_MAX};
    int64_t load = points[below(6)];
    load += (int64_t)below(5) - 2;
    if (load < INT32_MIN)
        return INT32_MIN;
    return load > INT32_MAX ? INT32_MAX : (int32_t)load;
}

int32_t load_on_side(int32_t k, bool over)
{
    int32_t load = some_load(k);
    if (over && load <= k)
        return k < INT32_MAX ? k + 1 : k;
    return !over && load > k ? k : load;
}
