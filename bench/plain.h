/* The library's algorithms for the filter and for the watch's step in plain C, to time the library beside them. */
#ifndef PLAIN_H
#define PLAIN_H

#include "../include/icecoppice.h"

struct icecoppice_answer plain_filter(int32_t k, uint16_t len, uint16_t h, uint16_t settle,
                                      uint16_t windows_least, uint16_t windows_most,
                                      uint16_t covered_least, uint16_t covered_most,
                                      int32_t *lowest, size_t lowest_length,
                                      int32_t *highest, size_t highest_length,
                                      uint8_t *marks, size_t marks_length);

struct icecoppice_stepped plain_watch_step(struct icecoppice_watch watch, int32_t load);

#endif
