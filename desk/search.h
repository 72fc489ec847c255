/*
 * A second opinion on the library, by exhaustion: every string of marks is tried, and each sentence of document 01's
 * rule is tested by itself. It shares no code with the library. Only small requests can be tried so; refusals, and
 * whether given marks are a plan, are worked out at any size.
 */
#ifndef SEARCH_H
#define SEARCH_H

#include "../include/icecoppice.h"

#include <stdbool.h>

/* search_filter and search_next_plan abort at a request with more slots than this that they do not refuse. */
#define SEARCH_SLOTS 8

/* search_least_windows aborts at more loads than this. */
#define SEARCH_LOADS 12

struct settings {
    int32_t k;
    uint16_t len, h, settle;
    uint16_t windows_least, windows_most;
    uint16_t covered_least, covered_most;
};

/* Whether the mark goes with loads above k. */
bool search_goes_with_over(uint8_t mark);

/* The refusal that the filter has to give, with its slot, or code 0 if none applies; for any number of slots. */
struct icecoppice_answer search_refusal(const struct settings *s, const int32_t *lowest, size_t lowest_length,
                                        const int32_t *highest, size_t highest_length, size_t marks_length);

/* What the filter has to answer; on "planned" the ranges are narrowed in place, and the marks become the first plan. */
struct icecoppice_answer search_filter(const struct settings *s, int32_t *lowest, size_t lowest_length,
                                       int32_t *highest, size_t highest_length, uint8_t *marks, size_t marks_length);

/* The refusal that the paging has to give, with its slot, or code 0 if none applies; for any number of slots. */
struct icecoppice_page search_page_refusal(const struct settings *s, const int32_t *lowest, size_t lowest_length,
                                           const int32_t *highest, size_t highest_length, const uint8_t *given,
                                           size_t given_length, size_t marks_length);

/* What the paging has to answer; where there is a next plan, the marks become it. */
struct icecoppice_page search_next_plan(const struct settings *s, const int32_t *lowest, size_t lowest_length,
                                        const int32_t *highest, size_t highest_length, const uint8_t *given,
                                        size_t given_length, uint8_t *marks, size_t marks_length);

/* What the judge has to answer, for any number of slots. */
struct icecoppice_verdict search_judge(const struct settings *s, const int32_t *loads, size_t loads_length,
                                       const uint8_t *marks, size_t marks_length);

/* Whether the marks are legal for the ranges, with both counts within their maximums, for any number of slots. */
bool search_is_plan(const struct settings *s, const int32_t *lowest, const int32_t *highest, const uint8_t *marks,
                    size_t n);

/* The least number of windows over all marks that are legal for the loads, for any len and h; windows may touch. */
unsigned search_least_windows(int32_t k, unsigned len, unsigned h, const int32_t *loads, size_t n);

#endif
