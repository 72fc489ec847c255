/* Puts one request to the library and to the search, and stops the test at the first difference. */
#ifndef COMPARE_H
#define COMPARE_H

#include "search.h"

/* A slice stands in a larger buffer, between entries that no call may alter. */
enum { MARGIN = 4, PLACES = 72, BUFFER = MARGIN + PLACES + MARGIN };

/* What either function is asked; the judge takes lowest as its loads. The slices begin at entry MARGIN. */
struct request {
    struct settings settings;
    size_t lowest_length, highest_length, marks_length;
    int32_t lowest[BUFFER], highest[BUFFER];
    uint8_t marks[BUFFER];
};

/* A request without slots or settings, its buffers filled with a pattern. */
struct request blank_request(void);

bool same_answer(const struct icecoppice_answer *a, const struct icecoppice_answer *b);

/* Whether all entries are the same, in the slices and beside them. */
bool same_buffers(const struct request *a, const struct request *b);

/*
 * Ask both, and hold every field of the answer and every entry of the buffers to the search. Where the search would
 * have to try too many plans, the filter has to answer yes or no, to keep both maximums, to cut no more than a part of
 * a range, and to draw a plan of what it leaves; without a yes it has to leave every buffer as it is.
 */
struct icecoppice_answer compare_filter(struct request *r);
struct icecoppice_verdict compare_judge(const struct request *r);

/* Prints what is wrong and the request, and ends the test. */
_Noreturn void fail(const char *what, const struct request *r);

/* Prints how often a kind of answer came; fails if it is rare. */
void print_kind(const char *kind, unsigned long tally);

/* The same for each refusal from the first to the last, by a tally with a place for each code. */
void print_refusals(const char *whose, const unsigned long *tally, unsigned first, unsigned last);

/* The same for each kind that was compared. */
void print_tally(void);

#endif
