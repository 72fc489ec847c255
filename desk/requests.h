/* Random requests and plans, whole and damaged. */
#ifndef REQUESTS_H
#define REQUESTS_H

#include "compare.h"

/* A request with n slots that the filter does not refuse. */
struct request some_request(size_t n);

/* A load that goes with the mark. */
int32_t load_for_mark(int32_t k, uint8_t mark);

/* Legal marks for some loads, if the settings are accepted. */
void draw_marks(const struct settings *s, uint8_t *marks, size_t n);

/* Sets both maximums to what the marks need, and up to `slack` more. */
void allow_marks(struct settings *s, const uint8_t *marks, size_t n, uint32_t slack);

/* A request made around a plan, which its marks hold. */
struct request request_with_plan(size_t n);

/* Makes one change that often calls for a refusal. Several changes to one request test the order of the refusals. */
void damage(struct request *r);

/* Makes no change, in half of all cases, or some. */
void damage_often(struct request *r);

#endif
