#include "command_line.h"
#include "card_file.h"

#include <stdio.h>
#include <stdlib.h>

enum { ONLY_A_CARD = 2, FIRST_SLOT = 7 };

void burst_usage(const char *program)
{
    fprintf(stderr, "usage: %s CARD.card\n"
                    "       %s K LEN H SETTLE WINDOWS COVERED SLOT...\n"
                    "  WINDOWS, COVERED and each SLOT are a range such as -2..4, or one number\n", program, program);
    exit(2);
}

static struct burst read_numbers(int count, char **arguments)
{
    if (count < FIRST_SLOT)
        usage();
    struct burst b = new_burst(count - FIRST_SLOT);
    b.k = whole_number(arguments[1], INT32_MIN, INT32_MAX);
    b.len = whole_number(arguments[2], 0, UINT16_MAX);
    b.h = whole_number(arguments[3], 0, UINT16_MAX);
    b.settle = whole_number(arguments[4], 0, UINT16_MAX);
    b.windows = range(arguments[5], 0, UINT16_MAX);
    b.covered = range(arguments[6], 0, UINT16_MAX);
    for (size_t j = 0; j < b.n; j++) {
        struct range r = range(arguments[FIRST_SLOT + j], INT32_MIN, INT32_MAX);
        b.given_lowest[j] = r.lowest;
        b.given_highest[j] = r.highest;
    }
    return b;
}

bool read_burst(int count, char **arguments, struct burst *b)
{
    if (count != ONLY_A_CARD || arguments[1][0] == '-') {
        *b = read_numbers(count, arguments);
        return true;
    }
    struct card c = load_card(arguments[1]);
    *b = new_burst(ICECOPPICE_SLOTS);
    return read_card(&c, b);
}
