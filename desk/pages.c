/* Prints every plan of a short burst, of a card or given in numbers, one a line, and how many there are. */
#include "burst.h"
#include "command_line.h"

#include <stdio.h>
#include <string.h>

void usage(void)
{
    burst_usage("pages");
}

static struct icecoppice_page next_plan(struct burst *b, const uint8_t *given, size_t given_length)
{
    return icecoppice_next_plan(b->k, b->len, b->h, b->settle, b->windows.lowest, b->windows.highest, b->covered.lowest,
                                b->covered.highest, b->given_lowest, b->n, b->given_highest, b->n,
                                given, given_length, b->marks, b->n);
}

static void print_marks(const struct burst *b)
{
    for (size_t j = 0; j < b->n; j++)
        printf("%s%u", j > 0 ? " " : "", b->marks[j]);
    printf("\n");
}

static void print_count(unsigned long count)
{
    if (count == 0)
        printf("no plan\n");
    else
        printf("%lu plan%s\n", count, count == 1 ? "" : "s");
}

/* Asks for each plan by the one before it, and for the first by nothing. Gives the exit code. */
static int page_burst(struct burst *b)
{
    uint8_t given[ICECOPPICE_PAGED] = {0};
    unsigned long count = 0;
    struct icecoppice_page p = next_plan(b, NULL, 0);
    for (; p.code == ICECOPPICE_YES; p = next_plan(b, given, b->n)) {
        print_marks(b);
        memcpy(given, b->marks, b->n);
        count++;
    }
    if (p.code != ICECOPPICE_NO) {
        print_refusal(p.code, p.slot);
        return 1;
    }
    print_count(count);
    return count > 0 ? 0 : 1;
}

/*
 * Exits with 0 if there is a plan, 1 if there is none or the card or the request is refused, 2 if the arguments are no
 * request, the card cannot be read or the plans not be written.
 */
int main(int count, char **arguments)
{
    struct burst b;
    int code = read_burst(count, arguments, &b) ? page_burst(&b) : 1;
    free_burst(&b);
    return exit_code(code);
}
