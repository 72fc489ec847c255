/*
 * Reads a card, changes the load ranges of slots as the command line says, writes another card, and draws the plan of
 * the burst as text.
 */
#include "arguments.h"
#include "burst.h"
#include "card_file.h"

#include <limits.h>
#include <stdio.h>
#include <stdlib.h>

enum { FIRST_CHANGE = 3 };

void usage(void)
{
    fprintf(stderr, "usage: edit CARD.card NEW.card [SLOT RANGE]...\n"
                    "  RANGE is the slot's new load range such as -2..4, or one number\n");
    exit(2);
}

/* Gives a slot another load range, and prints it beside the card's; prints the refusal if the card has no such slot. */
static bool change_slot(const struct card *c, struct burst *b, size_t slot, struct range new)
{
    struct icecoppice_found old = icecoppice_look_up(c->bytes, c->length, slot);
    if (old.code != ICECOPPICE_YES) {
        print_refusal(old.code, slot);
        return false;
    }
    b->given_lowest[slot] = new.lowest;
    b->given_highest[slot] = new.highest;
    printf("slot %zu: ", slot);
    print_range(old.lowest, old.highest);
    printf(" becomes ");
    print_range(new.lowest, new.highest);
    printf("\n");
    return true;
}

/*
 * Exits with 0 if there is a plan, 1 if there is none or the card, a slot or the request is refused, 2 if the arguments
 * are no changes, or a file or the answer cannot be read or written.
 */
int main(int count, char **arguments)
{
    if (count < FIRST_CHANGE || count % 2 == 0)
        usage();
    struct card c = load_card(arguments[1]);
    struct burst b = new_burst(ICECOPPICE_SLOTS);
    bool accepted = read_card(&c, &b);
    for (int i = FIRST_CHANGE; accepted && i < count; i += 2)
        accepted = change_slot(&c, &b, whole_number(arguments[i], 0, LONG_MAX),
                               range(arguments[i + 1], INT32_MIN, INT32_MAX));
    int code = accepted && write_card(arguments[2], &b) ? plan_burst(&b) : 1;
    free_burst(&b);
    return exit_code(code);
}
