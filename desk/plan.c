/* Plans one burst, of a card or given in numbers, and draws it as text. */
#include "burst.h"
#include "command_line.h"

void usage(void)
{
    burst_usage("plan");
}

/*
 * Exits with 0 if there is a plan, 1 if there is none or the card or the request is refused, 2 if the arguments are no
 * request, the card cannot be read or the answer not be written.
 */
int main(int count, char **arguments)
{
    struct burst b;
    int code = read_burst(count, arguments, &b) ? plan_burst(&b) : 1;
    free_burst(&b);
    return exit_code(code);
}
