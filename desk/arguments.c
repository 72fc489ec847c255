#include "arguments.h"

#include <errno.h>
#include <stdio.h>
#include <stdlib.h>
#include <string.h>

static _Noreturn void no_number(const char *text, long least, long most)
{
    fprintf(stderr, "%s: no number from %ld to %ld\n", text, least, most);
    usage();
}

/* The number at the start of the text, which is moved past it. */
static long number(const char **text, long least, long most)
{
    char *end;
    errno = 0;
    long value = strtol(*text, &end, 10);
    if (end == *text || errno != 0 || value < least || value > most)
        no_number(*text, least, most);
    *text = end;
    return value;
}

long whole_number(const char *text, long least, long most)
{
    long value = number(&text, least, most);
    if (*text != '\0')
        no_number(text, least, most);
    return value;
}

struct range range(const char *text, long least, long most)
{
    struct range r;
    r.lowest = r.highest = number(&text, least, most);
    if (strncmp(text, "..", 2) == 0) {
        text += 2;
        r.highest = number(&text, least, most);
    }
    if (*text != '\0')
        no_number(text, least, most);
    return r;
}
