/* A burst as a command line gives it: by a card, or in numbers. */
#ifndef COMMAND_LINE_H
#define COMMAND_LINE_H

#include "burst.h"

/* The usage of a program of this name that takes a burst. */
_Noreturn void burst_usage(const char *program);

/* Makes the burst that the arguments give; prints the refusal if it is a card that is refused. */
bool read_burst(int count, char **arguments, struct burst *b);

#endif
