/* Numbers and ranges of a command line. A text that is none, or beyond its bounds, is named, and the usage follows. */
#ifndef ARGUMENTS_H
#define ARGUMENTS_H

struct range {
    long lowest, highest;
};

/* Says how the program is called, and exits with 2. Each program has its own. */
_Noreturn void usage(void);

long whole_number(const char *text, long least, long most);

/* A range such as -2..4, or one number, which is then both ends. */
struct range range(const char *text, long least, long most);

#endif
