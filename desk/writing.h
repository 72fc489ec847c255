/* Holds the library's writer to the model of form 1, and what it stores to the reader, on random requests. */
#ifndef WRITING_H
#define WRITING_H

void check_writing(void);

/* Prints how often each kind of answer came; fails if one is rare. */
void print_writing_tally(void);

#endif
