#ifndef WATCH_H
#define WATCH_H

/* Times the library's watch beside the same step in plain C, on the same loads, and prints the table. */
void print_watch_table(void);

#endif
