#ifndef CASES_H
#define CASES_H

/* Holds the library and the search to the worked cases of documents 01 and 02. */
void check_cases(void);

#endif
