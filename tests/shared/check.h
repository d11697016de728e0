/* Checks that go on after a failure. One that fails prints its place, its part and what is not so. */
#ifndef CHECK_H
#define CHECK_H

#include <stdbool.h>

/* Names the checks that follow. Failures are printed up to some number in each part, and counted beyond it. */
void begin_part(const char *name);

/* Prints how many checks were made and how many failed. Returns the exit status: 0 if there was a check and none
   failed. */
int end_checks(void);

/* Checks what should hold, and prints it in the manner of printf where it does not. */
#define CHECK_HOLDS(is_so, ...) check_holds(__FILE__, __LINE__, is_so, __VA_ARGS__)
__attribute__((format(printf, 4, 5))) void check_holds(const char *file, int line, bool is_so, const char *format, ...);

/* Counts a check that its caller has made. Says whether the caller is to print its failure, of which this prints the
   beginning. */
bool is_to_be_told(const char *file, int line, bool is_so);

#endif
