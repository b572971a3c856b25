/* What the host says to a person: notes and failures on standard error, and the exit status. */
#ifndef SAY_H
#define SAY_H
#include <stdint.h>

/* The exit status: done; refused by the library, whose number is printed; everything else that is no success; a log that another program writes. */
enum { DONE = 0, REFUSED = 1, FAILED = 2, BUSY = 3 };

/* A line on standard error. */
void note(const char *format, ...) __attribute__((format(printf, 1, 2)));

/* The same, which is also the answer's error, and the program ends with FAILED, or with the status that is given. */
_Noreturn void fail(const char *format, ...) __attribute__((format(printf, 1, 2)));
_Noreturn void fail_with(int status, const char *format, ...) __attribute__((format(printf, 2, 3)));

/* The same without the end: returns FAILED. */
int failed(const char *format, ...) __attribute__((format(printf, 1, 2)));

/* The number that a call answered, what it means and what to do about it, also into the answer; returns REFUSED. */
int refused(const char *what, uint32_t number);

#endif
