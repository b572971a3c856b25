/* How far a long work is, on standard error where that is a terminal: every second, in one line. */
#ifndef PROGRESS_H
#define PROGRESS_H
#include <stdint.h>

typedef struct {
    double begun, told;
    uint64_t total; /* how many records or files there are, 0 where nobody knows */
    int shown;
} Progress;

/* Seconds of a clock that only goes forward. */
double seconds(void);

/* From now on nothing is shown, on a terminal neither. */
void progress_quiet(void);

void progress_begin(Progress *progress, uint64_t total);
void progress_tell(Progress *progress, uint64_t records, uint64_t bytes);

/* A file that is being read: which one it is, from 1 on, how much of it was read, how long it is, 0 where nobody knows; and what was read of all. */
typedef struct {
    uint64_t number, bytes, length, all;
} Reading;
void progress_tell_reading(Progress *progress, const Reading *reading);

/* Ends the line of progress, where one is open. */
void progress_end(void);

#endif
