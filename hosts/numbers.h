/* The numbers that a call of the library answers, in words. */
#ifndef NUMBERS_H
#define NUMBERS_H
#include <stdint.h>

/* What a number means, and what a person at the keyboard does about it. */
typedef struct {
    const char *meaning, *advice;
} Words;

const Words *words_of(uint32_t number);

#endif
