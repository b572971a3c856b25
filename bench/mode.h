/* The mode that a counted program works in: plain, or with KEYED the keyed one under a key of the bytes 0 to 31. */
#ifndef MODE_H
#define MODE_H
#ifdef KEYED
#define KEYED_NUMBER 1
#else
#define KEYED_NUMBER 0
#endif
#define KEY_BYTES {0, 1, 2, 3, 4, 5, 6, 7, 8, 9, 10, 11, 12, 13, 14, 15, 16, 17, 18, 19, 20, 21, 22, 23, 24, 25, 26, 27, 28, 29, 30, 31}
#define MODE {KEYED_NUMBER, KEY_BYTES}
#endif
