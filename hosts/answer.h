/* What a command answers on standard output: words for a person, or with --json one object. */
#ifndef ANSWER_H
#define ANSWER_H
#include <stddef.h>
#include <stdint.h>

/* One object from now on, and no words. */
void answer_in_json(const char *command);
int json_asked(void);

/* A line of words, left out where an object is asked for. */
void line(const char *format, ...) __attribute__((format(printf, 1, 2)));

/* Bytes in hexadecimal digits, with a zero behind them. */
void hex_of(const uint8_t *bytes, size_t count, char *digits);

/* Whether bytes are text that a terminal can be shown: UTF-8, and of the control characters only tabs and line ends. */
int is_text(const uint8_t *bytes, size_t count);

/* A value of the object, left out where words are asked for. Within a list the name is NULL. */
void put_number(const char *name, uint64_t value);
void put_flag(const char *name, int value);
void put_text(const char *name, const char *text);
void put_bytes(const char *name, const uint8_t *bytes, size_t count); /* as hexadecimal digits */
void put_record(const uint8_t *record, size_t length);                /* length, digits, and text where it is text */
void put_refusal(uint32_t number);                                    /* number, meaning, advice */
void put_open(const char *name, char bracket);
void put_close(void);
void put_close_all(void);

/* The object so far goes out as a line of its own, and another begins. */
void answer_line(void);

/* What is to be said on standard error where the answer cannot be written. */
void answer_holds(const char *format, ...) __attribute__((format(printf, 1, 2)));

/* Writes all out: the status, or FAILED where it could not be written. */
int answer_end(int status);

#endif
