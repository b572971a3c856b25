/* A letter that was checked, in words and as an object. */
#ifndef SHOWN_H
#define SHOWN_H
#include "letters.h"
#include "view.h"

/* A letter, what the library says of it, and of one record also its way to the root. */
typedef struct {
    Letter letter;
    Judged judged;
    View view;
} Checked;

int is_accepted(const Checked *checked);

/* What it is called: "passage letter", or "letter". */
const char *called_letter(const Checked *checked);

/* The verdict on an accepted one, behind its name and a colon, or nothing. */
void tell_accepted(const Checked *checked, const char *name, const char *colon);

/* What comes behind the verdict: the letter in words, with its records, where it is to be shown; and else of an accepted passage letter the index and
   length of each record. */
void tell_rest(const Checked *checked, int show);

/* Its values in the answer, with its file where it was one. */
void put_letter(const Checked *checked, const char *file);

#endif
