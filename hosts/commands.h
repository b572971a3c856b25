/* The commands, one for each word that can stand behind "keeper": each returns the exit status. */
#ifndef COMMANDS_H
#define COMMANDS_H
#include "options.h"

int append(const Asked *asked);
int root(const Asked *asked);
int info(const Asked *asked);
int write_letter(const Asked *asked);
int passage(const Asked *asked);
int check(const Asked *asked);
int find(const Asked *asked);
int verify(const Asked *asked);
int repair(const Asked *asked);
int digest(const Asked *asked);
int node(const Asked *asked);

#endif
