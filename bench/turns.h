/* Times of calls that are made in turns. */
#ifndef TURNS_H
#define TURNS_H

#include "measured.h"

enum { ROUNDS = 101 };

/* The time of some calls, all of which have to answer as due. */
double timed(sheet_call *call, const struct sheet *sheet, int calls);

/* Of the rounds' numbers, which it sorts. */
double median(double numbers[ROUNDS]);

#endif
