/* The session of a test, and the check that reports a fault. */
#ifndef WANTING_H
#define WANTING_H

#include "huckleport.h"
#include <stdbool.h>
#include <stdio.h>

static hp_session session = HP_SESSION_INIT;
static int faults;

#define WANT(holds) want(holds, #holds)

static void want(bool holds, const char *what)
{
    if (holds)
        return;
    printf("not so: %s\n", what);
    faults++;
}

#endif
