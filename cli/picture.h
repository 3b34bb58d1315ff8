/* The picture of a plan. */
#ifndef CLI_PICTURE_H
#define CLI_PICTURE_H

#include <stdio.h>
#include "model.h"

/* Prints the plan of a site as an SVG. Returns 0, or -1 where writing failed. */
int picture(FILE *out, const struct site *site, const struct plan *plan);

#endif
