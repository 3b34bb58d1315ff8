/* Figures for a plan that is refused. */
#ifndef CLI_FIGURES_H
#define CLI_FIGURES_H

#include "fault.h"

#include <stdio.h>

/* Prints what helps to mend a plan text of which find_plan_fault told a fault, indented, line by line. */
void print_figures(FILE *words, enum cartheron_refusal number, const struct fault *fault, const struct plan *plan,
                   const struct site *site, struct part text);

#endif
