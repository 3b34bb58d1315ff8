/* What the command prints for people and for programs. */
#ifndef CLI_TABLES_H
#define CLI_TABLES_H

#include "print.h"

/* A plan and a site as tables. */
void show_plan(FILE *out, const struct paint *paint, const struct site *site, const struct plan *plan);
void show_site(FILE *out, const struct paint *paint, const struct site *site);

/* The same as JSON, times in symbols. */
void json_plan(FILE *out, const struct site *site, const struct plan *plan);
void json_site(FILE *out, const struct site *site);

/* The same of a plan that was checked, with the largest order that is possible. */
void json_checked(FILE *out, const struct site *site, const struct plan *plan, int largest);

#endif
