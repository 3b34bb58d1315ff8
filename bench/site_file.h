/* The sites of the benchmark, out of their files. */
#ifndef SITE_FILE_H
#define SITE_FILE_H

#include <stddef.h>
#include <stdint.h>
#include "cartheron.h"

/* Under which name reading the first site and writing it back is listed. */
#define WRITTEN_BACK "written-back"

/* The text of a site. Its name is the file's, without folder and ending. */
struct site {
    char name[64];
    uint8_t text[CARTHERON_LONGEST_SITE + 1];
    size_t length;
};

/* Reads a site's file, or ends the program with status 2. */
void read_site(const char *path, struct site *site);

#endif
