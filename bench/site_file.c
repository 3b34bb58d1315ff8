/* The sites of the benchmark, out of their files. */
#include <stdio.h>
#include <stdlib.h>
#include <string.h>
#include "site_file.h"

void read_site(const char *path, struct site *site)
{
    FILE *file = fopen(path, "rb");
    if (file != NULL)
        site->length = fread(site->text, 1, sizeof site->text, file);
    if (file == NULL || ferror(file) || site->length > CARTHERON_LONGEST_SITE) {
        printf("FAILED: cannot read %s, or it is longer than any site\n", path);
        exit(2);
    }
    fclose(file);
    const char *slash = strrchr(path, '/');
    snprintf(site->name, sizeof site->name, "%s", slash != NULL ? slash + 1 : path);
    char *dot = strrchr(site->name, '.');
    if (dot != NULL)
        *dot = '\0';
}
