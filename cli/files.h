/* Files, read no further than needed and written whole or not at all. */
#ifndef CLI_FILES_H
#define CLI_FILES_H

#include <stddef.h>
#include <stdint.h>

/* The verdict on a site text rests on its first so many bytes (docs/FORMATS.md, "The program and the C functions"). */
#define MOST_READ 11859

/* The verdict on a plan text may rest on its last byte, but the longest plan has 9,673 bytes. So many are taken. */
#define MOST_PLAN_READ (4u << 20)

/* Makes a closed pipe and a file that may not grow errors, which would otherwise end the program. Returns 0, or
 * -1 with errno. */
int prepare_files(void);

/* Reads a file, NULL for standard input, to its end or to the most bytes. Returns 0, or -1 with errno. */
int read_file(const char *file, uint8_t *bytes, size_t most, size_t *length);

/* Writes all bytes to an open file. Returns 0, or -1 with errno. */
int write_all(int fd, const char *bytes, size_t length);

/* Writes standard output whole. Returns 0, or -1 with errno: also where only closing it tells of a failure. */
int write_output(const char *bytes, size_t length);

/* Makes a file hold just these bytes, all or nothing: they are written into a temporary file in the same
 * folder, which then takes the file's name. A device or a pipe is written to as it is. Returns 0, or -1
 * with errno, and the file is as it was. */
int write_file(const char *file, const char *bytes, size_t length);

#endif
