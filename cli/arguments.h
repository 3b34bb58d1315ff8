/* What the command line asks for. */
#ifndef CLI_ARGUMENTS_H
#define CLI_ARGUMENTS_H

enum command { NO_COMMAND, PLAN, SHOW, SITE, PICTURE, REWRITE, CHECK };

struct arguments {
    enum command command;
    int help, version, json;
    const char *site;   /* NULL for standard input */
    const char *plan;   /* to be checked; likewise */
    const char *output; /* NULL for standard output */
    const char *wrong;  /* why the command was used wrongly, or NULL; said of .argument where that is set */
    const char *argument;
};

/* Reads the command line; what is wrong with it comes back in the answer. */
struct arguments read_arguments(int argc, char **argv);

/* The page that --help prints for a command, or for the whole. */
const char *help_of(enum command command);

/* What --version prints. */
const char *version_line(void);

#endif
