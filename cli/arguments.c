/* What the command line asks for. */
#include "arguments.h"

#include <stddef.h>
#include <string.h>

#define MOST_FILES 2

/* The commands: how many files each reads at most, and whether it has JSON. */
static const struct form {
    const char *name;
    enum command command;
    int files, json;
} forms[] = {
    {"plan", PLAN, 1, 0},       {"show", SHOW, 1, 1},       {"site", SITE, 1, 1},
    {"picture", PICTURE, 1, 0}, {"rewrite", REWRITE, 1, 0}, {"check", CHECK, MOST_FILES, 1},
};

/* A command line that is being read: what was found so far, and what comes next. */
struct reading {
    struct arguments found;
    const struct form *form;
    char **next;
    int files;
    const char *file[MOST_FILES];
};

/* Notes the first thing that is wrong. */
static void complain(struct reading *reading, const char *wrong, const char *argument)
{
    if (reading->found.wrong != NULL)
        return;
    reading->found.wrong = wrong;
    reading->found.argument = argument;
}

/* Takes the file behind -o. */
static void take_output(struct reading *reading, const char *file)
{
    if (reading->found.output != NULL)
        complain(reading, "-o is given twice", NULL);
    else if (file == NULL || *file == '\0')
        complain(reading, "-o needs a file", NULL);
    reading->found.output = file;
}

/* Takes the name of a command. */
static void take_command(struct reading *reading, const char *word)
{
    for (size_t i = 0; i < sizeof forms / sizeof forms[0]; i++)
        if (strcmp(word, forms[i].name) == 0)
            reading->form = &forms[i];
    if (reading->form == NULL)
        complain(reading, "there is no command", word);
    else
        reading->found.command = reading->form->command;
}

/* Takes the name of a command, or of a file to read. */
static void take_word(struct reading *reading, const char *word)
{
    if (reading->form == NULL)
        take_command(reading, word);
    else if (reading->files < reading->form->files)
        reading->file[reading->files++] = strcmp(word, "-") == 0 ? NULL : word;
    else
        complain(reading, reading->form->files == 1 ? "one file at a time, and this is the second:"
                                                    : "a site and a plan, and this is the third file:", word);
}

static void take_option(struct reading *reading, const char *option)
{
    if (strcmp(option, "--help") == 0 || strcmp(option, "-h") == 0)
        reading->found.help = 1;
    else if (strcmp(option, "--version") == 0)
        reading->found.version = 1;
    else if (strcmp(option, "--json") == 0)
        reading->found.json = 1;
    else if (strcmp(option, "-o") == 0)
        take_output(reading, *reading->next != NULL ? *reading->next++ : NULL);
    else if (strncmp(option, "-o", 2) == 0)
        take_output(reading, option + 2);
    else
        complain(reading, "there is no option", option);
}

/* Complains of what does not go together. */
static void judge(struct reading *reading)
{
    const struct form *form = reading->form;

    if (form == NULL) {
        complain(reading, "a command is needed: plan, show, site, picture, rewrite or check", NULL);
        return;
    }
    if (reading->found.json && !form->json)
        complain(reading, "--json goes with show, site and check", NULL);
    if (form->command == CHECK && reading->files < MOST_FILES)
        complain(reading, "check needs a site and a plan", NULL);
    if (form->command == CHECK && reading->file[0] == NULL && reading->file[1] == NULL)
        complain(reading, "only one of site and plan can be standard input", NULL);
}

struct arguments read_arguments(int argc, char **argv)
{
    struct reading reading = {.next = argc > 0 ? argv + 1 : argv};
    int options = 1;

    while (*reading.next != NULL) {
        const char *argument = *reading.next++;
        if (options && strcmp(argument, "--") == 0)
            options = 0;
        else if (options && argument[0] == '-' && argument[1] != '\0')
            take_option(&reading, argument);
        else
            take_word(&reading, argument);
    }
    if (reading.found.help || reading.found.version)
        return reading.found;
    judge(&reading);
    reading.found.site = reading.file[0];
    reading.found.plan = reading.file[1];
    if (reading.found.output != NULL && strcmp(reading.found.output, "-") == 0)
        reading.found.output = NULL;
    return reading.found;
}
