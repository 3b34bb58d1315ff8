/* cartheron: plans wireless sensor trees. Reads the command line and the files, and writes what comes of it. */
#define _POSIX_C_SOURCE 200809L
#include "check.h"
#include "files.h"
#include "tell.h"

#include <errno.h>
#include <stdlib.h>
#include <string.h>
#include <unistd.h>

/* Memory that a FILE is printed into. */
struct sheet {
    FILE *file;
    char *bytes;
    size_t length;
};

static int open_sheet(struct sheet *sheet)
{
    sheet->bytes = NULL;
    sheet->length = 0;
    sheet->file = open_memstream(&sheet->bytes, &sheet->length);
    return sheet->file == NULL ? -1 : 0;
}

/* Ends the printing. Returns 0, or -1 where something could not be printed. */
static int close_sheet(struct sheet *sheet)
{
    int failed = ferror(sheet->file);

    return fclose(sheet->file) != 0 || failed ? -1 : 0;
}

/* Whether what goes to a file may be coloured: on a terminal, and not where NO_COLOR or the terminal says no. */
static int coloured(int fd)
{
    const char *no_color = getenv("NO_COLOR"), *term = getenv("TERM");

    return isatty(fd) && (no_color == NULL || *no_color == '\0') && term != NULL && strcmp(term, "dumb") != 0;
}

/* Says on standard error what could not be done, by errno, and gives the status. */
static enum status cannot(const char *what, const char *name)
{
    const char *why = strerror(errno);

    fprintf(stderr, "cartheron: cannot %s ", what);
    print_name(stderr, name);
    fprintf(stderr, ": %s\n", why);
    return FAILED;
}

/* Writes an answer where the command line wants it. */
static enum status deliver(const char *output, const char *bytes, size_t length)
{
    if (output == NULL)
        return write_output(bytes, length) == 0 ? ANSWERED : cannot("write", "standard output");
    return write_file(output, bytes, length) == 0 ? ANSWERED : cannot("write", output);
}

/* Answers a request on two sheets and brings each where it belongs. */
static enum status serve(const struct request *request, const char *output)
{
    struct sheet out, words;

    if (open_sheet(&out) != 0)
        return cannot("hold", "the answer");
    if (open_sheet(&words) != 0) {
        close_sheet(&out);
        free(out.bytes);
        return cannot("hold", "the answer");
    }
    enum status status = answer(out.file, words.file, request);
    int printed = close_sheet(&out) == 0, told = close_sheet(&words) == 0;
    if (!printed || !told || status == FAILED)
        status = cannot("hold", "the answer");
    else if (status == ANSWERED)
        status = deliver(output, out.bytes, out.length);
    else if (write_all(STDERR_FILENO, words.bytes, words.length) != 0)
        status = FAILED;
    free(out.bytes);
    free(words.bytes);
    return status;
}

/* Says why the command was used wrongly. */
static enum status used_wrongly(const struct arguments *arguments)
{
    fprintf(stderr, "cartheron: %s", arguments->wrong);
    if (arguments->argument != NULL) {
        fputc(' ', stderr);
        print_name(stderr, arguments->argument);
    }
    fputs("\nTry 'cartheron --help'.\n", stderr);
    return FAILED;
}

/* What a file is called in words. */
static const char *name_of(const char *file)
{
    return file != NULL ? file : "standard input";
}

/* Reads the plan that is to be checked, in one byte more than is taken of it, so that a longer one is seen. Returns
 * 0, or -1 with errno. */
static int read_plan(const char *file, struct request *request)
{
    static uint8_t bytes[MOST_PLAN_READ + 1];

    request->plan_name = name_of(file);
    request->plan.bytes = bytes;
    if (read_file(file, bytes, sizeof bytes, &request->plan.length) != 0)
        return -1;
    if (request->plan.length <= MOST_PLAN_READ || cut_plan(request->text, &request->plan) == 0)
        return 0;
    errno = EFBIG;
    return -1;
}

int main(int argc, char **argv)
{
    static uint8_t bytes[MOST_READ];
    struct request request = {0};

    if (prepare_files() != 0)
        return FAILED;
    struct arguments arguments = read_arguments(argc, argv);
    if (arguments.wrong != NULL)
        return used_wrongly(&arguments);
    if (arguments.help || arguments.version) {
        const char *page = arguments.help ? help_of(arguments.command) : version_line();
        return deliver(arguments.output, page, strlen(page));
    }
    request.command = arguments.command;
    request.json = arguments.json;
    request.name = name_of(arguments.site);
    request.colour_out = arguments.output == NULL && coloured(STDOUT_FILENO);
    request.colour_words = coloured(STDERR_FILENO);
    request.text.bytes = bytes;
    if (read_file(arguments.site, bytes, sizeof bytes, &request.text.length) != 0)
        return cannot("read", request.name);
    if (request.command == CHECK && read_plan(arguments.plan, &request) != 0)
        return cannot("read", request.plan_name);
    return serve(&request, arguments.output);
}
