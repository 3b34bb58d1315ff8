/* From texts to what a command prints. */
#include "answer.h"
#include "cartheron.h"
#include "check.h"
#include "picture.h"
#include "tables.h"
#include "tell.h"

_Static_assert(CARTHERON_LONGEST_PLAN <= CARTHERON_LONGEST_SITE, "a room for a site holds a plan");

/* Prints a plan that was written into a room, as a command wants it. */
static int print_plan(FILE *out, const struct request *request, const uint8_t *room, size_t length)
{
    struct site site;
    struct plan plan;

    site_of_text(&site, request->text);
    plan_of_text(&plan, (struct part){room, length});
    if (request->command == PICTURE)
        return picture(out, &site, &plan);
    if (request->json)
        json_plan(out, &site, &plan);
    else
        show_plan(out, paint_for(request->colour_out), &site, &plan);
    return 0;
}

static void print_site(FILE *out, const struct request *request)
{
    struct site site;

    site_of_text(&site, request->text);
    if (request->json)
        json_site(out, &site);
    else
        show_site(out, paint_for(request->colour_out), &site);
}

/* Answers a command that takes a site alone. */
static enum status answer_site(FILE *out, FILE *words, const struct request *request)
{
    uint8_t room[CARTHERON_LONGEST_SITE];
    int reads_only = request->command == SITE || request->command == REWRITE;
    const struct part *text = &request->text;
    uint32_t length = reads_only ? cartheron_rewrite(text->bytes, text->length, room, sizeof room)
                                 : cartheron_plan(text->bytes, text->length, room, sizeof room);
    int failed = 0;

    if (CARTHERON_REFUSED(length)) {
        tell(words, paint_for(request->colour_words), request->name, *text, length);
        return ferror(words) ? FAILED : REFUSED;
    }
    if (request->command == PLAN || request->command == REWRITE)
        fwrite(room, 1, length, out);
    else if (request->command == SITE)
        print_site(out, request);
    else
        failed = print_plan(out, request, room, length) != 0;
    return failed || ferror(out) ? FAILED : ANSWERED;
}

enum status answer(FILE *out, FILE *words, const struct request *request)
{
    return request->command == CHECK ? check(out, words, request) : answer_site(out, words, request);
}
