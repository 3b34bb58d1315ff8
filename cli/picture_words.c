/* The title of the picture and its legend. */
#include "picture_parts.h"

#define SAMPLE (36 * PX) /* the width of what the legend explains */

long words_height(const struct drawing *d)
{
    return (d->site->flows > 0 ? 10 : 5) * LINE;
}

/* The title, and the figures of the plan. */
static void draw_title(const struct drawing *d)
{
    char words[128];
    snprintf(words, sizeof words, "Plan of %d cluster%s and %d flow%s", d->site->clusters,
             d->site->clusters == 1 ? "" : "s", d->site->flows, d->site->flows == 1 ? "" : "s");
    svg_words(d->out, "title", (struct point){MARGIN, MARGIN + LINE / 2}, words);
    unsigned asleep = (unsigned)((uint64_t)(d->interval - d->used) * 10000 / d->interval);
    uint64_t us = (uint64_t)d->interval * 16;
    snprintf(words, sizeof words, "Beacon order %d, interval %u symbols = %u.%03u ms, asleep %u.%02u %%",
             d->plan->order, (unsigned)d->interval, (unsigned)(us / 1000), (unsigned)(us % 1000), asleep / 100,
             asleep % 100);
    svg_words(d->out, "figures", (struct point){MARGIN, MARGIN + 2 * LINE - 4 * PX}, words);
}

/* The words of the legend's next line, beside their sample; returns the middle of the sample. */
static struct point explain(const struct drawing *d, int line, const char *words)
{
    long y = MARGIN + (3 + line) * LINE;
    svg_words(d->out, "small", (struct point){MARGIN + SAMPLE + GAP, y + 4 * PX}, words);
    return (struct point){MARGIN + SAMPLE / 2, y};
}

void draw_words(const struct drawing *d)
{
    FILE *out = d->out;
    draw_title(d);
    struct point at = explain(d, 0, "a cluster is active: its portion");
    svg_box(out, "portion", (struct point){at.x - SAMPLE / 2, at.y - 6 * PX}, (struct point){SAMPLE, 12 * PX});
    at = explain(d, 1, "all clusters sleep");
    svg_box(out, "sleep", (struct point){at.x - SAMPLE / 2, at.y - 6 * PX}, (struct point){SAMPLE, 12 * PX});
    if (d->site->flows == 0)
        return;
    fputs("<g class=\"flow f0\">\n", out);
    at = explain(d, 2, "a flow's source; its sink");
    svg_circle(out, "source", (struct point){at.x - SAMPLE / 4, at.y}, 5 * PX / 2);
    svg_circle(out, "sink", (struct point){at.x + SAMPLE / 4, at.y}, 4 * PX);
    at = explain(d, 3, "a flow on its way to a later portion, in the same interval");
    svg_line(out, "path", (struct point){at.x - SAMPLE / 2, at.y}, (struct point){at.x + SAMPLE / 2, at.y});
    at = explain(d, 4, "a flow crosses a period: it goes on in an earlier portion, of the next interval");
    svg_line(out, "path crossing", (struct point){at.x - SAMPLE / 2, at.y}, (struct point){at.x + SAMPLE / 2, at.y});
    fputs("<path class=\"mark\" d=\"M", out);
    svg_number(out, at.x);
    fputc(' ', out);
    svg_number(out, at.y - 4 * PX);
    fputs("l4 4-4 4-4-4z\"/>\n</g>\n", out);
    explain(d, 5, "the lanes on the right: each flow alone, up the tree on the left of its lane, down on the right");
    explain(d, 6, "above a lane: the flow's number, source to sink, periods crossed of those allowed");
}
