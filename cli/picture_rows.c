/* The tree, the portions over time, the axis and the strip with the whole interval. */
#include "picture_parts.h"

/* The place of a moment in the plot, of the used part of the interval. */
static long place_of(const struct drawing *d, uint32_t symbols)
{
    return d->plot + (long)((uint64_t)(d->plot_end - d->plot) * symbols / d->used);
}

long bar_start(const struct drawing *d, int cluster)
{
    return place_of(d, d->plan->start[cluster]);
}

/* The width of a cluster's bar; the shortest can still be seen. */
long bar_width(const struct drawing *d, int cluster)
{
    long width = place_of(d, d->plan->start[cluster] + d->plan->length[cluster]) - bar_start(d, cluster);
    return width < 2 * PX ? 2 * PX : width;
}

/* Every second row is shaded over the whole width, to lead the eye from a tag to its bar and the lanes. */
void draw_rows(const struct drawing *d)
{
    for (int i = 1; i < d->site->clusters; i += 2) {
        int c = d->sequence[i], above = d->sequence[i - 1];
        long top = d->middle[above] + d->bar[above] / 2 + 4 * PX;
        struct point size = {d->size.x - MARGIN, d->bar[c] + 8 * PX};
        svg_box(d->out, "band", (struct point){MARGIN / 2, top}, size);
    }
}

/* The lines from a cluster's parent: down below its number, then across to the cluster. */
static void draw_branch(const struct drawing *d, int cluster)
{
    int parent = d->site->cluster[cluster].parent;
    long x = MARGIN + d->depth[parent] * d->indent + 9 * PX / 2;
    fputs("<path class=\"branch\" d=\"M", d->out);
    svg_number(d->out, x);
    fputc(' ', d->out);
    svg_number(d->out, d->middle[parent] + 7 * PX);
    fputc('V', d->out);
    svg_number(d->out, d->middle[cluster]);
    fputc('H', d->out);
    svg_number(d->out, x + d->indent - 13 * PX / 2);
    fputs("\"/>\n", d->out);
}

/* Each cluster by its number and its tag. */
void draw_tree(const struct drawing *d)
{
    for (int i = 0; i < d->site->clusters; i++) {
        int c = d->sequence[i];
        if (i > 0)
            draw_branch(d, c);
        fputs("<text class=\"tag\" x=\"", d->out);
        svg_number(d->out, MARGIN + d->depth[c] * d->indent);
        fputs("\" y=\"", d->out);
        svg_number(d->out, d->middle[c] + 4 * PX);
        fprintf(d->out, "\"><tspan class=\"number\">%d</tspan> ", c);
        svg_escaped(d->out, d->site->cluster[c].tag);
        fputs("</text>\n", d->out);
    }
}

/* Each portion, and for who points at it its tag and times. */
void draw_bars(const struct drawing *d)
{
    for (int i = 0; i < d->site->clusters; i++) {
        int c = d->sequence[i];
        fprintf(d->out, "<g><title>%d ", c);
        svg_escaped(d->out, d->site->cluster[c].tag);
        fputs(": ", d->out);
        svg_ms(d->out, d->plan->start[c]);
        fputs(" to ", d->out);
        svg_ms(d->out, d->plan->start[c] + d->plan->length[c]);
        fputs(" ms</title>\n", d->out);
        struct point corner = {bar_start(d, c), d->middle[c] - d->bar[c] / 2};
        svg_box(d->out, "portion", corner, (struct point){bar_width(d, c), d->bar[c]});
        fputs("</g>\n", d->out);
    }
}

/* The milliseconds between two ticks: 1, 2 or 5 with zeros behind, so that at most ten ticks follow the first. */
static uint32_t tick_step(uint32_t used)
{
    uint32_t ms = (uint32_t)((uint64_t)used * 16 / 1000), step = 1;
    for (int i = 0; ms / step > 10; i++)
        step = i % 3 == 1 ? step / 2 * 5 : step * 2;
    return step;
}

/* The axis above and below the rows, in milliseconds, with a line through the rows at each tick. */
void draw_axes(const struct drawing *d)
{
    uint32_t step = tick_step(d->used);
    long above = d->rows - 6 * PX, below = d->rows_end + 14 * PX;
    svg_words(d->out, "small", (struct point){MARGIN, above}, "cluster");
    svg_words(d->out, "small end", (struct point){d->plot - GAP, above}, "time in ms");
    svg_words(d->out, "small end", (struct point){d->plot - GAP, below}, "time in ms");
    for (uint64_t ms = 0; ms * 1000 <= (uint64_t)d->used * 16; ms += step) {
        /* A tick need not fall on a whole symbol: its place is worked out in microseconds. */
        long x = d->plot + (long)((uint64_t)(d->plot_end - d->plot) * ms * 1000 / ((uint64_t)d->used * 16));
        char number[24];
        snprintf(number, sizeof number, "%u", (unsigned)ms);
        svg_line(d->out, "grid", (struct point){x, d->rows}, (struct point){x, d->rows_end});
        svg_words(d->out, "tick", (struct point){x, above}, number);
        svg_words(d->out, "tick", (struct point){x, below}, number);
    }
    svg_line(d->out, "axis", (struct point){d->plot, d->rows}, (struct point){d->plot_end, d->rows});
    svg_line(d->out, "axis", (struct point){d->plot, d->rows_end}, (struct point){d->plot_end, d->rows_end});
}

/* How long the clusters are active and asleep, at the two ends below the strip. */
static void draw_strip_words(const struct drawing *d, long y)
{
    fputs("<text class=\"small\" x=\"", d->out);
    svg_number(d->out, d->plot);
    fputs("\" y=\"", d->out);
    svg_number(d->out, y);
    fputs("\">", d->out);
    svg_ms(d->out, d->used);
    fputs(" ms active</text>\n<text class=\"small end\" x=\"", d->out);
    svg_number(d->out, d->plot_end);
    fputs("\" y=\"", d->out);
    svg_number(d->out, y);
    fputs("\">", d->out);
    svg_ms(d->out, d->interval - d->used);
    fputs(" ms asleep</text>\n", d->out);
}

/* The whole interval as a strip as wide as the plot: first the used part, which the plot shows, then sleep. */
void draw_strip(const struct drawing *d)
{
    long top = d->rows_end + 3 * LINE, width = d->plot_end - d->plot;
    long used = (long)((uint64_t)width * d->used / d->interval);
    used = used < PX ? PX : used;
    long zoom = d->rows_end + LINE;
    svg_line(d->out, "zoom", (struct point){d->plot, zoom}, (struct point){d->plot, top});
    svg_line(d->out, "zoom", (struct point){d->plot_end, zoom}, (struct point){d->plot + used, top});
    svg_box(d->out, "sleep", (struct point){d->plot, top}, (struct point){width, STRIP});
    svg_box(d->out, "portion", (struct point){d->plot, top}, (struct point){used, STRIP});
    svg_words(d->out, "small end", (struct point){d->plot - GAP, top + STRIP / 2 + 4 * PX}, "the whole interval");
    draw_strip_words(d, top + STRIP + 14 * PX);
}
