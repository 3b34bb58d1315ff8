/* The picture of a plan: where everything goes. picture_parts.h says what stands where. */
#include "picture.h"
#include "picture_parts.h"

#define LETTER 730L /* the width of a letter of a tag, in hundredths */
#define LEAST_ROW (22 * PX)
#define LEAST_BAR (14 * PX)
#define MOST_BAR (56 * PX)

/* Puts a cluster in the next row, and its children with all that is below them in the rows after it. */
static void sequence_from(struct drawing *d, int cluster, int depth, int *rows)
{
    d->sequence[(*rows)++] = cluster;
    d->depth[cluster] = depth;
    for (int c = cluster + 1; c < d->site->clusters; c++)
        if (d->site->cluster[c].parent == cluster)
            sequence_from(d, c, depth + 1, rows);
}

/* Counts the flows that pass each cluster. */
static void count_passing(struct drawing *d)
{
    int path[2 * MOST_CLUSTERS];
    for (int f = 0; f < d->site->flows; f++) {
        int clusters = path_of(d->site, &d->site->flow[f], path);
        for (int i = 0; i < clusters; i++)
            d->passing[path[i]]++;
    }
}

/* A bar is the higher the more flows pass it, so that their paths keep apart, up to a limit. */
static void place_rows(struct drawing *d)
{
    long y = d->rows;
    for (int i = 0; i < d->site->clusters; i++) {
        int c = d->sequence[i];
        long wanted = 7L * (d->passing[c] + 1) * PX;
        d->bar[c] = wanted < LEAST_BAR ? LEAST_BAR : wanted > MOST_BAR ? MOST_BAR : wanted;
        long row = d->bar[c] + LEAST_ROW - LEAST_BAR;
        d->middle[c] = y + row / 2;
        y += row;
    }
    d->rows_end = y;
}

/* The width of the tree: that of its longest row, and at least that of the words at its side. */
static long tree_width(const struct drawing *d)
{
    long width = 130 * PX;
    for (int c = 0; c < d->site->clusters; c++) {
        long letters = d->site->cluster[c].tag_len + (c < 10 ? 2 : 3);
        long row = d->depth[c] * d->indent + letters * LETTER + 2 * GAP;
        width = row > width ? row : width;
    }
    return width;
}

/* The layout. Each width and height follows from the ones before it. */
static void lay_out(struct drawing *d)
{
    int rows = 0, deepest = 0;
    sequence_from(d, 0, 0, &rows);
    count_passing(d);
    d->interval = interval_of(d->plan);
    for (int c = 0; c < d->site->clusters; c++) {
        uint32_t end = d->plan->start[c] + d->plan->length[c];
        d->used = end > d->used ? end : d->used;
        deepest = d->depth[c] > deepest ? d->depth[c] : deepest;
    }
    d->indent = (deepest <= 16 ? 16 : 8) * PX;
    d->plot = MARGIN + tree_width(d);
    d->plot_end = d->plot + (d->site->clusters <= 24 ? 480 : 20L * d->site->clusters) * PX;
    d->lanes = d->plot_end + 2 * LANE;
    long head = d->site->flows > 0 ? lane_head(d) : 0;
    long words = words_height(d);
    d->rows = MARGIN + (head > words ? head : words) + LINE;
    place_rows(d);
    d->size.x = d->plot_end + MARGIN + GAP + (d->site->flows > 0 ? LANE + d->site->flows * LANE : 0);
    d->size.y = d->rows_end + 3 * LINE + STRIP + LINE + MARGIN / 2;
}

int picture(FILE *out, const struct site *site, const struct plan *plan)
{
    struct drawing d = {.out = out, .site = site, .plan = plan};
    lay_out(&d);
    svg_open(&d);
    draw_rows(&d);
    draw_words(&d);
    draw_tree(&d);
    draw_axes(&d);
    draw_bars(&d);
    draw_strip(&d);
    draw_flows(&d);
    fputs("</svg>\n", out);
    return fflush(out) != 0 || ferror(out) ? -1 : 0;
}
