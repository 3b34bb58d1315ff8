/* What the files of the picture share: the layout, and the elements of SVG that it is drawn with.
 *
 * From left to right stand the tree, the plot with the portions over time, and a lane for each flow;
 * a row of all three belongs to a cluster. Below the plot stands a strip with the whole interval.
 * Lengths are whole hundredths of a pixel, so that the same plan gives the same bytes everywhere. */
#ifndef CLI_PICTURE_PARTS_H
#define CLI_PICTURE_PARTS_H

#include <stdio.h>
#include "model.h"

#define PX 100L          /* one pixel */
#define MARGIN (20 * PX) /* around everything */
#define LINE (18 * PX)   /* from one line of words to the next */
#define GAP (10 * PX)    /* between words and what they stand beside */
#define STRIP (22 * PX)  /* the height of the strip */

struct point {
    long x, y;
};

struct drawing {
    FILE *out;
    const struct site *site;
    const struct plan *plan;
    uint32_t used, interval;       /* symbols: the end of the last portion, and of the interval */
    int sequence[MOST_CLUSTERS];   /* the clusters from the top row down: each before its children */
    int depth[MOST_CLUSTERS];      /* of each cluster by its number */
    int passing[MOST_CLUSTERS];    /* how many flows have it on their path */
    long middle[MOST_CLUSTERS];    /* the height at which its row has its middle */
    long bar[MOST_CLUSTERS];       /* how high its bar is */
    long indent;                   /* for each step of depth */
    long rows, rows_end;           /* the heights between which the rows lie */
    long plot, plot_end;           /* the places between which the plot lies */
    long lanes;                    /* the place of the first flow's lane */
    struct point size;             /* of the whole picture */
};

/* picture_svg.c: elements. A class is a name of the style sheet. */
void svg_open(const struct drawing *d);
void svg_number(FILE *out, long hundredths);
void svg_line(FILE *out, const char *class, struct point from, struct point to);
void svg_box(FILE *out, const char *class, struct point corner, struct point size);
void svg_circle(FILE *out, const char *class, struct point middle, long radius);
void svg_words(FILE *out, const char *class, struct point at, const char *words);
void svg_escaped(FILE *out, const char *words);
void svg_ms(FILE *out, uint32_t symbols);

/* picture_rows.c: the parts that stand in rows, and what stands around them. */
long bar_start(const struct drawing *d, int cluster);
long bar_width(const struct drawing *d, int cluster);
void draw_rows(const struct drawing *d);
void draw_tree(const struct drawing *d);
void draw_bars(const struct drawing *d);
void draw_axes(const struct drawing *d);
void draw_strip(const struct drawing *d);

/* picture_flows.c: the flows over the bars and in their lanes. */
#define LANE (16 * PX)
long lane_head(const struct drawing *d);
void draw_flows(const struct drawing *d);

/* picture_words.c: the title and the legend. */
long words_height(const struct drawing *d);
void draw_words(const struct drawing *d);

#endif
