/* The flows: each as a path over the bars, and once more alone in a lane of its own, where it can be
 * followed also among 128. */
#include <stdbool.h>
#include "picture_parts.h"

#define HEAD_LETTER 610L /* the width of a letter of a lane's head, in hundredths */
#define MOST_HEAD 64
#define MANY_FLOWS 24 /* more than these are drawn thin over the bars */

/* A point of a path as it is drawn. A period that is crossed on the way to it is marked at a place on
 * that way. */
struct stop {
    struct point at, mark;
    bool crossing;
    long radius; /* of a dot or a ring at this point */
};

struct trail {
    int stops;
    struct stop stop[2 * MOST_CLUSTERS + 1];
};

/* Whether a period is crossed on the way to the cluster at a place of a path. */
static bool crosses_to(const struct drawing *d, const int *path, int i)
{
    return i > 0 && d->plan->start[path[i]] < d->plan->start[path[i - 1]];
}

static void print_point(FILE *out, char command, struct point at)
{
    fputc(command, out);
    svg_number(out, at.x);
    fputc(' ', out);
    svg_number(out, at.y);
}

/* The steps of a trail that cross a period, or those that do not, as one path. */
static void draw_steps(FILE *out, const struct trail *trail, bool crossing)
{
    bool begun = false, joined = false;
    for (int i = 1; i < trail->stops; i++) {
        if (trail->stop[i].crossing != crossing) {
            joined = false;
            continue;
        }
        if (!begun)
            fprintf(out, "<path class=\"path%s\" d=\"", crossing ? " crossing" : "");
        if (!joined)
            print_point(out, 'M', trail->stop[i - 1].at);
        print_point(out, 'L', trail->stop[i].at);
        begun = joined = true;
    }
    if (begun)
        fputs("\"/>\n", out);
}

/* A diamond on each step that crosses a period. */
static void draw_marks(FILE *out, const struct trail *trail)
{
    for (int i = 1; i < trail->stops; i++) {
        if (!trail->stop[i].crossing)
            continue;
        struct point mark = trail->stop[i].mark;
        fputs("<path class=\"mark\" d=\"", out);
        print_point(out, 'M', (struct point){mark.x, mark.y - 4 * PX});
        fputs("l4 4-4 4-4-4z\"/>\n", out);
    }
}

static void draw_trail(FILE *out, const struct trail *trail)
{
    draw_steps(out, trail, false);
    draw_steps(out, trail, true);
    draw_marks(out, trail);
    const struct stop *last = &trail->stop[trail->stops - 1];
    svg_circle(out, "sink", last->at, last->radius + 3 * PX / 2);
    svg_circle(out, "source", trail->stop[0].at, trail->stop[0].radius);
}

/* The words of a flow: its number, source and sink, and the crossings it takes and may take. */
static void head_of(const struct drawing *d, int f, char head[MOST_HEAD])
{
    const struct flow *flow = &d->site->flow[f];
    snprintf(head, MOST_HEAD, "%d: %d to %d, %d of %u", f, flow->source, flow->sink,
             crossings(d->site, d->plan, flow), (unsigned)allowed(flow->deadline, d->interval));
}

/* The height of the longest head: they stand upright above their lanes. */
long lane_head(const struct drawing *d)
{
    long height = 0;
    for (int f = 0; f < d->site->flows; f++) {
        char head[MOST_HEAD];
        head_of(d, f, head);
        long letters = 0;
        while (head[letters] != 0)
            letters++;
        height = letters > height ? letters : height;
    }
    return height * HEAD_LETTER;
}

/* Words that stand upright at a lane, from the given height up or, with the class end, down. */
static void draw_upright(const struct drawing *d, int f, const char *class, long y, const char *words)
{
    fprintf(d->out, "<text class=\"%s\" transform=\"translate(", class);
    svg_number(d->out, d->lanes + f * LANE + 4 * PX);
    fputc(' ', d->out);
    svg_number(d->out, y);
    fprintf(d->out, ") rotate(-90)\">%s</text>\n", words);
}

/* A mark on the way from one point to another, by the flow's place among those that take the same step. */
static struct point mark_between(struct point from, struct point to, int place, int places)
{
    long quarters = places + 2 * place;
    return (struct point){from.x + (to.x - from.x) * quarters / (4 * places),
                          from.y + (to.y - from.y) * quarters / (4 * places)};
}

/* The path over the bars, at its own height in each: the flows before it took the heights above. The
 * marks of flows that take the same step lie at different places, by their heights in the bar that
 * fewer flows pass. */
static void over_bars(const struct drawing *d, const int *path, int clusters, int taken[MOST_CLUSTERS])
{
    struct trail trail = {.stops = clusters};
    for (int i = 0; i < clusters; i++) {
        int c = path[i], place = ++taken[c], places = d->passing[c] + 1, before = path[i > 0 ? i - 1 : 0];
        struct stop *stop = &trail.stop[i];
        stop->at.x = bar_start(d, c) + bar_width(d, c) / 2;
        stop->at.y = d->middle[c] - d->bar[c] / 2 + d->bar[c] * place / places;
        stop->radius = d->bar[c] * 2 / 7 / places;
        stop->radius = stop->radius < PX ? PX : stop->radius;
        stop->crossing = crosses_to(d, path, i);
        if (stop->crossing && d->passing[before] < d->passing[c])
            stop->mark = mark_between(trail.stop[i - 1].at, stop->at, taken[before], d->passing[before] + 1);
        else if (stop->crossing)
            stop->mark = mark_between(trail.stop[i - 1].at, stop->at, place, places);
    }
    draw_trail(d->out, &trail);
}

/* The path in its lane: up the tree on the left side of the lane, down on the right, with a dash at each
 * cluster on the way. A crossing is marked beside the cluster that it leads to. */
static void in_lane(const struct drawing *d, int f, const int *path, int clusters)
{
    struct trail trail = {0};
    long x = d->lanes + f * LANE - 3 * PX, right = x + 6 * PX;
    for (int i = 0; i < clusters; i++) {
        long y = d->middle[path[i]], from = i > 0 ? d->middle[path[i - 1]] : y;
        trail.stop[trail.stops++] = (struct stop){
            .at = {x, y}, .mark = {x, from > y ? y + 11 * PX : y - 11 * PX},
            .crossing = crosses_to(d, path, i), .radius = 5 * PX / 2
        };
        if (i > 0 && i + 1 < clusters)
            svg_line(d->out, "path", (struct point){x - 3 * PX, y}, (struct point){x + 3 * PX, y});
        if (x != right && i + 1 < clusters && d->depth[path[i + 1]] > d->depth[path[i]]) {
            x = right;
            trail.stop[trail.stops++] = (struct stop){.at = {x, y}};
        }
    }
    draw_trail(d->out, &trail);
}

/* All flows, the same number in the same colour over the bars and in the lanes. */
void draw_flows(const struct drawing *d)
{
    int taken[MOST_CLUSTERS] = {0};
    for (int f = 0; f < d->site->flows; f++) {
        int path[2 * MOST_CLUSTERS], clusters = path_of(d->site, &d->site->flow[f], path);
        char head[MOST_HEAD], number[12];
        head_of(d, f, head);
        snprintf(number, sizeof number, "%d", f);
        draw_upright(d, f, "head", d->rows - 6 * PX, head);
        draw_upright(d, f, "head end", d->rows_end + 6 * PX, number);
        fprintf(d->out, "<g class=\"flow f%d\"><title>flow %s</title>\n", f % 6, head);
        fprintf(d->out, "<g%s>\n", d->site->flows > MANY_FLOWS ? " class=\"thin\"" : "");
        over_bars(d, path, clusters, taken);
        fputs("</g>\n", d->out);
        in_lane(d, f, path, clusters);
        fputs("</g>\n", d->out);
    }
}
