/* The elements of SVG that the picture is drawn with, and its style sheet. */
#include "picture_parts.h"

/* Light, dark and print. Nothing is told by colour alone: portions are filled, sleep is hatched, a
 * crossing is dashed and has a diamond, a source is a dot and a sink a ring, and each flow has its lane. */
static const char style[] =
    "text{font-family:'DejaVu Sans',Verdana,Arial,sans-serif;font-size:12px;fill:#1b1f24;stroke:none}\n"
    ".title{font-size:16px;font-weight:bold}\n"
    ".tag,.head{font-family:'DejaVu Sans Mono',Menlo,Consolas,'Liberation Mono',monospace}\n"
    ".number{font-weight:bold}\n"
    ".small,.tick,.head{font-size:10px}\n"
    ".tick{text-anchor:middle}\n"
    ".end{text-anchor:end}\n"
    ".paper{fill:#ffffff}\n"
    ".band{fill:#f1f3f5}\n"
    ".grid{stroke:#ced4da;stroke-width:.5}\n"
    ".branch{stroke:#868e96;fill:none}\n"
    ".axis{stroke:#495057}\n"
    ".zoom{stroke:#868e96;stroke-width:.7;stroke-dasharray:1 2}\n"
    ".portion{fill:#bcd7f2;stroke:#1c5a96}\n"
    ".sleep{fill:url(#hatch);stroke:#495057}\n"
    ".hatch{stroke:#868e96;stroke-width:.8}\n"
    ".path{fill:none;stroke-width:1.2}\n"
    ".thin .path{stroke-width:.7;opacity:.7}\n"
    ".crossing{stroke-dasharray:4 2.5}\n"
    ".mark{fill:#ffffff;stroke-width:1.4}\n"
    ".source{stroke:none}\n"
    ".sink{fill:#ffffff;stroke-width:1.4}\n"
    ".f0{stroke:#111418}.f1{stroke:#b02a37}.f2{stroke:#146c43}.f3{stroke:#6f2dbd}.f4{stroke:#9a5b00}.f5{stroke:#0b7285}\n"
    ".f0 .source{fill:#111418}.f1 .source{fill:#b02a37}.f2 .source{fill:#146c43}\n"
    ".f3 .source{fill:#6f2dbd}.f4 .source{fill:#9a5b00}.f5 .source{fill:#0b7285}\n"
    "@media (prefers-color-scheme:dark){\n"
    "text{fill:#e6e9ec}.paper{fill:#15181c}.band{fill:#1e2227}.grid{stroke:#3a4048}\n"
    ".branch,.zoom,.hatch{stroke:#8b949e}.axis{stroke:#adb5bd}\n"
    ".portion{fill:#1f4468;stroke:#7db5ec}.sleep{stroke:#adb5bd}.mark,.sink{fill:#15181c}\n"
    ".f0{stroke:#f4f6f8}.f1{stroke:#ff8a93}.f2{stroke:#6ee7a8}.f3{stroke:#c9a2ff}.f4{stroke:#ffc266}.f5{stroke:#66d9e8}\n"
    ".f0 .source{fill:#f4f6f8}.f1 .source{fill:#ff8a93}.f2 .source{fill:#6ee7a8}\n"
    ".f3 .source{fill:#c9a2ff}.f4 .source{fill:#ffc266}.f5 .source{fill:#66d9e8}\n"
    "}\n"
    "@media print{\n"
    "text{fill:#000}.paper{fill:#fff}.band{fill:#f4f4f4}.grid{stroke:#ccc}.branch,.axis,.zoom,.hatch{stroke:#333}\n"
    ".portion{fill:#ddd;stroke:#000}.sleep{stroke:#000}.mark,.sink{fill:#fff}\n"
    ".f0,.f1,.f2,.f3,.f4,.f5{stroke:#000}.flow .source{fill:#000}\n"
    "}\n";

/* A length in pixels, with two decimals where it is no whole number. */
void svg_number(FILE *out, long hundredths)
{
    if (hundredths % PX == 0)
        fprintf(out, "%ld", hundredths / PX);
    else
        fprintf(out, "%ld.%02ld", hundredths / PX, hundredths % PX);
}

static void attribute(FILE *out, const char *name, long hundredths)
{
    fprintf(out, " %s=\"", name);
    svg_number(out, hundredths);
    fputc('"', out);
}

/* What comes before the drawn parts: size, a title for programs that read aloud, style, the hatching. */
void svg_open(const struct drawing *d)
{
    FILE *out = d->out;
    fputs("<svg xmlns=\"http://www.w3.org/2000/svg\" role=\"img\"", out);
    attribute(out, "width", d->size.x);
    attribute(out, "height", d->size.y);
    fputs(" viewBox=\"0 0 ", out);
    svg_number(out, d->size.x);
    fputc(' ', out);
    svg_number(out, d->size.y);
    fprintf(out, "\">\n<title>Plan of %d cluster%s and %d flow%s</title>\n", d->site->clusters,
            d->site->clusters == 1 ? "" : "s", d->site->flows, d->site->flows == 1 ? "" : "s");
    fprintf(out, "<style>\n%s</style>\n", style);
    fputs("<defs><pattern id=\"hatch\" width=\"6\" height=\"6\" patternUnits=\"userSpaceOnUse\">"
          "<path class=\"hatch\" d=\"M0 6L6 0\"/></pattern></defs>\n", out);
    svg_box(out, "paper", (struct point){0, 0}, d->size);
}

void svg_line(FILE *out, const char *class, struct point from, struct point to)
{
    fprintf(out, "<line class=\"%s\"", class);
    attribute(out, "x1", from.x);
    attribute(out, "y1", from.y);
    attribute(out, "x2", to.x);
    attribute(out, "y2", to.y);
    fputs("/>\n", out);
}

void svg_box(FILE *out, const char *class, struct point corner, struct point size)
{
    fprintf(out, "<rect class=\"%s\"", class);
    attribute(out, "x", corner.x);
    attribute(out, "y", corner.y);
    attribute(out, "width", size.x);
    attribute(out, "height", size.y);
    fputs("/>\n", out);
}

void svg_circle(FILE *out, const char *class, struct point middle, long radius)
{
    fprintf(out, "<circle class=\"%s\"", class);
    attribute(out, "cx", middle.x);
    attribute(out, "cy", middle.y);
    attribute(out, "r", radius);
    fputs("/>\n", out);
}

/* Words at a place. They are the picture's own, and have no character that XML reads otherwise. */
void svg_words(FILE *out, const char *class, struct point at, const char *words)
{
    fprintf(out, "<text class=\"%s\"", class);
    attribute(out, "x", at.x);
    attribute(out, "y", at.y);
    fprintf(out, ">%s</text>\n", words);
}

/* Words of a site, with the characters that XML reads otherwise written out. */
void svg_escaped(FILE *out, const char *words)
{
    for (; *words != 0; words++)
        switch (*words) {
        case '&': fputs("&amp;", out); break;
        case '<': fputs("&lt;", out); break;
        case '>': fputs("&gt;", out); break;
        case '"': fputs("&quot;", out); break;
        case '\'': fputs("&#39;", out); break;
        default: fputc(*words, out);
        }
}

/* Symbols as milliseconds: a symbol is 16 microseconds, and three decimals are exact. */
void svg_ms(FILE *out, uint32_t symbols)
{
    uint64_t us = (uint64_t)symbols * 16;
    fprintf(out, "%u.%03u", (unsigned)(us / 1000), (unsigned)(us % 1000));
}
