/* The chart: a plain SVG of the rates on 64,000 bytes, a group of bars for each piece of work. */
#include "report.h"

#include <stdio.h>

enum { BARS = 3, WIDTH = 860, HEIGHT = 420, LEFT = 70, TOP = 80, PLOT = 270, BAR = 38, GROUP = 155 };

static const int shown[BARS] = {OURS, BYTES_O3, WORDS};
static const char *const names[BARS] = {"Balzenoh (proved)", "C, byte tables (the faster build)", "C, 32-bit tables"};
static const char *const colours[BARS] = {"#1b5e8a", "#d9903d", "#8a8a8a"};

/* The axis ends at a multiple of 50 above every bar. */
static double axis_end(const struct figures *f) {
    double end = 50;
    for (int task = 0; task < TASKS; task++)
        for (int bar = 0; bar < BARS; bar++)
            while (end < rate(f, LONG, task, shown[bar]))
                end += 50;
    return end;
}

static void write_axis(FILE *svg, double end) {
    for (double value = 0; value <= end; value += 50) {
        double y = TOP + PLOT * (1 - value / end);
        fprintf(svg, "<line x1='%d' y1='%.1f' x2='%d' y2='%.1f' stroke='#dddddd'/>\n", LEFT, y, WIDTH - 10, y);
        fprintf(svg, "<text x='%d' y='%.1f' text-anchor='end'>%.0f</text>\n", LEFT - 8, y + 4, value);
    }
    fprintf(svg, "<text transform='translate(20 %d) rotate(-90)' text-anchor='middle'>MB/s</text>\n", TOP + PLOT / 2);
}

static void write_group(FILE *svg, const struct figures *f, int task, double end) {
    int left = LEFT + 20 + GROUP * task;
    for (int bar = 0; bar < BARS; bar++) {
        double value = rate(f, LONG, task, shown[bar]), height = PLOT * value / end;
        int x = left + (BAR + 2) * bar;
        fprintf(svg, "<rect x='%d' y='%.1f' width='%d' height='%.1f' fill='%s'/>\n", x, TOP + PLOT - height, BAR, height, colours[bar]);
        fprintf(svg, "<text x='%d' y='%.1f' text-anchor='middle' font-size='12'>%.0f</text>\n", x + BAR / 2, TOP + PLOT - height - 4, value);
    }
    fprintf(svg, "<text x='%d' y='%d' text-anchor='middle'>%s</text>\n", left + (BAR + 2) * BARS / 2, TOP + PLOT + 20, task_names[task]);
}

static void write_legend(FILE *svg) {
    static const int places[BARS] = {LEFT, LEFT + 190, LEFT + 470};
    for (int bar = 0; bar < BARS; bar++) {
        int x = places[bar];
        fprintf(svg, "<rect x='%d' y='%d' width='14' height='14' fill='%s'/>\n", x, HEIGHT - 32, colours[bar]);
        fprintf(svg, "<text x='%d' y='%d'>%s</text>\n", x + 20, HEIGHT - 20, names[bar]);
    }
}

int write_chart(const struct figures *f, const char *path) {
    FILE *svg = fopen(path, "w");
    double end = axis_end(f);
    if (svg == NULL)
        return 0;
    fprintf(svg, "<svg xmlns='http://www.w3.org/2000/svg' width='%d' height='%d' viewBox='0 0 %d %d' font-family='sans-serif' "
                 "font-size='14' fill='#222222'>\n", WIDTH, HEIGHT, WIDTH, HEIGHT);
    fprintf(svg, "<rect width='%d' height='%d' fill='white'/>\n", WIDTH, HEIGHT);
    fprintf(svg, "<text x='%d' y='34' font-size='19'>Cipher-State mode and bare AES-128 on 64,000 bytes</text>\n", LEFT);
    fprintf(svg, "<text x='%d' y='56' fill='#666666'>Millions of bytes a second; more is better. One run, one core.</text>\n", LEFT);
    write_axis(svg, end);
    for (int task = 0; task < TASKS; task++)
        write_group(svg, f, task, end);
    write_legend(svg);
    fprintf(svg, "</svg>\n");
    return fclose(svg) == 0;
}
