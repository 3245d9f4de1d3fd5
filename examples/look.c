/* Tells where a point of the order file on standard input stands, and which lines end there:
   cc -Iinclude -o target/look_c examples/look.c target/staticlib/libpanel_c.a
   target/look_c 3 <examples/k4.order */
#include <inttypes.h>
#include <stdio.h>
#include <stdlib.h>
#include "panel.h"

/* The word for a kind of line. */
static const char *kind_word(uint64_t kind)
{
    switch (kind) {
    case PANEL_KIND_GUIDE:
        return "guide";
    case PANEL_KIND_FEEDER:
        return "feeder";
    default:
        return "plain";
    }
}

/* Writes the lines that end at the point. */
static void tell_lines(const uint8_t *order, size_t length, size_t point)
{
    struct panel_refusal refusal;
    struct panel_seen_line line;
    for (size_t number = 0; panel_line(order, length, number, &line, &refusal) == PANEL_FOUND; number++)
        if (line.later == point || line.earlier == point)
            printf("line %zu: %" PRIu64 " to %" PRIu64 ", %s\n", number, line.later, line.earlier,
                   kind_word(line.kind));
}

int main(int count, char **arguments)
{
    static uint8_t order[PANEL_ORDER_INPUT];
    struct panel_refusal refusal;
    struct panel_place place;
    size_t length = fread(order, 1, sizeof order, stdin);
    size_t point = count == 2 ? strtoul(arguments[1], NULL, 10) : 0;
    if (panel_point(order, length, point, &place, &refusal) == PANEL_FOUND) {
        printf("point %zu at (%" PRIu64 ",%" PRIu64 ")\n", point, place.x, place.y);
        tell_lines(order, length, point);
    } else {
        printf("refused %" PRIu64 " at %" PRIu64 "\n", refusal.number, refusal.place);
    }
    if (fflush(stdout) != 0 || ferror(stdout)) {
        perror("look_c: standard output");
        return 1;
    }
    return 0;
}
