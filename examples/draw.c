/* Draws the order file on standard input, as the program `draw` does, by the library for C; with the word `straight`
   as its argument, in straight lines:
   cc -Iinclude -o target/draw_c examples/draw.c target/staticlib/libpanel_c.a */
#include <inttypes.h>
#include <stdio.h>
#include <string.h>
#include "panel.h"

int main(int count, char **arguments)
{
    static uint8_t order[PANEL_ORDER_INPUT], drawing[PANEL_LONGEST_DRAWING];
    struct panel_refusal refusal;
    int straight = count == 2 && strcmp(arguments[1], "straight") == 0;
    size_t length = fread(order, 1, sizeof order, stdin);
    size_t written = straight ? panel_straight_draw(order, length, drawing, sizeof drawing, &refusal)
                              : panel_draw(order, length, drawing, sizeof drawing, &refusal);
    if (refusal.number != 0)
        printf("refused %" PRIu64 " at %" PRIu64 "\n", refusal.number, refusal.place);
    else
        fwrite(drawing, 1, written, stdout);
    if (fflush(stdout) != 0 || ferror(stdout)) {
        perror("draw_c: standard output");
        return 1;
    }
    return 0;
}
