/* Writes the cutter's moves of the order file on standard input, one a line. The arguments are the tool's pitch, depth and
   clearance, in eighths of a millimetre; with the word `straight` after them the lines are straight:
   cc -Iinclude -o target/moves_c examples/moves.c target/staticlib/libpanel_c.a
   target/moves_c 8 8 8 <examples/k4.order */
#include <inttypes.h>
#include <stdio.h>
#include <stdlib.h>
#include <string.h>
#include "panel.h"

#define MOST PANEL_MOST_MOVES(PANEL_MOST_POINTS)

/* Writes a move, with digits enough for any float. */
static void tell_move(uint8_t kind, float x, float y)
{
    switch (kind) {
    case PANEL_MOVE_TRAVEL:
        printf("travel %.9g %.9g\n", x, y);
        break;
    case PANEL_MOVE_PLUNGE:
        printf("plunge %.9g\n", x);
        break;
    case PANEL_MOVE_CUT:
        printf("cut %.9g %.9g\n", x, y);
        break;
    case PANEL_MOVE_LIFT:
        printf("lift %.9g\n", x);
        break;
    }
}

int main(int count, char **arguments)
{
    static uint8_t order[PANEL_ORDER_INPUT], kinds[MOST];
    static float at[2 * MOST];
    struct panel_refusal refusal;
    float tool[3] = {0, 0, 0}; /* a number that isn't given stays 0, which is refused */
    int straight = count == 5 && strcmp(arguments[4], "straight") == 0;
    size_t length = fread(order, 1, sizeof order, stdin);
    uint64_t moves;
    for (int i = 0; i < 3 && i + 1 < count; i++)
        tool[i] = strtof(arguments[i + 1], NULL);
    moves = straight ? panel_straight_moves(order, length, tool[0], tool[1], tool[2], kinds, MOST, at, 2 * MOST, &refusal)
                     : panel_moves(order, length, tool[0], tool[1], tool[2], kinds, MOST, at, 2 * MOST, &refusal);
    if (refusal.number != 0)
        printf("refused %" PRIu64 " at %" PRIu64 "\n", refusal.number, refusal.place);
    else
        for (size_t i = 0; i < moves; i++)
            tell_move(kinds[i], at[2 * i], at[2 * i + 1]);
    if (fflush(stdout) != 0 || ferror(stdout)) {
        perror("moves_c: standard output");
        return 1;
    }
    return 0;
}
