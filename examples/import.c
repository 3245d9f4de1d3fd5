/* Writes the order file of the net in planar_code on standard input, as the program `import` does, by the library for C; with
   the word `vertices` as its argument, the list of file vertices by point, one a line, as the program `import_vertices` does:
   cc -Iinclude -o target/import_c examples/import.c target/staticlib/libpanel_c.a
   target/import_c <examples/planar_code/planarg_06_01.pc | target/draw_c */
#include <inttypes.h>
#include <stdio.h>
#include <string.h>
#include "panel.h"

int main(int count, char **arguments)
{
    static uint8_t file[PANEL_PLANAR_CODE_INPUT];
    static uint8_t order[PANEL_IMPORTED_LENGTH(PANEL_MOST_VERTICES)], vertices[PANEL_MOST_VERTICES];
    struct panel_refusal refusal;
    int list = count == 2 && strcmp(arguments[1], "vertices") == 0;
    size_t length = fread(file, 1, sizeof file, stdin);
    size_t written = panel_import(file, length, order, sizeof order, vertices, sizeof vertices, &refusal);
    if (refusal.number != 0)
        printf("refused %" PRIu64 " at %" PRIu64 "\n", refusal.number, refusal.place);
    else if (list)
        for (size_t point = 1; PANEL_IMPORTED_LENGTH(point) <= written; point++)
            printf("%d\n", vertices[point - 1]);
    else
        fwrite(order, 1, written, stdout);
    if (fflush(stdout) != 0 || ferror(stdout)) {
        perror("import_c: standard output");
        return 1;
    }
    return 0;
}
