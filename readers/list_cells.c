/* Lists the cells of a node file as `svo cells` does, code, x, y, z, or with --faces the face of each as well. An
 * example of svo_nodes.h:
 *     cc -O2 -o list_cells list_cells.c && ./list_cells house.svo */
#include "svo_nodes.h"
#include <inttypes.h>
#include <stdio.h>

static int print_cell(void *context, uint64_t code, uint64_t face) {
    const int *with_faces = context;
    uint32_t place[3];
    svo_place(code, place);
    printf("%" PRIu64 " %" PRIu32 " %" PRIu32 " %" PRIu32, code, place[0], place[1], place[2]);
    if (*with_faces) printf(" %" PRIu64, face);
    putchar('\n');
    return 0;
}

int main(int count, char **words) {
    struct svo_nodes nodes;
    int with_faces = count == 3 && !strcmp(words[1], "--faces");
    if (count != 2 + with_faces || svo_open(&nodes, words[1 + with_faces]) != SVO_YES) {
        fputs("list_cells: give the name of a node file, and --faces before it if the faces are wanted\n", stderr);
        return 2;
    }
    int status = svo_walk(&nodes, print_cell, &with_faces) ? 1 : 0;
    svo_close(&nodes);
    return fflush(stdout) || status;
}
