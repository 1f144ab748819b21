/* svo info: what is in a node file: its grid, its records and cells by level, the box of its filled cells, its faces.
 * The file's words are followed and not checked whole; `svo check` does that. Not part of what is proved. */
#define _FILE_OFFSET_BITS 64
#include "svo_nodes.h"
#include "tool.h"

struct told {
    const struct svo_nodes *nodes;
    uint64_t nodes_of[13];
    uint64_t cells, least_face, greatest_face;
    uint32_t low[3], high[3];
};

static void tell_cell(struct told *told, uint64_t code, uint64_t face) {
    uint32_t place[3];
    svo_place(code, place);
    for (int i = 0; i < 3; i++) {
        if (!told->cells || place[i] < told->low[i]) told->low[i] = place[i];
        if (!told->cells || place[i] > told->high[i]) told->high[i] = place[i];
    }
    if (!told->cells || face < told->least_face) told->least_face = face;
    if (!told->cells || face > told->greatest_face) told->greatest_face = face;
    told->cells++;
}

static int visit(void *context, int level, uint64_t code, uint64_t number) {
    struct told *told = context;
    uint64_t word = svo_word(told->nodes, number);
    told->nodes_of[level]++;
    if (level == told->nodes->depth) tell_cell(told, code, word >> 8);
    if (level < told->nodes->depth - 1 || told->nodes->format == 2) return 0;
    for (uint64_t i = 0; i < 8; i++)
        if (word >> i & 1) {
            told->nodes_of[level + 1]++;
            tell_cell(told, 8 * code + i, 0);
        }
    return 0;
}

/* A number of units, with the decimals that were kept. */
static void print_units(int64_t number, int decimals) {
    int64_t scale = 1;
    uint64_t size = (uint64_t)(number < 0 ? -number : number);
    for (int i = 0; i < decimals; i++) scale *= 10;
    printf("%s%" PRIu64, number < 0 ? "-" : "", size / (uint64_t)scale);
    if (decimals) printf(".%0*" PRIu64, decimals, size % (uint64_t)scale);
}

static void print_box(const struct told *told, int in_units, int decimals) {
    const struct svo_nodes *nodes = told->nodes;
    for (int i = 0; i < 3; i++) {
        printf("%s%c ", i ? ", " : "", "xyz"[i]);
        if (!in_units) {
            printf("%" PRIu32 " to %" PRIu32, told->low[i], told->high[i]);
            continue;
        }
        print_units(nodes->origin[i] + told->low[i] * nodes->side, decimals);
        printf(" to ");
        print_units(nodes->origin[i] + (told->high[i] + INT64_C(1)) * nodes->side, decimals);
    }
    printf("\n");
}

static void print_grid(const struct svo_nodes *nodes, int decimals) {
    printf("grid: %d cells along each axis, from", 1 << nodes->depth);
    for (int i = 0; i < 3; i++) {
        printf(" ");
        print_units(nodes->origin[i], decimals);
    }
    printf(", cell side ");
    print_units(nodes->side, decimals);
    printf("\n");
}

static void print_told(const char *name, const struct told *told, int decimals) {
    const struct svo_nodes *nodes = told->nodes;
    printf("%s: format %d, depth %d, %" PRIu64 " records, %" PRIu64 " cells\n", name, nodes->format, nodes->depth, nodes->records, nodes->filled);
    print_grid(nodes, decimals);
    printf("filled nodes by level:");
    for (int level = 0; level <= nodes->depth; level++) printf(" %" PRIu64, told->nodes_of[level]);
    printf("\n");
    if (!told->cells) return;
    printf("filled box in cells: ");
    print_box(told, 0, 0);
    printf("filled box in units: ");
    print_box(told, 1, decimals);
    if (nodes->format == 2) printf("faces: %" PRIu64 " to %" PRIu64 "\n", told->least_face, told->greatest_face);
}

int main(int count, char **words) {
    struct svo_nodes nodes;
    static struct told told;
    const char *name = NULL;
    int decimals = 0;
    tool_name = "info";
    for (int i = 1; i < count; i++) {
        if (!strcmp(words[i], "--decimals") && i + 1 < count) decimals = digit_of(words[++i]);
        else if (!strncmp(words[i], "--decimals=", 11)) decimals = digit_of(words[i] + 11);
        else if (!name && words[i][0] != '-') name = words[i];
        else decimals = -1;
    }
    if (!name || decimals < 0) stop(USAGE, "'svo help info' tells the words of info");
    switch (svo_open(&nodes, name)) {
    case SVO_YES: break;
    case SVO_NO_FILE: stop(NO_NODES, "there is no file %s", name);
    case SVO_NO_MEMORY: stop(7, "%s cannot be mapped", name);
    default: stop(NO_NODES, "%s is not a node file", name);
    }
    told.nodes = &nodes;
    int is_empty = nodes.records == 1 && svo_word(&nodes, 0) == 0;
    if (!is_empty && (svo_walk_nodes(&nodes, visit, &told) || told.cells != nodes.filled)) stop(NO_NODES, "%s has words that lead nowhere: 'svo check --nodes %s' names the first", name, name);
    if (is_empty) told.nodes_of[0] = 0;
    print_told(name, &told, decimals);
    return fflush(stdout) || ferror(stdout) ? DEVICE : 0;
}
