/* Reads node files, of format 1 and 2, as docs/FORMATS.md describes them, in C99 on a POSIX system: the file is
 * mapped, and read as far as it is asked for. Include it before other headers, or define _POSIX_C_SOURCE 200809L.
 *
 * The frame of a file is checked when it is opened. Its words are only followed as far as they are asked for,
 * and SVO_BROKEN is answered where one of those leads nowhere; `svo check` checks a file whole. */
#ifndef SVO_NODES_H
#define SVO_NODES_H
#ifndef _POSIX_C_SOURCE
#define _POSIX_C_SOURCE 200809L
#endif

#include <fcntl.h>
#include <stdint.h>
#include <string.h>
#include <sys/mman.h>
#include <sys/stat.h>
#include <unistd.h>

enum { SVO_NO = 0, SVO_YES = 1, SVO_BROKEN = -1, SVO_NO_FILE = -2, SVO_NO_MEMORY = -3, SVO_NOT_NODES = -4 };

struct svo_nodes {
    const unsigned char *bytes;
    uint64_t size;    /* of the file, in bytes */
    uint64_t records; /* how many words there are */
    uint64_t filled;  /* how many filled cells */
    int64_t origin[3], side; /* the grid's lower corner, the side of a cell */
    int depth, format;
};

/* Is called with each filled cell and its face; anything but 0 ends the walk. */
typedef int svo_visit(void *context, uint64_t code, uint64_t face);

static inline uint64_t svo_number_at(const unsigned char *bytes) {
    uint64_t number = 0;
    for (int i = 7; i >= 0; i--) number = number << 8 | bytes[i];
    return number;
}

static inline uint64_t svo_word(const struct svo_nodes *nodes, uint64_t number) {
    return svo_number_at(nodes->bytes + 48 + 8 * number);
}

static inline int svo_is_framed(struct svo_nodes *nodes, uint64_t size) {
    const unsigned char *head = nodes->bytes, *end = head + size - 32;
    nodes->format = head[7] - '0';
    nodes->depth = (int)(svo_number_at(head + 8) & 0xffffffff);
    for (int i = 0; i < 3; i++) {
        nodes->origin[i] = (int64_t)svo_number_at(head + 16 + 8 * i);
        if (nodes->origin[i] < -(1 << 30) || nodes->origin[i] > 1 << 30) return 0;
    }
    nodes->side = (int64_t)svo_number_at(head + 40);
    nodes->records = svo_number_at(end + 8);
    nodes->filled = svo_number_at(end + 16);
    return memcmp(head, "SVOCUBE", 7) == 0 && memcmp(end + 24, "SVOCEND", 7) == 0 && head[7] == end[31]
        && (nodes->format == 1 || nodes->format == 2) && svo_number_at(head + 8) >> 32 == 0 && svo_number_at(end) == 0
        && nodes->depth >= 1 && nodes->depth <= 12 && nodes->side >= 1 && nodes->side <= (INT64_C(1) << 32 >> nodes->depth)
        && nodes->records == (size - 80) / 8;
}

static inline void svo_close(struct svo_nodes *nodes) {
    if (nodes->bytes) munmap((void *)nodes->bytes, nodes->size);
    nodes->bytes = NULL;
}

/* Maps the file: SVO_YES, SVO_NO_FILE, SVO_NO_MEMORY or SVO_NOT_NODES. */
static inline int svo_open(struct svo_nodes *nodes, const char *path) {
    struct stat told;
    void *bytes;
    int file = open(path, O_RDONLY), status = SVO_YES;
    nodes->bytes = NULL;
    if (file < 0) return SVO_NO_FILE;
    if (fstat(file, &told) || !S_ISREG(told.st_mode) || told.st_size < 88 || told.st_size % 8) status = SVO_NOT_NODES;
    nodes->size = (uint64_t)told.st_size;
    bytes = status == SVO_YES ? mmap(NULL, nodes->size, PROT_READ, MAP_SHARED, file, 0) : MAP_FAILED;
    close(file);
    if (status != SVO_YES) return status;
    if (bytes == MAP_FAILED) return SVO_NO_MEMORY;
    nodes->bytes = bytes;
    if (svo_is_framed(nodes, nodes->size)) return SVO_YES;
    svo_close(nodes);
    return SVO_NOT_NODES;
}

/* The number of a node's child that stands before it: SVO_YES, SVO_NO where there is no such child, SVO_BROKEN. */
static inline int svo_child(const struct svo_nodes *nodes, uint64_t number, int place, uint64_t *child) {
    uint64_t word = svo_word(nodes, number);
    if (!(word >> place & 1)) return SVO_NO;
    *child = word >> 8;
    for (int i = 0; i < place; i++) *child += word >> i & 1;
    return *child < number ? SVO_YES : SVO_BROKEN;
}

/* Is called with each filled node, its level and the code of its place there; anything but 0 ends the walk. */
typedef int svo_visit_node(void *context, int level, uint64_t code, uint64_t number);

static inline int svo_walk_nodes_below(const struct svo_nodes *nodes, uint64_t number, uint64_t code, int level, uint64_t *left, svo_visit_node *visit, void *context) {
    uint64_t word, child;
    int stop = visit(context, level, code, number);
    if (stop || level == nodes->depth || (level == nodes->depth - 1 && nodes->format == 1)) return stop;
    word = svo_word(nodes, number);
    child = word >> 8;
    for (uint64_t i = 0; i < 8 && !stop; i++) {
        if (!(word >> i & 1)) continue;
        /* No node stands twice in a node file, so that no walk is longer than the file. */
        if (child >= number || (*left)-- == 0) return SVO_BROKEN;
        stop = svo_walk_nodes_below(nodes, child++, 8 * code + i, level + 1, left, visit, context);
    }
    return stop;
}

/* Visits the nodes that have words, each before those below it, and those of a level by ascending code: 0 once all
 * were visited, SVO_BROKEN, or what a visit answered. */
static inline int svo_walk_nodes(const struct svo_nodes *nodes, svo_visit_node *visit, void *context) {
    uint64_t left = nodes->records - 1;
    return svo_walk_nodes_below(nodes, nodes->records - 1, 0, 0, &left, visit, context);
}

struct svo_cell_visit {
    const struct svo_nodes *nodes;
    svo_visit *visit;
    void *context;
};

static inline int svo_visit_cells(void *context, int level, uint64_t code, uint64_t number) {
    const struct svo_cell_visit *cells = context;
    uint64_t word = svo_word(cells->nodes, number);
    int stop = 0;
    if (level == cells->nodes->depth) return cells->visit(cells->context, code, word >> 8);
    if (level == cells->nodes->depth - 1 && cells->nodes->format == 1)
        for (uint64_t i = 0; i < 8 && !stop; i++)
            if (word >> i & 1) stop = cells->visit(cells->context, 8 * code + i, 0);
    return stop;
}

/* Visits the filled cells by ascending code, each with its face (0 in format 1): 0 once all were visited, SVO_BROKEN,
 * or what a visit answered. */
static inline int svo_walk(const struct svo_nodes *nodes, svo_visit *visit, void *context) {
    struct svo_cell_visit cells = {nodes, visit, context};
    return svo_walk_nodes(nodes, svo_visit_cells, &cells);
}

/* Whether the cell is filled, and its face (0 in format 1): SVO_YES, SVO_NO, SVO_BROKEN. */
static inline int svo_find(const struct svo_nodes *nodes, uint64_t code, uint64_t *face) {
    uint64_t number = nodes->records - 1;
    if (code >> 3 * nodes->depth) return SVO_NO;
    for (int level = 0; level < nodes->depth; level++) {
        int place = (int)(code >> 3 * (nodes->depth - 1 - level) & 7), there;
        if (level == nodes->depth - 1 && nodes->format == 1) {
            *face = 0;
            return svo_word(nodes, number) >> place & 1 ? SVO_YES : SVO_NO;
        }
        there = svo_child(nodes, number, place, &number);
        if (there != SVO_YES) return there;
    }
    *face = svo_word(nodes, number) >> 8;
    return SVO_YES;
}

/* x, y, z of the cell with this Morton code, counted in cells from the origin. */
static inline void svo_place(uint64_t code, uint32_t place[3]) {
    for (int axis = 0; axis < 3; axis++) {
        place[axis] = 0;
        for (int i = 0; i < 12; i++) place[axis] |= (uint32_t)(code >> (3 * i + axis) & 1) << i;
    }
}

#endif
