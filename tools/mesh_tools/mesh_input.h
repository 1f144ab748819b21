/* What the tools of meshes share: a file that is read once, from front to back, in little memory, and the header
 * of a PLY file of either kind. Each refusal ends the tool with one line, and with 3 where the input is at fault. */
#ifndef MESH_INPUT_H
#define MESH_INPUT_H

#include "tool.h"
#include <sys/stat.h>

/* ---- input, through a buffer */

enum { BUFFER = 1 << 18 };

struct input {
    FILE *file;
    const char *name;
    int64_t size;  /* of a usual file, or -1 */
    uint64_t base; /* bytes before the buffer */
    size_t at, held;
    unsigned char bytes[BUFFER];
};

static struct input in;

static void open_input(const char *name) {
    struct stat told;
    in.name = name && strcmp(name, "-") ? name : "standard input";
    in.file = name && strcmp(name, "-") ? fopen(name, "rb") : stdin;
    if (!in.file) stop(DEVICE, "%s cannot be opened", in.name);
    in.size = fstat(fileno(in.file), &told) == 0 && S_ISREG(told.st_mode) ? (int64_t)told.st_size : -1;
    if (in.file == stdin && in.size >= 0 && ftello(stdin) > 0) in.size -= ftello(stdin);
}

/* Up to so many bytes that come next, without taking them; fewer only where the input ends. */
static size_t look(size_t count) {
    if (in.held - in.at < count) {
        memmove(in.bytes, in.bytes + in.at, in.held - in.at);
        in.base += in.at;
        in.held -= in.at;
        in.at = 0;
        in.held += fread(in.bytes + in.held, 1, BUFFER - in.held, in.file);
        if (ferror(in.file)) stop(DEVICE, "%s cannot be read", in.name);
    }
    return in.held - in.at < count ? in.held - in.at : count;
}

/* The next bytes, which stay where they are until the next call. */
static const unsigned char *take(size_t count, const char *what, uint64_t number) {
    if (look(count) < count) stop(REFUSED, "%s ends within %s %" PRIu64 ": was it copied whole?", in.name, what, number);
    in.at += count;
    return in.bytes + in.at - count;
}

/* ---- types of numbers */

enum type { CHAR, UCHAR, SHORT, USHORT, INT, UINT, FLOAT, DOUBLE, NO_TYPE };

static const char *const type_names[] = {"char", "uchar", "short", "ushort", "int", "uint", "float", "double",
                                         "int8", "uint8", "int16", "uint16", "int32", "uint32", "float32", "float64"};
static const size_t type_sizes[] = {1, 1, 2, 2, 4, 4, 4, 8};

static enum type type_named(const char *name) {
    for (int i = 0; i < 16; i++)
        if (!strcmp(name, type_names[i])) return (enum type)(i % 8);
    return NO_TYPE;
}

static int is_whole(enum type type) { return type < FLOAT; }

/* The bits of a number of some bytes. */
static uint64_t bits_of(const unsigned char *bytes, size_t count, int is_big) {
    uint64_t bits = 0;
    for (size_t i = 0; i < count; i++) bits = bits << 8 | bytes[is_big ? i : count - 1 - i];
    return bits;
}

static int64_t whole_of(const unsigned char *bytes, enum type type, int is_big) {
    uint64_t bits = bits_of(bytes, type_sizes[type], is_big);
    switch (type) {
    case CHAR: return (int8_t)bits;
    case SHORT: return (int16_t)bits;
    case INT: return (int32_t)bits;
    default: return (int64_t)bits;
    }
}

/* A number of any type; each of them is exactly a double. */
static double number_of(const unsigned char *bytes, enum type type, int is_big) {
    uint64_t bits;
    uint32_t half;
    float single;
    double both;
    if (is_whole(type)) return (double)whole_of(bytes, type, is_big);
    bits = bits_of(bytes, type_sizes[type], is_big);
    half = (uint32_t)bits;
    memcpy(&single, &half, 4);
    memcpy(&both, &bits, 8);
    return type == FLOAT ? single : both;
}

/* ---- the header of a PLY file */

enum { MOST_ELEMENTS = 16, MOST_PROPERTIES = 128, LONGEST_LINE = 1024 };

enum kind { ASCII, LITTLE, BIG };

struct property {
    enum type type, counter; /* counter: of a list's length, or NO_TYPE */
    char role;               /* 'x', 'y', 'z', 'i' for the list of a face's corners, or 0 */
};

struct element {
    uint64_t count;
    char role; /* 'v', 'f' or 0 */
    int first, properties;
};

struct header {
    enum kind kind;
    int elements, properties;
    struct element element[MOST_ELEMENTS];
    struct property property[MOST_PROPERTIES];
};

/* Reads a line of the header, without its end. */
static void header_line(char line[LONGEST_LINE + 1], int number) {
    size_t length = 0, there = look(LONGEST_LINE + 1);
    while (length < there && in.bytes[in.at + length] != '\n') length++;
    if (length == there) stop(REFUSED, "%s: line %d of the header does not end within %d bytes", in.name, number, LONGEST_LINE);
    memcpy(line, in.bytes + in.at, length);
    in.at += length + 1;
    if (length && line[length - 1] == '\r') length--;
    if (memchr(line, 0, length)) stop(REFUSED, "%s: line %d of the header has a zero byte", in.name, number);
    line[length] = 0;
}

static uint64_t count_of(const char *word, int number) {
    uint64_t count = 0;
    if (!*word || strlen(word) > 19 || strspn(word, "0123456789") != strlen(word)) stop(REFUSED, "%s: line %d has no count", in.name, number);
    for (; *word; word++) count = 10 * count + (uint64_t)(*word - '0');
    if (count > INT64_MAX) stop(REFUSED, "%s: the count of line %d is too large", in.name, number);
    return count;
}

static char role_of_element(struct header *head, const char *name, uint64_t count, int number) {
    char role = !strcmp(name, "vertex") ? 'v' : !strcmp(name, "face") ? 'f' : 0;
    int has_vertex = 0;
    for (int i = 0; i < head->elements; i++) {
        has_vertex |= head->element[i].role == 'v';
        if (role && head->element[i].role == role) stop(REFUSED, "%s: line %d has a second %s (build: BadHeader)", in.name, number, name);
    }
    if (role == 'f' && !has_vertex) stop(REFUSED, "%s: the faces come before the vertices (build: FaceFirst)", in.name);
    if (role && count > 4294967295u) stop(REFUSED, "%s: more than 4294967295 of %s (build: HeaderTooLarge)", in.name, name);
    return role;
}

static void take_element(struct header *head, char **word, int words, int number) {
    struct element *element = &head->element[head->elements];
    if (words != 3) stop(REFUSED, "%s: line %d is not an element with its count", in.name, number);
    if (head->elements == MOST_ELEMENTS) stop(REFUSED, "%s: more than %d elements (build: HeaderTooLarge)", in.name, MOST_ELEMENTS);
    element->count = count_of(word[2], number);
    element->role = role_of_element(head, word[1], element->count, number);
    element->first = head->properties;
    element->properties = 0;
    head->elements++;
}

static char role_of_property(const struct header *head, const struct element *element, const char *name, int is_list, int number) {
    char role = 0;
    if (element->role == 'v' && !is_list && strlen(name) == 1 && strchr("xyz", *name)) role = *name;
    if (element->role == 'f' && is_list && (!strcmp(name, "vertex_indices") || !strcmp(name, "vertex_index"))) role = 'i';
    for (int i = 0; role && i < element->properties; i++)
        if (head->property[element->first + i].role == role) stop(REFUSED, "%s: line %d has a second %s (build: BadHeader)", in.name, number, name);
    return role;
}

static void take_property(struct header *head, char **word, int words, int number) {
    int is_list = words == 5 && !strcmp(word[1], "list");
    struct element *element = &head->element[head->elements - 1];
    struct property *property = &head->property[head->properties];
    if (!head->elements || (words != 3 && !is_list)) stop(REFUSED, "%s: line %d is no property of an element", in.name, number);
    if (head->properties == MOST_PROPERTIES) stop(REFUSED, "%s: more than %d properties (build: HeaderTooLarge)", in.name, MOST_PROPERTIES);
    property->type = type_named(word[is_list ? 3 : 1]);
    property->counter = is_list ? type_named(word[2]) : NO_TYPE;
    property->role = role_of_property(head, element, word[words - 1], is_list, number);
    if (property->type == NO_TYPE || (is_list && !(property->counter != NO_TYPE && is_whole(property->counter)))) stop(REFUSED, "%s: line %d has no known type (build: BadHeader)", in.name, number);
    if (property->role == 'i' && !is_whole(property->type)) stop(REFUSED, "%s: the corners of line %d are no whole numbers (build: BadHeader)", in.name, number);
    element->properties++;
    head->properties++;
}

static int split(char *line, char *word[6]) {
    int words = 0;
    for (char *at = strtok(line, " \t"); at && words < 6; at = strtok(NULL, " \t")) word[words++] = at;
    return words;
}

static int has_role(const struct header *head, char element, char property) {
    for (int i = 0; i < head->elements; i++)
        for (int k = 0; head->element[i].role == element && k < head->element[i].properties; k++)
            if (head->property[head->element[i].first + k].role == property) return 1;
    return 0;
}

/* Reads the header, which begins with the line ply. */
static void read_header(struct header *head) {
    char line[LONGEST_LINE + 1], *word[6];
    int has_format = 0;
    memset(head, 0, sizeof *head);
    for (int number = 1;; number++) {
        header_line(line, number);
        int words = split(line, word);
        if (number == 1 || !words || !strcmp(word[0], "comment") || !strcmp(word[0], "obj_info")) continue;
        if (!strcmp(word[0], "end_header") && words == 1) break;
        if (!strcmp(word[0], "format") && words == 3 && !strcmp(word[2], "1.0") && !has_format && !head->elements) {
            has_format = 1;
            head->kind = !strcmp(word[1], "ascii") ? ASCII : !strcmp(word[1], "binary_little_endian") ? LITTLE : BIG;
            if (head->kind == BIG && strcmp(word[1], "binary_big_endian")) stop(REFUSED, "%s: the format %s is not known", in.name, word[1]);
        } else if (!strcmp(word[0], "element")) {
            take_element(head, word, words, number);
        } else if (!strcmp(word[0], "property")) {
            take_property(head, word, words, number);
        } else {
            stop(REFUSED, "%s: line %d of the header begins with '%.20s' (build: BadHeader)", in.name, number, word[0]);
        }
    }
    if (!has_format) stop(REFUSED, "%s has no line of its format", in.name);
    if (!has_role(head, 'v', 'x') || !has_role(head, 'v', 'y') || !has_role(head, 'v', 'z')) stop(REFUSED, "%s has no vertices with x, y and z (build: NoVertexElement)", in.name);
    if (!has_role(head, 'f', 'i')) stop(REFUSED, "%s has no faces with vertex_indices (build: NoFaceElement)", in.name);
}

static int begins_with_ply(void) {
    size_t there = look(5);
    const unsigned char *first = in.bytes + in.at;
    return there >= 4 && !memcmp(first, "ply", 3) && (first[3] == '\n' || first[3] == '\r' || first[3] == ' ' || first[3] == '\t');
}

/* Whether this is binary STL, with the number of its triangles: by its length where that can be known, and else by a
 * zero byte near its front, which no text has. */
static int is_binary_stl(uint64_t *triangles) {
    if (look(84) < 84) return 0;
    *triangles = bits_of(in.bytes + in.at + 80, 4, 0);
    if (in.size >= 0) return (uint64_t)in.size == 84 + 50 * *triangles;
    return memchr(in.bytes + in.at, 0, 84) != NULL;
}

/* Whether a line of the front of the input begins with one of these words. */
static int has_line_of(const char *const *words) {
    size_t there = look(4096);
    const char *front = (const char *)in.bytes + in.at;
    for (size_t at = 0; at < there; at++) {
        if (at && front[at - 1] != '\n') continue;
        for (const char *const *word = words; *word; word++)
            if (there - at > strlen(*word) && !memcmp(front + at, *word, strlen(*word))) return 1;
    }
    return 0;
}

/* The kind of what is neither PLY nor binary STL, as far as its front tells. */
static const char *other_kind(void) {
    static const char *const obj[] = {"v ", "vn ", "vt ", "mtllib ", "o ", "f ", NULL}, *const stl[] = {"solid", NULL}, *const off[] = {"OFF", "COFF", "NOFF", NULL};
    size_t there = look(4);
    if (there == 4 && !memcmp(in.bytes + in.at, "glTF", 4)) return "glTF";
    if (has_line_of(stl)) return "STL as text, or binary STL that was cut short";
    if (has_line_of(off)) return "OFF";
    return has_line_of(obj) ? "OBJ" : "neither PLY nor binary STL";
}

/* Ends where the input is of another kind. */
__attribute__((noreturn)) static void refuse_kind(void) {
    size_t there = look(2);
    const unsigned char *first = in.bytes + in.at;
    if (there == 2 && first[0] == 0x1f && first[1] == 0x8b) stop(REFUSED, "%s is packed by gzip: gzip -dc FILE | svo %s ..", in.name, tool_name);
    stop(REFUSED, "%s is %s: assimp export FILE mesh.ply -fply makes PLY of many kinds (docs/COOKBOOK.md)", in.name, other_kind());
}

#endif
