/* svo survey: what a mesh is, and how svo build takes it: counts, box, decimals, cell sides, memory, scratch, and the
 * line to paste. It reads ASCII and binary PLY and binary STL once, and says what build would refuse. Not part of
 * what is proved. */
#define _POSIX_C_SOURCE 200809L
#define _FILE_OFFSET_BITS 64
#include "mesh_input.h"
#include <math.h>

enum { DEEPEST = 12 };
/* The least --memory of each depth; tools/check_tools compares it with the program. */
static const uint64_t least_memory[DEEPEST + 1] = {0, 14212, 14340, 14468, 14596, 14752, 15104, 17024, 31488, 146304, 1063936, 8404096, 67124480};
#define GREATEST 1073741824.0L

static uint64_t vertices, faces, triangles;
static long double low[3], high[3];
static int is_float = 0;     /* binary coordinates, whose decimals have no end */
static int most_decimals = 0; /* that a coordinate has */
static uint64_t refused;     /* how many faults were told */

/* Tells a fault of the mesh, of each kind the first few. */
__attribute__((format(printf, 1, 2))) static void fault(const char *form, ...) {
    va_list values;
    if (refused++ >= 5) return;
    va_start(values, form);
    printf("refused: ");
    vprintf(form, values);
    printf("\n");
    va_end(values);
}

static void widen(int axis, long double value, uint64_t vertex) {
    if (vertex == 0 || value < low[axis]) low[axis] = value;
    if (vertex == 0 || value > high[axis]) high[axis] = value;
}

static long double power_of_ten(int power) {
    long double all = 1;
    for (int i = 0; i < (power < 0 ? -power : power); i++) all *= 10;
    return power < 0 ? 1 / all : all;
}

/* ---- ASCII bodies */

static uint64_t line_number = 1;

static inline int is_white(int byte) { return byte == ' ' || (byte >= 9 && byte <= 13); }

static inline int peek(void) {
    if (in.at == in.held && !look(1)) return -1;
    return in.bytes[in.at];
}

/* The next run of bytes that are no white space, of at most 255; its length, or 0 where the text ends. */
static size_t next_token(char token[256]) {
    size_t length = 0;
    int byte;
    while (is_white(byte = peek())) {
        line_number += byte == '\n';
        in.at++;
    }
    while ((byte = peek()) >= 0 && !is_white(byte)) {
        if (length == 255) stop(REFUSED, "line %" PRIu64 ": a word of more than 255 bytes (build: TokenTooLong)", line_number);
        token[length++] = (char)byte;
        in.at++;
    }
    token[length] = 0;
    return length;
}

static void need_token(char token[256], const char *what, uint64_t number) {
    if (!next_token(token)) stop(REFUSED, "%s ends before %s %" PRIu64 " of its header's count (build: Truncated): was it copied whole?", in.name, what, number);
}

/* A decimal number with an optional sign, point and exponent of up to 4 digits: its value, and how many decimals it
 * needs. 0 where the token is none. */
static int read_decimal(const char *at, long double *value, int *needs) {
    int is_below = *at == '-', digits = 0, behind = 0, kept = 0, exponent = 0, is_up = 0, zeros = 0;
    uint64_t front = 0;
    if (*at == '-' || *at == '+') at++;
    for (int is_behind = 0; (*at >= '0' && *at <= '9') || (*at == '.' && !is_behind); at++) {
        if (*at == '.') { is_behind = 1; continue; }
        digits++;
        behind += is_behind;
        zeros = *at == '0' ? zeros + 1 : 0;
        if (front < UINT64_MAX / 10 - 1) front = 10 * front + (uint64_t)(*at - '0');
        else kept++; /* digits beyond the nineteenth are counted and no more */
    }
    if (!digits) return 0;
    if (*at == 'e' || *at == 'E') {
        int many = 0;
        is_up = *++at != '-';
        if (*at == '-' || *at == '+') at++;
        for (; *at >= '0' && *at <= '9'; at++, many++) exponent = many < 4 ? 10 * exponent + (*at - '0') : exponent;
        if (many < 1 || many > 4) return 0;
        if (!is_up) exponent = -exponent;
    }
    if (*at) return 0;
    *value = front ? front * power_of_ten(exponent - behind + kept) * (is_below ? -1 : 1) : 0;
    *needs = front ? behind - exponent - (zeros < digits ? zeros : 0) : 0;
    return 1;
}

static void survey_coordinate(const char *token, int axis, uint64_t vertex) {
    long double value;
    int needs;
    if (!read_decimal(token, &value, &needs)) {
        fault("line %" PRIu64 ": %c of vertex %" PRIu64 " is '%.30s', and no decimal number (BadNumber)", line_number, "xyz"[axis], vertex, token);
        return;
    }
    if (needs > most_decimals) most_decimals = needs;
    widen(axis, value, vertex);
}

static uint64_t whole_token(const char *token, int *is_good) {
    uint64_t number = 0;
    *is_good = *token != 0;
    for (; *token; token++) {
        if (*token < '0' || *token > '9' || number > UINT32_MAX) { *is_good = 0; return 0; }
        number = 10 * number + (uint64_t)(*token - '0');
    }
    return number;
}

static void count_face(uint64_t length, uint64_t face) {
    if (length < 3 || length > 255) fault("face %" PRIu64 " has %" PRIu64 " corners, and not 3 to 255 (BadCount)", face, length);
    else triangles += length - 2;
}

static void survey_list(const struct property *list, const char *what, uint64_t row) {
    char token[256];
    int is_good;
    uint64_t length;
    need_token(token, what, row);
    length = whole_token(token, &is_good);
    if (!is_good || length > UINT32_MAX) stop(REFUSED, "line %" PRIu64 ": a list has the length '%.30s' (build: BadCount)", line_number, token);
    if (list->role == 'i') count_face(length, row);
    for (uint64_t i = 0; i < length; i++) {
        need_token(token, what, row);
        uint64_t corner = list->role == 'i' ? whole_token(token, &is_good) : 0;
        if (list->role == 'i' && (!is_good || corner >= vertices)) fault("line %" PRIu64 ": face %" PRIu64 " has the corner '%.30s', and there are %" PRIu64 " vertices (BadIndex)", line_number, row, token, vertices);
    }
}

static void survey_text_row(const struct header *head, const struct element *element, uint64_t row) {
    const char *what = element->role == 'v' ? "vertex" : element->role == 'f' ? "face" : "row";
    char token[256];
    for (int i = 0; i < element->properties; i++) {
        const struct property *property = &head->property[element->first + i];
        if (property->counter != NO_TYPE) {
            survey_list(property, what, row);
            continue;
        }
        need_token(token, what, row);
        if (property->role) survey_coordinate(token, property->role - 'x', row);
    }
}

/* ---- binary bodies */

static void survey_number(double number, enum type type, int axis, uint64_t vertex) {
    if (!isfinite(number)) fault("%c of vertex %" PRIu64 " is not a number", "xyz"[axis], vertex);
    else widen(axis, number, vertex);
    is_float |= !is_whole(type);
}

static void survey_bytes_row(const struct header *head, const struct element *element, uint64_t row) {
    const char *what = element->role == 'v' ? "vertex" : element->role == 'f' ? "face" : "row";
    int is_big = head->kind == BIG;
    for (int i = 0; i < element->properties; i++) {
        const struct property *property = &head->property[element->first + i];
        size_t size = type_sizes[property->type];
        if (property->counter == NO_TYPE) {
            double number = number_of(take(size, what, row), property->type, is_big);
            if (property->role) survey_number(number, property->type, property->role - 'x', row);
            continue;
        }
        int64_t length = whole_of(take(type_sizes[property->counter], what, row), property->counter, is_big);
        if (length < 0) stop(REFUSED, "%s: a list of %s %" PRIu64 " has the length %" PRId64, in.name, what, row, length);
        if (property->role == 'i') count_face((uint64_t)length, row);
        for (int64_t k = 0; k < length; k++) {
            int64_t corner = whole_of(take(size, what, row), is_whole(property->type) ? property->type : CHAR, is_big);
            if (property->role == 'i' && (corner < 0 || (uint64_t)corner >= vertices)) fault("face %" PRIu64 " has the corner %" PRId64 ", and there are %" PRIu64 " vertices", row, corner, vertices);
        }
    }
}

static void survey_stl(void) {
    vertices = 3 * triangles;
    faces = triangles;
    take(84, "header", 0);
    for (uint64_t i = 0; i < triangles; i++) {
        const unsigned char *bytes = take(50, "triangle", i) + 12;
        for (int k = 0; k < 9; k++) survey_number(number_of(bytes + 4 * k, FLOAT, 0), FLOAT, k % 3, 3 * i + (uint64_t)(k / 3));
    }
}

static enum kind survey_ply(void) {
    static struct header head;
    read_header(&head);
    for (int i = 0; i < head.elements; i++) {
        if (head.element[i].role == 'v') vertices = head.element[i].count;
        if (head.element[i].role == 'f') faces = head.element[i].count;
    }
    for (int i = 0; i < head.elements; i++)
        for (uint64_t row = 0; head.element[i].properties && row < head.element[i].count; row++) {
            if (head.kind == ASCII) survey_text_row(&head, &head.element[i], row);
            else survey_bytes_row(&head, &head.element[i], row);
        }
    return head.kind;
}

/* ---- what is told */

/* The most decimals with which each coordinate is in its limits, or -1. */
static int fitting(void) {
    long double size = 0;
    for (int axis = 0; axis < 3; axis++) size = fmaxl(size, fmaxl(fabsl(low[axis]), fabsl(high[axis])));
    for (int n = 9; n >= 0; n--)
        if (truncl(size * power_of_ten(n)) <= GREATEST) return n;
    return -1;
}

/* The side of a cell of the grid that --fit makes, in units of the last decimal. */
static long double fitted_side(int depth, int decimals) {
    long double most = 0;
    for (int axis = 0; axis < 3; axis++) most = fmaxl(most, rintl(high[axis] * power_of_ten(decimals)) - rintl(low[axis] * power_of_ten(decimals)));
    return fmaxl(1, ceill(most / ldexpl(1, depth)));
}

/* The decimals of the line to paste: all that there are, or of floats as many as a float has digits for; and more
 * where cells of this depth would not be ten units of the last decimal. */
static int advised(int fits, int depth) {
    long double size = 0;
    int n = !is_float && most_decimals > 0 ? most_decimals : 0;
    for (int axis = 0; axis < 3; axis++) size = fmaxl(size, fmaxl(fabsl(low[axis]), fabsl(high[axis])));
    for (; is_float && n < fits && size > 0 && size * power_of_ten(n) < 1e6L; n++) continue;
    for (; n < fits && size > 0 && fitted_side(depth, n) < 10; n++) continue;
    return n < fits ? n : fits;
}

static void tell_box(void) {
    if (!vertices) return;
    printf("box: x %.10Lg to %.10Lg, y %.10Lg to %.10Lg, z %.10Lg to %.10Lg\n", low[0], high[0], low[1], high[1], low[2], high[2]);
}

static void tell_decimals(int fits) {
    if (is_float) printf("decimals: of binary floats; at most %d fit\n", fits);
    else printf("decimals: %d in the numbers; at most %d fit%s\n", most_decimals, fits, most_decimals > fits ? ", so that the finer ones are to be cut" : "");
}

static void tell_depths(int decimals) {
    printf("with %d decimals and --fit:\n  depth  cell side  least memory\n", decimals);
    for (int depth = 1; depth <= DEEPEST; depth++) {
        long double side = fitted_side(depth, decimals);
        printf("  %5d  %-9.*Lf  %" PRIu64 "\n", depth, decimals, side / power_of_ten(decimals), least_memory[depth]);
        if (side == 1 && depth < DEEPEST) {
            printf("  (no cell is finer than the last decimal)\n");
            break;
        }
    }
}

static void tell_scratch(void) {
    uint64_t bytes = 12 * vertices + 40 * triangles;
    printf("scratch: %.1f MB (12 bytes a vertex, 40 a triangle), and more where triangles reach several parts\n", (double)bytes / 1e6);
}

static void tell_line(enum kind kind, int depth, int decimals) {
    const char *name = strcmp(in.name, "standard input") ? in.name : "FILE";
    const char *cut = kind == ASCII && most_decimals > decimals ? " --cut" : "";
    if (kind != ASCII) printf("svo ascii --decimals %d '%s' | ", decimals, name);
    printf("svo build --depth %d --fit --decimals %d%s", depth, decimals, cut);
    if (least_memory[depth] > 268435456) printf(" --memory %" PRIu64, least_memory[depth]);
    if (kind == ASCII) printf(" < '%s'", name);
    printf(" > octree.svo\n");
}

static int depth_of(const char *word) {
    int depth = word && strspn(word, "0123456789") == strlen(word) && strlen(word) < 3 ? atoi(word) : 0;
    if (depth < 1 || depth > DEEPEST) stop(USAGE, "the depth is 1 to %d", DEEPEST);
    return depth;
}

int main(int count, char **words) {
    const char *name = NULL, *form = "binary STL";
    int depth = 9;
    enum kind kind = LITTLE;
    tool_name = "survey";
    for (int i = 1; i < count; i++) {
        if (!strcmp(words[i], "--depth")) depth = depth_of(++i < count ? words[i] : NULL);
        else if (!strncmp(words[i], "--depth=", 8)) depth = depth_of(words[i] + 8);
        else if (!name && (words[i][0] != '-' || !words[i][1])) name = words[i];
        else stop(USAGE, "'svo help survey' tells the words of survey");
    }
    open_input(name);
    if (begins_with_ply()) {
        kind = survey_ply();
        form = kind == ASCII ? "ASCII PLY" : "binary PLY";
    } else if (is_binary_stl(&triangles)) {
        survey_stl();
    } else {
        refuse_kind();
    }
    while (kind == ASCII && is_white(peek())) in.at++;
    if (look(1)) fault("it goes on behind its last row, at byte %" PRIu64 " (TrailingData)", in.base + in.at);
    printf("%s: %" PRIu64 " vertices, %" PRIu64 " faces, %" PRIu64 " triangles\n", form, vertices, faces, triangles);
    tell_box();
    int fits = fitting(), decimals = advised(fits, depth);
    if (fits < 0) fault("a coordinate is beyond 1073741824, in whichever decimals (OutOfRange): scale the mesh down");
    if (refused > 5) printf("refused: %" PRIu64 " faults in all\n", refused);
    if (refused) return REFUSED;
    tell_decimals(fits);
    tell_depths(decimals);
    tell_scratch();
    tell_line(kind, depth, decimals);
    return fflush(stdout) || ferror(stdout) ? DEVICE : 0;
}
