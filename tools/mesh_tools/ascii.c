/* svo ascii: writes binary PLY or binary STL as the ASCII PLY that svo build reads, in constant memory.
 *
 * Each coordinate is rounded to the nearest number of so many decimals, exactly, a tie to the even one; what was
 * rounded is told at the end. Other properties and elements are left out. Not part of what is proved. */
#define _POSIX_C_SOURCE 200809L
#define _FILE_OFFSET_BITS 64
#include "mesh_input.h"
#include <math.h>

static int decimals = -1;
static int64_t scale = 1; /* ten to the power of the decimals */
static uint64_t coordinates, rounded;
static double widest; /* the greatest change by rounding */

/* The greatest size of a coordinate times the scale that build takes. */
#define GREATEST (INT64_C(1) << 30)

static char out[1 << 17];
static size_t filled;

static void flush_out(void) {
    if (fwrite(out, 1, filled, stdout) != filled) stop(DEVICE, "the output cannot be written");
    filled = 0;
}

static char *room(size_t count) {
    if (sizeof out - filled < count) flush_out();
    return out + filled;
}

static void put_text(const char *text) {
    memcpy(room(strlen(text)), text, strlen(text));
    filled += strlen(text);
}

static void put_whole(uint64_t number, int digits) {
    char text[24];
    int at = 24;
    for (int i = 0; i < digits || number; i++, number /= 10) text[--at] = (char)('0' + number % 10);
    memcpy(room(24), text + at, (size_t)(24 - at));
    filled += (size_t)(24 - at);
}

/* The number times the scale as a whole number, the nearest one; *is_exact where nothing was rounded. A number
 * beyond what build takes gives one beyond it. */
static int64_t scaled(double number, int *is_exact) {
    int power;
    double front = frexp(number, &power);                   /* number = front * 2^power */
    int64_t whole = (int64_t)ldexp(fabs(front), 53);        /* exact: 53 bits */
    unsigned __int128 product = (unsigned __int128)(uint64_t)whole * (uint64_t)scale, nearest;
    int down = 53 - power;                                  /* |number| * scale = product / 2^down */
    if (whole == 0) { *is_exact = 1; return 0; }
    if (power > 40) { *is_exact = 0; return number < 0 ? -GREATEST - 1 : GREATEST + 1; }
    if (down > 120) { *is_exact = 0; return 0; }
    nearest = product >> down;
    unsigned __int128 rest = product - (nearest << down), half = (unsigned __int128)1 << (down - 1);
    *is_exact = rest == 0;
    if (rest > half || (rest == half && (nearest & 1))) nearest++;
    if (nearest > (unsigned __int128)GREATEST) nearest = (unsigned __int128)GREATEST + 1;
    return number < 0 ? -(int64_t)nearest : (int64_t)nearest;
}

static void put_coordinate(double number, char axis, uint64_t vertex) {
    int is_exact = 1;
    int64_t value;
    uint64_t size;
    if (!isfinite(number)) stop(REFUSED, "%s: %c of vertex %" PRIu64 " is not a number", in.name, axis, vertex);
    value = scaled(number, &is_exact);
    if (value > GREATEST || value < -GREATEST) stop(REFUSED, "%s: %c of vertex %" PRIu64 " is %.17g, and build takes %.10g at most with %d decimals: keep fewer", in.name, axis, vertex, number, (double)GREATEST / (double)scale, decimals);
    coordinates++;
    if (!is_exact) {
        double change = fabs(number - (double)value / (double)scale);
        rounded++;
        if (change > widest) widest = change;
    }
    size = (uint64_t)(value < 0 ? -value : value);
    if (value < 0) put_text("-");
    put_whole(size / (uint64_t)scale, 1);
    if (decimals) {
        put_text(".");
        put_whole(size % (uint64_t)scale, decimals);
    }
}

static void put_vertex(const double place[3], uint64_t vertex) {
    for (int axis = 0; axis < 3; axis++) {
        put_coordinate(place[axis], "xyz"[axis], vertex);
        put_text(axis < 2 ? " " : "\n");
    }
}

static void put_header(uint64_t vertices, uint64_t faces) {
    const char *type = decimals ? "double" : "int";
    put_text("ply\nformat ascii 1.0\nelement vertex ");
    put_whole(vertices, 1);
    for (int axis = 0; axis < 3; axis++) {
        put_text("\nproperty ");
        put_text(type);
        put_text((const char *[]){" x", " y", " z"}[axis]);
    }
    put_text("\nelement face ");
    put_whole(faces, 1);
    put_text("\nproperty list uchar int vertex_indices\nend_header\n");
}

/* ---- binary PLY */

static uint64_t list_length(const struct property *list, int is_big, const char *what, uint64_t row) {
    int64_t length = whole_of(take(type_sizes[list->counter], what, row), list->counter, is_big);
    if (length < 0) stop(REFUSED, "%s: a list of %s %" PRIu64 " has the length %" PRId64, in.name, what, row, length);
    return (uint64_t)length;
}

static void put_corners(const struct property *list, uint64_t length, int is_big, uint64_t face, uint64_t vertices) {
    size_t size = type_sizes[list->type];
    if (length < 3 || length > 255) stop(REFUSED, "%s: face %" PRIu64 " has %" PRIu64 " corners, and build takes 3 to 255", in.name, face, length);
    put_whole(length, 1);
    for (uint64_t i = 0; i < length; i++) {
        int64_t corner = whole_of(take(size, "face", face), list->type, is_big);
        if (corner < 0 || (uint64_t)corner >= vertices) stop(REFUSED, "%s: face %" PRIu64 " has the corner %" PRId64 ", and there are %" PRIu64 " vertices", in.name, face, corner, vertices);
        put_text(" ");
        put_whole((uint64_t)corner, 1);
    }
    put_text("\n");
}

/* Takes a row, and puts it out if it is a vertex or a face. */
static void put_row(const struct header *head, const struct element *element, uint64_t row, uint64_t vertices) {
    const char *what = element->role == 'v' ? "vertex" : element->role == 'f' ? "face" : "row";
    int is_big = head->kind == BIG;
    double place[3] = {0, 0, 0};
    for (int i = 0; i < element->properties; i++) {
        const struct property *property = &head->property[element->first + i];
        if (property->counter == NO_TYPE) {
            const unsigned char *bytes = take(type_sizes[property->type], what, row);
            if (property->role) place[property->role - 'x'] = number_of(bytes, property->type, is_big);
            continue;
        }
        uint64_t length = list_length(property, is_big, what, row);
        if (property->role == 'i') put_corners(property, length, is_big, row, vertices);
        else for (uint64_t k = 0; k < length; k++) take(type_sizes[property->type], what, row);
    }
    if (element->role == 'v') put_vertex(place, row);
}

static void convert_ply(void) {
    static struct header head;
    uint64_t vertices = 0, faces = 0;
    read_header(&head);
    if (head.kind == ASCII) stop(REFUSED, "%s is ASCII PLY, which svo build reads as it is", in.name);
    for (int i = 0; i < head.elements; i++) {
        if (head.element[i].role == 'v') vertices = head.element[i].count;
        if (head.element[i].role == 'f') faces = head.element[i].count;
    }
    put_header(vertices, faces);
    for (int i = 0; i < head.elements; i++)
        /* Rows without properties have no bytes, so that a count alone costs nothing. */
        for (uint64_t row = 0; head.element[i].properties && row < head.element[i].count; row++) put_row(&head, &head.element[i], row, vertices);
}

/* ---- binary STL: each triangle has its own three vertices */

static void convert_stl(uint64_t triangles) {
    if (triangles > 1431655765) stop(REFUSED, "%s has %" PRIu64 " triangles, and a mesh has 4294967295 vertices at most: cut it into pieces", in.name, triangles);
    take(84, "header", 0);
    put_header(3 * triangles, triangles);
    for (uint64_t i = 0; i < triangles; i++) {
        const unsigned char *bytes = take(50, "triangle", i) + 12;
        for (int corner = 0; corner < 3; corner++) {
            double place[3];
            for (int axis = 0; axis < 3; axis++) place[axis] = number_of(bytes + 12 * corner + 4 * axis, FLOAT, 0);
            put_vertex(place, 3 * i + (uint64_t)corner);
        }
    }
    for (uint64_t i = 0; i < triangles; i++) {
        put_text("3");
        for (int corner = 0; corner < 3; corner++) {
            put_text(" ");
            put_whole(3 * i + (uint64_t)corner, 1);
        }
        put_text("\n");
    }
}

static void tell(void) {
    if (!rounded) fprintf(stderr, "svo ascii: nothing was rounded\n");
    else fprintf(stderr, "svo ascii: %" PRIu64 " of %" PRIu64 " coordinates were rounded to %d decimals, by at most %.3g\n", rounded, coordinates, decimals, widest);
}

int main(int count, char **words) {
    const char *name = NULL;
    uint64_t triangles = 0;
    tool_name = "ascii";
    for (int i = 1; i < count; i++) {
        if (!strcmp(words[i], "--decimals") && i + 1 < count) decimals = digit_of(words[++i]);
        else if (!strncmp(words[i], "--decimals=", 11)) decimals = digit_of(words[i] + 11);
        else if (!name && (words[i][0] != '-' || !words[i][1])) name = words[i];
        else stop(USAGE, "'svo help ascii' tells the words of ascii");
    }
    if (decimals < 0) stop(USAGE, "say how many decimals are kept, by --decimals n, 0 to 9; 'svo survey FILE' tells how many fit");
    for (int i = 0; i < decimals; i++) scale *= 10;
    open_input(name);
    if (begins_with_ply()) convert_ply();
    else if (is_binary_stl(&triangles)) convert_stl(triangles);
    else refuse_kind();
    if (look(1)) stop(REFUSED, "%s goes on behind its last row, at byte %" PRIu64, in.name, in.base + in.at);
    flush_out();
    if (fflush(stdout) || fclose(stdout)) stop(DEVICE, "the output cannot be written");
    tell();
    return 0;
}
