/* part FILE: reads a part as tools/block.py writes it ('-' is standard input), makes its mesh with the library's own sine and
 * cosine, and prints it as sitemesh prints one (docs/FORMAT.md 14), or `no` and the number of the refusal. Of all but a
 * PointSet no vertex has a source: its own number stands there. Of a PointSet a line for each point follows, `p` and its
 * number. */
#include "sitemesh.h"
#include <errno.h>
#include <inttypes.h>
#include <stdio.h>
#include <stdlib.h>
#include <string.h>

/* A list of floats: how many, and the words. */
typedef struct {
    size_t length;
    float *values;
} floats;

/* What is lent; with normals for all but a PointSet, colours and sources for that alone. */
typedef struct {
    floats positions, normals, colours, textures;
    uint32_t *sources, *indices;
    size_t result[SITEMESH_RESULT];
} lent;

static void fail(const char *what) {
    fprintf(stderr, "part: %s\n", what);
    exit(2);
}

static void *room(size_t elements) {
    void *found = calloc(elements + 1, 4);
    if (!found) fail("no room");
    return found;
}

static floats floats_of(size_t length) {
    floats list = {length, (float *)room(length)};
    return list;
}

/* The word `name`, which has to come next. */
static void expect(FILE *file, const char *name) {
    char word[16];
    if (fscanf(file, "%15s", word) != 1 || strcmp(word, name) != 0) fail("this is not a part");
}

static uint32_t whole(FILE *file) {
    uint32_t n;
    if (fscanf(file, "%" SCNu32, &n) != 1) fail("a whole number is wanted");
    return n;
}

static float number(FILE *file) {
    uint32_t bits;
    float x;
    if (fscanf(file, "%" SCNx32, &bits) != 1) fail("the bits of a float are wanted");
    memcpy(&x, &bits, sizeof x);
    return x;
}

/* The name of a list, how many floats it has, and these. */
static floats read_list(FILE *file, const char *name) {
    expect(file, name);
    floats list = floats_of(whole(file));
    for (size_t i = 0; i < list.length; i++) list.values[i] = number(file);
    return list;
}

static lent lend(sitemesh_sizes sizes, uint32_t need_uvs) {
    lent s = {floats_of(3 * sizes.vertices), floats_of(3 * sizes.vertices), {0, NULL},
              floats_of(need_uvs ? 2 * sizes.vertices : 0), NULL, (uint32_t *)room(sizes.indices), {0}};
    return s;
}

static uint32_t point_set(FILE *file, lent *s) {
    uint32_t has_colors = whole(file), alpha = whole(file);
    floats points = read_list(file, "points"), listed = read_list(file, "colours");
    size_t n = points.length / 3;
    s->positions = floats_of(3 * n);
    s->colours = floats_of(4 * n);
    s->sources = (uint32_t *)room(n);
    return sitemesh_point_set(points.values, points.length, has_colors, alpha, listed.values, listed.length,
                              s->positions.values, 3 * n, s->colours.values, 4 * n, s->sources, n, s->result,
                              SITEMESH_RESULT);
}

static uint32_t box(FILE *file, lent *s) {
    float x = number(file), y = number(file), z = number(file);
    uint32_t need_uvs = whole(file);
    floats transform = read_list(file, "transform");
    sitemesh_sizes sizes = {SITEMESH_BOX_VERTICES, SITEMESH_BOX_INDICES, 0};
    *s = lend(sizes, need_uvs);
    return sitemesh_box(x, y, z, need_uvs, transform.values, transform.length, s->positions.values, s->positions.length,
                        s->normals.values, s->normals.length, s->textures.values, s->textures.length, s->indices,
                        sizes.indices, s->result, SITEMESH_RESULT);
}

static uint32_t sphere(FILE *file, lent *s) {
    float radius = number(file);
    uint32_t slices = whole(file), stacks = whole(file), need_uvs = whole(file);
    floats transform = read_list(file, "transform");
    sitemesh_sizes sizes = sitemesh_sphere_sizes(slices, stacks);
    floats pairs = floats_of(2 * sizes.pairs);
    sitemesh_fill_sphere(pairs.values, pairs.length, slices, stacks, sitemesh_sin_cos);
    *s = lend(sizes, need_uvs);
    return sitemesh_sphere(radius, slices, stacks, need_uvs, transform.values, transform.length, pairs.values,
                           pairs.length, s->positions.values, s->positions.length, s->normals.values,
                           s->normals.length, s->textures.values, s->textures.length, s->indices, sizes.indices,
                           s->result, SITEMESH_RESULT);
}

static uint32_t cylinder(FILE *file, lent *s) {
    float radius = number(file), height = number(file);
    uint32_t side = whole(file), top = whole(file), bottom = whole(file), slices = whole(file), need_uvs = whole(file);
    floats transform = read_list(file, "transform");
    sitemesh_sizes sizes = sitemesh_cylinder_sizes(side, top, bottom, slices);
    floats pairs = floats_of(2 * sizes.pairs);
    sitemesh_fill_cylinder(pairs.values, pairs.length, side, top, bottom, slices, sitemesh_sin_cos);
    *s = lend(sizes, need_uvs);
    return sitemesh_cylinder(radius, height, side, top, bottom, slices, need_uvs, transform.values, transform.length,
                             pairs.values, pairs.length, s->positions.values, s->positions.length, s->normals.values,
                             s->normals.length, s->textures.values, s->textures.length, s->indices, sizes.indices,
                             s->result, SITEMESH_RESULT);
}

static uint32_t cone(FILE *file, lent *s) {
    float bottom_radius = number(file), height = number(file);
    uint32_t side = whole(file), bottom = whole(file), slices = whole(file), need_uvs = whole(file);
    floats transform = read_list(file, "transform");
    sitemesh_sizes sizes = sitemesh_cone_sizes(side, bottom, slices);
    floats pairs = floats_of(2 * sizes.pairs);
    sitemesh_fill_cone(pairs.values, pairs.length, side, bottom, slices, sitemesh_sin_cos);
    *s = lend(sizes, need_uvs);
    return sitemesh_cone(bottom_radius, height, side, bottom, slices, need_uvs, transform.values, transform.length,
                         pairs.values, pairs.length, s->positions.values, s->positions.length, s->normals.values,
                         s->normals.length, s->textures.values, s->textures.length, s->indices, sizes.indices,
                         s->result, SITEMESH_RESULT);
}

/* A letter, but for positions, and the words of one vertex. */
static void print_words(const char *letter, floats list, size_t v, size_t n) {
    printf("%s", letter);
    for (size_t i = 0; i < n; i++) {
        uint32_t bits;
        memcpy(&bits, list.values + n * v + i, sizeof bits);
        printf(" %08" PRIx32, bits);
    }
}

static void print_mesh(const lent *s) {
    const size_t *r = s->result;
    printf("mesh %zu %zu %zu %zu %zu\n", r[0], r[1], r[2], r[3], r[4]);
    for (size_t v = 0; v < r[SITEMESH_VERTICES]; v++) {
        printf("v %zu", s->sources ? (size_t)s->sources[v] : v);
        print_words("", s->positions, v, 3);
        if (!r[SITEMESH_UNLIT]) print_words(" n", s->normals, v, 3);
        if (r[SITEMESH_HAS_COLORS]) print_words(" c", s->colours, v, 4);
        if (s->textures.length) print_words(" u", s->textures, v, 2);
        printf("\n");
    }
    for (size_t v = 0; s->sources && v < r[SITEMESH_VERTICES]; v++) printf("p %zu\n", v);
    for (size_t i = 0; i < r[SITEMESH_INDICES]; i += 3)
        printf("t %" PRIu32 " %" PRIu32 " %" PRIu32 "\n", s->indices[i], s->indices[i + 1], s->indices[i + 2]);
}

int main(int argc, char **argv) {
    static const char *const names[] = {"point_set", "box", "sphere", "cylinder", "cone"};
    static uint32_t (*const makers[])(FILE *, lent *) = {point_set, box, sphere, cylinder, cone};
    if (argc != 2) fail("usage: part FILE, a part as tools/block.py writes it ('-' is standard input)");
    FILE *file = strcmp(argv[1], "-") == 0 ? stdin : fopen(argv[1], "r");
    if (!file) {
        fprintf(stderr, "part: %s: %s\n", argv[1], strerror(errno));
        return 2;
    }
    char name[16] = "";
    if (fscanf(file, "%15s", name) != 1) fail("this is not a part");
    for (size_t k = 0; k < sizeof names / sizeof *names; k++) {
        if (strcmp(name, names[k]) != 0) continue;
        lent s = {{0, NULL}, {0, NULL}, {0, NULL}, {0, NULL}, NULL, NULL, {0}};
        uint32_t refusal = makers[k](file, &s);
        if (refusal != SITEMESH_OK)
            printf("no %" PRIu32 "\n", refusal);
        else
            print_mesh(&s);
        return 0;
    }
    fail("this is not a part");
}
