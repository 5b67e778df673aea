/* Tries the five functions for parts (docs/FORMAT.md 17): what they write and what they leave, between guards, each slice and
 * the pairs one short, what is beyond, and the order in which the header fills pairs. Prints a line for each mesh: the part,
 * the result, and a sum of the words made; and the angles that the header fills, as bits. */
#include "sitemesh.h"
#include <inttypes.h>
#include <stdio.h>
#include <stdlib.h>
#include <string.h>

enum { GUARD = 16, MOST = 1 << 16, SLICES = 6, FILLER = 0x5a5a5a5a };
enum { POSITIONS, NORMALS, COLOURS, TEXTURES, SOURCES, INDICES };
enum { BOX, SPHERE, CYLINDER, CONE };

/* A part: its sizes, side, top and bottom, slices and stacks. */
typedef struct {
    int kind;
    float size[3];
    uint32_t side, top, bottom, slices, stacks;
} part;

static const char *const kinds[] = {"box", "sphere", "cylinder", "cone"};
static uint32_t room[SLICES][GUARD + MOST + GUARD];
static size_t lengths[SLICES], result[SITEMESH_RESULT];
static float pairs[2 * 4096];
static size_t pairs_length, result_length = SITEMESH_RESULT;

static void require(int holds, const char *what) {
    if (holds) return;
    fprintf(stderr, "%s\n", what);
    exit(1);
}

static uint32_t *words(int k) {
    return room[k] + GUARD;
}

static float *floats(int k) {
    return (float *)(void *)words(k);
}

static void clear(void) {
    for (int k = 0; k < SLICES; k++)
        for (size_t i = 0; i < MOST + 2 * GUARD; i++) room[k][i] = FILLER;
    for (int k = 0; k < SITEMESH_RESULT; k++) result[k] = FILLER;
}

/* Nothing is written but the first so many words of a slice, and all of these are. */
static void require_made(int k, size_t made) {
    for (size_t i = 0; i < MOST + 2 * GUARD; i++)
        require((room[k][i] != FILLER) == (GUARD <= i && i < GUARD + made), "written where nothing is made, or not where it is");
}

static void require_nothing_written(void) {
    for (int k = 0; k < SLICES; k++) require_made(k, 0);
    for (int k = 0; k < SITEMESH_RESULT; k++) require(result[k] == FILLER, "a result of a refused call");
}

static sitemesh_sizes sizes_of(part p) {
    sitemesh_sizes box = {SITEMESH_BOX_VERTICES, SITEMESH_BOX_INDICES, 0};
    if (p.kind == SPHERE) return sitemesh_sphere_sizes(p.slices, p.stacks);
    if (p.kind == CYLINDER) return sitemesh_cylinder_sizes(p.side, p.top, p.bottom, p.slices);
    return p.kind == CONE ? sitemesh_cone_sizes(p.side, p.bottom, p.slices) : box;
}

static size_t fill(part p, sitemesh_sine sin_cos) {
    if (p.kind == SPHERE) return sitemesh_fill_sphere(pairs, pairs_length, p.slices, p.stacks, sin_cos);
    if (p.kind == CYLINDER)
        return sitemesh_fill_cylinder(pairs, pairs_length, p.side, p.top, p.bottom, p.slices, sin_cos);
    return p.kind == CONE ? sitemesh_fill_cone(pairs, pairs_length, p.side, p.bottom, p.slices, sin_cos) : 0;
}

static uint32_t call(part p, uint32_t need_uvs, const float *transform, size_t transform_length) {
    const size_t *n = lengths;
    float *positions = floats(POSITIONS), *normals = floats(NORMALS), *textures = n[TEXTURES] ? floats(TEXTURES) : NULL;
    uint32_t *indices = words(INDICES);
    clear();
    if (p.kind == BOX)
        return sitemesh_box(p.size[0], p.size[1], p.size[2], need_uvs, transform, transform_length, positions,
                            n[POSITIONS], normals, n[NORMALS], textures, n[TEXTURES], indices, n[INDICES], result,
                            result_length);
    if (p.kind == SPHERE)
        return sitemesh_sphere(p.size[0], p.slices, p.stacks, need_uvs, transform, transform_length, pairs,
                               pairs_length, positions, n[POSITIONS], normals, n[NORMALS], textures, n[TEXTURES],
                               indices, n[INDICES], result, result_length);
    if (p.kind == CYLINDER)
        return sitemesh_cylinder(p.size[0], p.size[1], p.side, p.top, p.bottom, p.slices, need_uvs, transform,
                                 transform_length, pairs, pairs_length, positions, n[POSITIONS], normals, n[NORMALS],
                                 textures, n[TEXTURES], indices, n[INDICES], result, result_length);
    return sitemesh_cone(p.size[0], p.size[1], p.side, p.bottom, p.slices, need_uvs, transform, transform_length, pairs,
                         pairs_length, positions, n[POSITIONS], normals, n[NORMALS], textures, n[TEXTURES], indices,
                         n[INDICES], result, result_length);
}

/* What a part asks for, and not an element more. */
static void lend(part p, uint32_t need_uvs) {
    sitemesh_sizes sizes = sizes_of(p);
    lengths[POSITIONS] = lengths[NORMALS] = 3 * sizes.vertices;
    lengths[TEXTURES] = need_uvs ? 2 * sizes.vertices : 0;
    lengths[INDICES] = sizes.indices;
    pairs_length = 2 * sizes.pairs;
}

/* FNV-1a over the words of a slice, from a sum before it. */
static uint32_t sum(uint32_t from, int k, size_t n) {
    for (size_t i = 0; i < n; i++) from = (from ^ words(k)[i]) * 16777619u;
    return from;
}

static uint32_t sum_of_all(void) {
    uint32_t found = 2166136261u;
    for (int k = 0; k < SLICES; k++) found = sum(found, k, lengths[k]);
    return found;
}

static void tell(const char *name) {
    printf("%s %zu %zu %zu %zu %zu %08" PRIx32 "\n", name, result[0], result[1], result[2], result[3], result[4],
           sum_of_all());
}

/* Each slice that is asked for one short, the pairs short by one and by half of one, and one pair and one element more. */
static void try_lengths(part p, uint32_t need_uvs, uint32_t whole) {
    for (int k = 0; k < SLICES; k++) {
        if (lengths[k] == 0) continue;
        lengths[k]--;
        require(call(p, need_uvs, NULL, 0) == SITEMESH_BUFFER, "8 is wanted");
        require_nothing_written();
        if (pairs_length) {
            pairs_length--;
            require(call(p, need_uvs, NULL, 0) == SITEMESH_PAIRS, "10 is wanted, before 8");
            require_nothing_written();
            pairs_length++;
        }
        lengths[k]++;
    }
    for (size_t less = 1; pairs_length && less <= 2; less++) {
        pairs_length -= less;
        require(call(p, need_uvs, NULL, 0) == SITEMESH_PAIRS, "10 is wanted");
        require_nothing_written();
        pairs_length += less;
    }
    pairs[pairs_length] = pairs[pairs_length + 1] = 7.0f;
    pairs_length += 2;
    require(call(p, need_uvs, NULL, 0) == SITEMESH_OK && sum_of_all() == whole, "a pair beyond is read");
    pairs_length -= 2;
}

static uint32_t try_part(part p, uint32_t need_uvs) {
    sitemesh_sizes sizes = sizes_of(p);
    lend(p, need_uvs);
    require(fill(p, sitemesh_sin_cos) == sizes.pairs, "as many pairs as are asked for");
    require(call(p, need_uvs, NULL, 0) == SITEMESH_OK, "0 is wanted");
    require(result[SITEMESH_VERTICES] == sizes.vertices && result[SITEMESH_INDICES] == sizes.indices, "the sizes");
    require(result[SITEMESH_SOLID] == 1 && !result[SITEMESH_UNLIT] && !result[SITEMESH_HAS_COLORS], "the bits");
    for (int k = 0; k < SLICES; k++) require_made(k, lengths[k]);
    for (size_t i = 0; i < sizes.indices; i++) require(words(INDICES)[i] < sizes.vertices, "an index beyond the vertices");
    char name[64];
    snprintf(name, sizeof name, "%s %d%d%d %u %u %u", kinds[p.kind], !!p.side, !!p.top, !!p.bottom, (unsigned)p.slices,
             (unsigned)p.stacks, (unsigned)need_uvs);
    tell(name);
    uint32_t whole = sum_of_all();
    try_lengths(p, need_uvs, whole);
    return whole;
}

/* The sum of the words of a part without texture. */
static uint32_t sum_of(part p) {
    lend(p, 0);
    fill(p, sitemesh_sin_cos);
    require(call(p, 0, NULL, 0) == SITEMESH_OK, "0 is wanted");
    return sum_of_all();
}

/* Sizes that are replaced: one that is not finite or not above 0, but of a box with one that is not finite all three. */
static void try_sizes(void) {
    static const uint32_t bits[] = {0x7fc00000, 0xffa00001, 0x7f800000, 0xff800000, 0, 0x80000000, 0xbf800000};
    part box = {BOX, {2, 2, 2}, 0, 0, 0, 0, 0}, sides = {BOX, {3, 2, 5}, 0, 0, 0, 0, 0};
    part sphere = {SPHERE, {1, 0, 0}, 0, 0, 0, 5, 4}, cone = {CONE, {1, 2, 0}, 1, 0, 1, 5, 0};
    part cylinder = {CYLINDER, {1, 2, 0}, 1, 1, 1, 5, 0};
    const uint32_t whole[] = {sum_of(box), sum_of(sides), sum_of(sphere), sum_of(cylinder), sum_of(cone)};
    for (size_t k = 0; k < sizeof bits / sizeof *bits; k++) {
        memcpy(sides.size + 1, bits + k, 4);
        memcpy(sphere.size, bits + k, 4);
        memcpy(cylinder.size, bits + k, 4);
        memcpy(cylinder.size + 1, bits + k, 4);
        memcpy(cone.size, bits + k, 4);
        memcpy(cone.size + 1, bits + k, 4);
        require(sum_of(sides) == whole[k < 4 ? 0 : 1], "the sides of a box");
        require(sum_of(sphere) == whole[2] && sum_of(cylinder) == whole[3] && sum_of(cone) == whole[4], "sizes");
    }
}

/* A result slice that is shorter gets what it has room for. */
static void try_result(void) {
    part box = {BOX, {2, 2, 2}, 0, 0, 0, 0, 0};
    result_length = 2;
    sum_of(box);
    require(result[0] == 24 && result[1] == 36 && result[2] == FILLER, "a result of two");
    result_length = SITEMESH_RESULT;
}

/* Eight floats are a transform, the ninth is not read, seven are none; and where texture is not wanted it does nothing. */
static void try_transform(void) {
    static const float transform[9] = {0.5f, 0.25f, 0.6f, 0.8f, 2, 3, 0.125f, 1, 9};
    part p = {CYLINDER, {1, 2, 0}, 1, 0, 1, 5, 0};
    uint32_t found[4];
    for (size_t n = 6; n < 10; n++) {
        lend(p, 1);
        fill(p, sitemesh_sin_cos);
        require(call(p, 1, transform, n) == SITEMESH_OK, "0 is wanted");
        found[n - 6] = sum_of_all();
    }
    tell("transform");
    require(found[0] == found[1] && found[2] == found[3] && found[1] != found[2], "eight floats are a transform");
    lend(p, 0);
    require(call(p, 0, transform, 8) == SITEMESH_OK, "0 is wanted");
    require_made(TEXTURES, 0);
}

static uint32_t call_points(const float *points, size_t n, uint32_t has_colors, uint32_t alpha, const float *listed,
                            size_t m) {
    clear();
    return sitemesh_point_set(points, n, has_colors, alpha, listed, m, floats(POSITIONS), lengths[POSITIONS],
                              floats(COLOURS), lengths[COLOURS], words(SOURCES), lengths[SOURCES], result,
                              SITEMESH_RESULT);
}

static void lend_points(size_t n, int colours) {
    memset(lengths, 0, sizeof lengths);
    lengths[POSITIONS] = 3 * n;
    lengths[COLOURS] = colours ? 4 * n : 0;
    lengths[SOURCES] = n;
}

/* So many points and colours of a width, with a point and a colour that are not full. */
static void try_points(size_t n, size_t m, uint32_t has_colors, uint32_t alpha) {
    static float points[3 * 16 + 2], listed[4 * 17 + 2];
    int made = has_colors && m >= n;
    for (size_t i = 0; i < sizeof points / sizeof *points; i++) points[i] = (float)i;
    for (size_t i = 0; i < sizeof listed / sizeof *listed; i++) listed[i] = (float)i / 64;
    uint32_t nan = 0xffa00001;
    memcpy(points + 1, &nan, sizeof nan);
    lend_points(n, made);
    size_t given = (alpha ? 4 : 3) * m + 2;
    require(call_points(points, 3 * n + 2, has_colors, alpha, listed, given) == SITEMESH_OK, "0 is wanted");
    for (int k = 0; k < SLICES; k++) require_made(k, lengths[k]);
    require(memcmp(floats(POSITIONS), points, 12 * n) == 0, "the points as they are");
    for (size_t k = 0; k < n; k++) require(words(SOURCES)[k] == k, "a point's source is its number");
    require(result[0] == n && result[1] == 0 && result[2] && result[3] && result[4] == (size_t)made, "the result");
    char name[64];
    snprintf(name, sizeof name, "points %zu %zu %u %u", n, m, (unsigned)has_colors, (unsigned)alpha);
    tell(name);
    for (int k = 0; k < SLICES; k++) {
        if (lengths[k] == 0) continue;
        lengths[k]--;
        require(call_points(points, 3 * n + 2, has_colors, alpha, listed, given) == SITEMESH_BUFFER, "8 is wanted");
        require_nothing_written();
        lengths[k]++;
    }
}

static void try_most_points(void) {
    static float points[3 * 8193];
    lend_points(8192, 0);
    require(call_points(points, 3 * 8193 - 1, 0, 0, NULL, 0) == SITEMESH_OK, "8,192 points and a part of one");
    require(call_points(points, 3 * 8193, 0, 0, NULL, 0) == SITEMESH_CORNERS, "7 is wanted");
    require_nothing_written();
    lend_points(0, 0);
    require(call_points(points, 3 * 8193, 0, 0, NULL, 0) == SITEMESH_CORNERS, "7 is wanted, before 8");
    require_nothing_written();
    require(call_points(points, 0, 1, 0, NULL, 0) == SITEMESH_OK && result[4] == 1, "no points, and an empty list of colours");
}

/* The order in which pairs are filled: a callback that numbers its calls and keeps the angles. */
static float angles[4096];
static size_t calls;

static sitemesh_sincos numbered(float angle) {
    sitemesh_sincos pair = {(float)calls, -(float)calls};
    angles[calls++] = angle;
    return pair;
}

static void tell_angles(part p) {
    lend(p, 0);
    calls = 0;
    pairs[pairs_length] = 99.0f;
    require(fill(p, numbered) == calls && 2 * calls == pairs_length && pairs[pairs_length] == 99.0f, "the pairs filled");
    for (size_t k = 0; k < calls; k++)
        require(pairs[2 * k] == (float)k && pairs[2 * k + 1] == -(float)k, "the sine first, in the order of the calls");
    printf("angles of a %s", kinds[p.kind]);
    for (size_t k = 0; k < calls; k++) {
        uint32_t bits;
        memcpy(&bits, angles + k, sizeof bits);
        printf(" %08" PRIx32, bits);
    }
    printf("\n");
    size_t all = calls;
    pairs_length = 5;
    pairs[4] = 99.0f;
    calls = 0;
    require(fill(p, numbered) == all && calls == 2 && pairs[4] == 99.0f, "as many pairs as there is room for");
}

/* The lengths that serve every part are those of the most slices and stacks. */
static void try_most(void) {
    sitemesh_sizes sphere = sitemesh_sphere_sizes(UINT32_MAX, 1024), cone = sitemesh_cone_sizes(1, 1, 1025);
    sitemesh_sizes cylinder = sitemesh_cylinder_sizes(1, 1, 1, 1024);
    require(sphere.vertices == SITEMESH_MOST_SPHERE_VERTICES && sphere.indices == SITEMESH_MOST_SPHERE_INDICES &&
                sphere.pairs == SITEMESH_MOST_SPHERE_PAIRS, "the largest sphere");
    require(cylinder.vertices == SITEMESH_MOST_ROUND_VERTICES && cone.vertices <= cylinder.vertices &&
                cylinder.indices == SITEMESH_MOST_ROUND_INDICES && cone.indices <= cylinder.indices &&
                cone.pairs == SITEMESH_MOST_ROUND_PAIRS && cylinder.pairs <= cone.pairs, "the largest cylinder and cone");
}

int main(void) {
    static const uint32_t on[] = {0, 1, 0x80000000};
    part box = {BOX, {2, 4, 6}, 0, 0, 0, 0, 0};
    for (uint32_t need_uvs = 0; need_uvs < 2; need_uvs++) {
        try_part(box, need_uvs);
        for (uint32_t k = 0; k < 12; k++) {
            part sphere = {SPHERE, {1.5f, 0, 0}, 0, 0, 0, k, k / 2};
            try_part(sphere, need_uvs);
        }
        for (uint32_t k = 0; k < 27; k++) {
            part cylinder = {CYLINDER, {1.5f, 3, 0}, on[k % 3], on[k / 3 % 3], on[k / 9], 3 + k % 4, 0};
            try_part(cylinder, need_uvs);
            part cone = {CONE, {1.5f, 3, 0}, on[k % 3], 0, on[k / 9], 3 + k % 4, 0};
            try_part(cone, need_uvs);
        }
    }
    part most = {CYLINDER, {1, 1, 0}, 1, 1, 1, UINT32_MAX, 0}, round = {CONE, {1, 1, 0}, 0, 0, 1, 1025, 0};
    try_part(most, 1);
    try_part(round, 1);
    part replaced = {CYLINDER, {-1, 0, 0}, 1, 1, 1, 8, 0}, defaults = {CYLINDER, {1, 2, 0}, 1, 1, 1, 8, 0};
    require(try_part(replaced, 0) == try_part(defaults, 0), "sizes that are not above 0");
    try_most();
    try_sizes();
    try_result();
    try_transform();
    for (size_t m = 11; m < 14; m++)
        for (uint32_t k = 0; k < 4; k++) try_points(12, m, k % 2, k / 2);
    try_most_points();
    part sphere = {SPHERE, {1, 0, 0}, 0, 0, 0, 3, 2}, cylinder = {CYLINDER, {1, 1, 0}, 1, 1, 1, 3, 0};
    part cone = {CONE, {1, 1, 0}, 1, 0, 1, 3, 0};
    tell_angles(sphere);
    tell_angles(cylinder);
    tell_angles(cone);
    return 0;
}
