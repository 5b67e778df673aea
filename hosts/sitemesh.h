/*
 * The converter for C and C++ (docs/FORMAT.md 15): link target/staticlib/libhost.a, on x86-64 Linux. Of the host's C
 * library it uses memcpy and memset at most. hosts/example.c is a program that calls it.
 *
 * What is promised (docs/PROMISES.md) is proved of a host that keeps to this:
 *
 * - Slices. Each is a pointer and a number of elements that are there, aligned as its type; where the number is 0 the
 *   pointer may be null. No two of the nine overlap, none overlaps the block, and nothing else writes to the block or
 *   touches a slice during the call. Otherwise nothing is promised, not even that the call stays inside or ends.
 * - Floats. The calling thread rounds to nearest, has exceptions masked, and neither flushes results to zero nor takes
 *   denormals for zero, as a Linux program starts (MXCSR 1f80). Linking a program with gcc's or clang's -ffast-math
 *   changes that for the whole program, and so did, with gcc 12.2, a shared library linked with it. Then the mesh
 *   may be another: a duct whose cross-section is (0, 0), (1, 0), (1, 1), (0, 1), (1e-40, 0) lost two of its fourteen
 *   triangles. A host that cannot be sure puts _mm_setcsr(0x1f80) before the call and its own mode back after it.
 * - Stack. Some 4.1 KiB: 4,112 bytes were the most in 1.3 million fuzzed calls, arguments included, and there is no
 *   recursion. Leave 8 KiB, which is all that the fuzzing gives a call (compare/README.md).
 *
 * There is no state outside the arguments, so threads may call at the same time, each with slices of its own; they may
 * share a block. Nothing is allocated.
 */
#ifndef SITEMESH_H
#define SITEMESH_H

#include <stddef.h>
#include <stdint.h>

#ifdef __cplusplus
extern "C" {
#endif

/* What a call returns: SITEMESH_OK, or why the block (docs/FORMAT.md 3) or the part (17.10) is refused. */
enum {
    SITEMESH_OK = 0,
    SITEMESH_STUB = 1,
    SITEMESH_EDITION = 2,
    SITEMESH_ZERO_BITS = 3,
    SITEMESH_LIST_LIMIT = 4,
    SITEMESH_LENGTH = 5,
    SITEMESH_NO_SHAPE = 6,
    SITEMESH_CORNERS = 7,
    SITEMESH_BUFFER = 8,
    SITEMESH_ATTRIBUTES = 9,
    SITEMESH_PAIRS = 10
};

/* What `result` holds after success. */
enum { SITEMESH_VERTICES, SITEMESH_INDICES, SITEMESH_SOLID, SITEMESH_UNLIT, SITEMESH_HAS_COLORS, SITEMESH_RESULT };

/*
 * Lengths that serve every block: those of docs/FORMAT.md 4 for the most corners and points, C = P = 8,192. Faces of n
 * corners have 3 (n - 2) indices each, so that one face of all corners has the most; lines have 2 for each corner but
 * the first. The longest block has 68 bytes and eight full lists, of 16 words in all.
 */
enum {
    SITEMESH_MOST_POSITIONS = 3 * 8192,
    SITEMESH_MOST_NORMALS = 3 * 8192,
    SITEMESH_MOST_COLOURS = 4 * 8192,
    SITEMESH_MOST_TEXTURES = 2 * 8192,
    SITEMESH_MOST_SOURCES = 8192,
    SITEMESH_MOST_INDICES = 3 * (8192 - 2),
    SITEMESH_MOST_WORDS = 8 * (8192 + 8192) + 8,
    SITEMESH_MOST_FLOATS = 8 * (8192 + 8192) + 8,
    SITEMESH_MOST_BLOCK = 68 + 4 * 16 * 8192
};

/*
 * A colour: red, green, blue and alpha, each the bits of a float; they are copied as they are, those of a NaN too. Not the
 * floats themselves: {0.8, 0.8, 0.8, 1} compiles in C and is black and all but transparent. memcpy each from a float.
 */
typedef struct {
    uint32_t r, g, b, a;
} sitemesh_colour;

/*
 * Two colours by name (docs/FORMAT.md 7.2): what terminals pass, (0.8, 0.8, 0.8, 1), and what the survey desk does, all 1.
 * No colour is passed by itself. They are objects: in C, what starts from one stands in a function and not at file scope.
 */
static const sitemesh_colour SITEMESH_GREY = {0x3f4ccccd, 0x3f4ccccd, 0x3f4ccccd, 0x3f800000};
static const sitemesh_colour SITEMESH_WHITE = {0x3f800000, 0x3f800000, 0x3f800000, 0x3f800000};

/* What the caller chooses: the colour where a block has colours and a corner's is missing. */
typedef struct {
    sitemesh_colour colour;
} sitemesh_call;

/*
 * Converts the block into the lent slices, each a pointer and its length in elements. Returns SITEMESH_OK and puts the
 * counts and bits above into `result`, as far as it goes; or returns the refusal, and then every lent element is what
 * it was. The lengths asked for are in docs/FORMAT.md 4. `words` and `floats` are the two working slices: scratch, and
 * zeros after success.
 */
uint32_t sitemesh_convert(sitemesh_call call,
                          const uint8_t *block, size_t block_length,
                          float *positions, size_t positions_length,
                          float *normals, size_t normals_length,
                          float *colours, size_t colours_length,
                          float *textures, size_t textures_length,
                          uint32_t *sources, size_t sources_length,
                          uint32_t *indices, size_t indices_length,
                          uint32_t *words, size_t words_length,
                          float *floats, size_t floats_length,
                          size_t *result, size_t result_length);

typedef struct {
    float sin, cos;
} sitemesh_sincos;

/*
 * Sine and cosine of an angle in radians, from a table (docs/FORMAT.md 16): for whoever fills a block where there is no
 * maths library, with the same bits on every machine. Each is within 2^-20 of its series where the angle is at most 1024
 * in size; any other angle, an infinite one and a NaN give 0 and 1. What it is for (docs/FORMAT.md 2.3, 2.4): the cosine of
 * the crease angle, sine and cosine of a texture's rotation, sine and cosine of half the angle of an orientation. It takes
 * some 4.1 KiB of stack: the table is laid out there in each call.
 */
sitemesh_sincos sitemesh_sin_cos(float angle);

/*
 * Parts (docs/FORMAT.md 17): PointSet, Box, Sphere, Cylinder and Cone of VRML97, of numbers in place of a block. What is
 * said above of slices, floats, stack and threads holds here too, for what is read as for the block; 1,240 bytes of stack were
 * the most in 2.2 million fuzzed calls, and filling pairs by sitemesh_sin_cos takes its 4.1 KiB. A call returns
 * SITEMESH_OK and writes `result` as above; or SITEMESH_CORNERS, SITEMESH_PAIRS or SITEMESH_BUFFER, tried in this order,
 * and then every lent element is what it was. hosts/part.c is a program that calls them.
 *
 * - All but a PointSet lie round the origin, the axis along Y, and have no colour: place and colour are the host's.
 * - A size that is not finite or not above 0 is the standard's default: 2 for a side of a box or a height, 1 for a radius;
 *   one side of a box that is not finite makes all three 2. Slices are held to 3 to 1,024, stacks to 2 to 1,024. A flag is
 *   off where it is 0, else on.
 * - `transform`: eight floats or more are a texture transform, of which the first eight count: centre s and t, sine and
 *   cosine of the rotation, scale s and t, translation s and t. Fewer are none. `textures` is asked for where need_uvs is on.
 * - `pairs`: a sine and then a cosine for each place where the part turns, in an order of its own (docs/FORMAT.md 17.3);
 *   sitemesh_fill_sphere and the like fill them. Its length is counted in floats. With too few SITEMESH_PAIRS is returned;
 *   those beyond are not read, so a list that was filled for more slices makes another shape and is not told.
 */

/* Of the points the full ones, at most 8,192. `listed` are their colours, of four floats where alpha is on, else three; too
 * few of them, or has_colors off, and no colours are made. Asked for: positions 3, sources 1 and, where made, colours 4 for
 * each point. There are no indices. */
uint32_t sitemesh_point_set(const float *points, size_t points_length,
                            uint32_t has_colors, uint32_t alpha,
                            const float *listed, size_t listed_length,
                            float *positions, size_t positions_length,
                            float *colours, size_t colours_length,
                            uint32_t *sources, size_t sources_length,
                            size_t *result, size_t result_length);

/* Of the other four: positions and normals 3 for each vertex, textures 2, and the indices. How many they are is said below. */
uint32_t sitemesh_box(float x, float y, float z,
                      uint32_t need_uvs, const float *transform, size_t transform_length,
                      float *positions, size_t positions_length,
                      float *normals, size_t normals_length,
                      float *textures, size_t textures_length,
                      uint32_t *indices, size_t indices_length,
                      size_t *result, size_t result_length);

uint32_t sitemesh_sphere(float radius, uint32_t slices, uint32_t stacks,
                         uint32_t need_uvs, const float *transform, size_t transform_length,
                         const float *pairs, size_t pairs_length,
                         float *positions, size_t positions_length,
                         float *normals, size_t normals_length,
                         float *textures, size_t textures_length,
                         uint32_t *indices, size_t indices_length,
                         size_t *result, size_t result_length);

uint32_t sitemesh_cylinder(float radius, float height, uint32_t side, uint32_t top, uint32_t bottom, uint32_t slices,
                           uint32_t need_uvs, const float *transform, size_t transform_length,
                           const float *pairs, size_t pairs_length,
                           float *positions, size_t positions_length,
                           float *normals, size_t normals_length,
                           float *textures, size_t textures_length,
                           uint32_t *indices, size_t indices_length,
                           size_t *result, size_t result_length);

uint32_t sitemesh_cone(float bottom_radius, float height, uint32_t side, uint32_t bottom, uint32_t slices,
                       uint32_t need_uvs, const float *transform, size_t transform_length,
                       const float *pairs, size_t pairs_length,
                       float *positions, size_t positions_length,
                       float *normals, size_t normals_length,
                       float *textures, size_t textures_length,
                       uint32_t *indices, size_t indices_length,
                       size_t *result, size_t result_length);

/* How many vertices and indices a part has, and how many pairs it takes, two floats each. */
typedef struct {
    size_t vertices, indices, pairs;
} sitemesh_sizes;

/* Those of a box; and what serves every cylinder and cone, and every sphere. */
enum {
    SITEMESH_BOX_VERTICES = 24,
    SITEMESH_BOX_INDICES = 36,
    SITEMESH_MOST_ROUND_VERTICES = 4 * 1025,
    SITEMESH_MOST_ROUND_INDICES = 12 * 1024,
    SITEMESH_MOST_ROUND_PAIRS = 6 * 1024,
    SITEMESH_MOST_SPHERE_VERTICES = 1025 * 1025,
    SITEMESH_MOST_SPHERE_INDICES = 6 * 1024 * 1023,
    SITEMESH_MOST_SPHERE_PAIRS = 1025 * 1026
};

/* Slices are held to 3 to 1,024, stacks to 2 to 1,024. */
static inline uint32_t sitemesh_held(uint32_t n, uint32_t least) {
    return n < least ? least : n > 1024 ? 1024 : n;
}

static inline sitemesh_sizes sitemesh_sphere_sizes(uint32_t slices, uint32_t stacks) {
    size_t n = sitemesh_held(slices, 3), k = sitemesh_held(stacks, 2);
    sitemesh_sizes sizes = {(k + 1) * (n + 1), 6 * n * (k - 1), (k + 1) * (n + 2)};
    return sizes;
}

static inline sitemesh_sizes sitemesh_cylinder_sizes(uint32_t side, uint32_t top, uint32_t bottom, uint32_t slices) {
    size_t n = sitemesh_held(slices, 3), sides = side != 0, caps = top != 0;
    if (bottom) caps++;
    sitemesh_sizes sizes = {(2 * sides + caps) * (n + 1), (6 * sides + 3 * caps) * n, sides * (n + 1) + caps * n};
    return sizes;
}

static inline sitemesh_sizes sitemesh_cone_sizes(uint32_t side, uint32_t bottom, uint32_t slices) {
    size_t n = sitemesh_held(slices, 3), sides = side != 0, caps = bottom != 0;
    sitemesh_sizes sizes = {3 * sides * n + caps * (n + 1), 3 * (sides + caps) * n, (5 * sides + caps) * n};
    return sizes;
}

/*
 * Filling the pairs of a part, in its order (docs/FORMAT.md 17.3). `sin_cos` gives both of an angle from 0 to 2 pi: either
 * sitemesh_sin_cos, the same on every machine, or a function over the host's sinf and cosf, with which the mesh is that of the
 * reference on that host, bit for bit. Each function returns how many pairs the part takes, and fills as many as `pairs`
 * has room for.
 */
typedef sitemesh_sincos (*sitemesh_sine)(float angle);

#define SITEMESH_PI 3.14159274f
#define SITEMESH_TAU 6.28318548f

static inline size_t sitemesh_fill_pair(float *pairs, size_t length, size_t at, float angle, sitemesh_sine sin_cos) {
    if (2 * at + 1 < length) {
        sitemesh_sincos pair = sin_cos(angle);
        pairs[2 * at] = pair.sin;
        pairs[2 * at + 1] = pair.cos;
    }
    return at + 1;
}

/* So many places of a circle of n slices. */
static inline size_t sitemesh_fill_ring(float *pairs, size_t length, size_t at, uint32_t places, uint32_t n,
                                        sitemesh_sine sin_cos) {
    for (uint32_t i = 0; i < places; i++)
        at = sitemesh_fill_pair(pairs, length, at, SITEMESH_TAU * ((float)i / (float)n), sin_cos);
    return at;
}

static inline size_t sitemesh_fill_sphere(float *pairs, size_t pairs_length, uint32_t slices, uint32_t stacks,
                                          sitemesh_sine sin_cos) {
    uint32_t n = sitemesh_held(slices, 3), k = sitemesh_held(stacks, 2);
    size_t at = 0;
    for (uint32_t j = 0; j <= k; j++) {
        at = sitemesh_fill_pair(pairs, pairs_length, at, SITEMESH_PI * ((float)j / (float)k), sin_cos);
        at = sitemesh_fill_ring(pairs, pairs_length, at, n + 1, n, sin_cos);
    }
    return at;
}

static inline size_t sitemesh_fill_cylinder(float *pairs, size_t pairs_length, uint32_t side, uint32_t top,
                                            uint32_t bottom, uint32_t slices, sitemesh_sine sin_cos) {
    uint32_t n = sitemesh_held(slices, 3);
    size_t at = 0;
    if (side) at = sitemesh_fill_ring(pairs, pairs_length, at, n + 1, n, sin_cos);
    if (top) at = sitemesh_fill_ring(pairs, pairs_length, at, n, n, sin_cos);
    if (bottom) at = sitemesh_fill_ring(pairs, pairs_length, at, n, n, sin_cos);
    return at;
}

/* For each slice of the side five: its two ends for the positions, both again and the middle for the normals. */
static inline size_t sitemesh_fill_cone(float *pairs, size_t pairs_length, uint32_t side, uint32_t bottom, uint32_t slices,
                                        sitemesh_sine sin_cos) {
    uint32_t n = sitemesh_held(slices, 3);
    size_t at = 0;
    for (uint32_t i = 0; side && i < n; i++) {
        float s0 = (float)i / (float)n, s1 = (float)(i + 1) / (float)n;
        float places[5] = {s0, s1, s0, s1, (s0 + s1) / 2.0f};
        for (int k = 0; k < 5; k++)
            at = sitemesh_fill_pair(pairs, pairs_length, at, SITEMESH_TAU * places[k], sin_cos);
    }
    return bottom ? sitemesh_fill_ring(pairs, pairs_length, at, n, n, sin_cos) : at;
}

#ifdef __cplusplus
}
#endif

#endif
