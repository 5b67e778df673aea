/* turns BLOCK LIBRARY [LIBRARY]: times two builds of the converter in turn, in one process, on the block of a grid of SIDE by
 * SIDE points, and prints a table; or, with one build, makes one call and takes ROOTS roots, for a tool that counts instructions.
 * A library is an archive made shared (bench/turns). */
#include "sitemesh.h"
#include <dlfcn.h>
#include <stdio.h>
#include <stdlib.h>
#include <string.h>
#include <time.h>

enum { SIDE = 46, POINTS = SIDE * SIDE, CORNERS = 4 * (SIDE - 1) * (SIDE - 1), INDICES = CORNERS / 4 * 6 };
enum { WORKING = 8 * (CORNERS + POINTS) + 8, BLOCK = 68 + 4 * POINTS };
/* As many roots as the call takes: one for each of 2,025 faces and 8,100 corners. */
enum { ROOTS = 10125, ROUNDS = 400 };

typedef struct {
    float positions[3 * CORNERS], normals[3 * CORNERS], colours[4 * CORNERS], textures[2 * CORNERS], floats[WORKING];
    uint32_t sources[CORNERS], indices[INDICES], words[WORKING];
    size_t result[SITEMESH_RESULT];
} Slices;

typedef struct {
    __typeof__(sitemesh_convert) *convert;
    uint32_t (*root)(uint32_t bits);
    Slices made;
    uint32_t roots[ROOTS];
} Build;

static uint8_t block[BLOCK];
static uint32_t arguments[ROOTS];
static Build builds[2];

static void fail(const char *what) {
    fprintf(stderr, "turns: %s\n", what);
    exit(1);
}

static void load(Build *build, const char *path) {
    void *library = dlopen(path, RTLD_NOW | RTLD_LOCAL);
    if (!library) fail(dlerror());
    *(void **)&build->convert = dlsym(library, "sitemesh_convert");
    *(void **)&build->root = dlsym(library, "sitemesh_root");
    if (!build->convert || !build->root) fail("a library without sitemesh_convert or sitemesh_root");
}

static void convert(Build *build) {
    Slices *m = &build->made;
    sitemesh_call call = {SITEMESH_WHITE};
    if (build->convert(call, block, BLOCK, m->positions, 3 * CORNERS, m->normals, 3 * CORNERS, m->colours, 4 * CORNERS, m->textures,
                       2 * CORNERS, m->sources, CORNERS, m->indices, INDICES, m->words, WORKING, m->floats, WORKING, m->result,
                       SITEMESH_RESULT))
        fail("the block is refused");
}

static void take_roots(Build *build) {
    for (int i = 0; i < ROOTS; i++) build->roots[i] = build->root(arguments[i]);
}

static double ms_of(void (*run)(Build *), Build *build) {
    struct timespec a, b;
    clock_gettime(CLOCK_MONOTONIC, &a);
    run(build);
    clock_gettime(CLOCK_MONOTONIC, &b);
    return (b.tv_sec - a.tv_sec) * 1e3 + (b.tv_nsec - a.tv_nsec) / 1e6;
}

static int ascending(const void *a, const void *b) {
    double x = *(const double *)a, y = *(const double *)b;
    return (x > y) - (x < y);
}

static void row(const char *name, void (*run)(Build *)) {
    static double times[2][ROUNDS];
    for (int i = 0; i < ROUNDS; i++)
        for (int k = 0; k < 2; k++) times[k][i] = ms_of(run, &builds[k]);
    for (int k = 0; k < 2; k++) qsort(times[k], ROUNDS, sizeof(double), ascending);
    double *o = times[0], *n = times[1];
    printf("| %s | %.3f | %.3f | %.2f | %.3f | %.3f |\n", name, o[0], n[0], n[0] / o[0], o[ROUNDS / 2], n[ROUNDS / 2]);
}

int main(int argc, char **argv) {
    FILE *file = argc > 2 ? fopen(argv[1], "rb") : NULL;
    if (!file || fread(block, 1, BLOCK, file) != BLOCK) fail("no block of the grid");
    fclose(file);
    /* Arguments from 1 to 65,536, each binade as often as the others. */
    for (uint32_t i = 0, state = 0; i < ROOTS; i++) {
        state = state * 1664525 + 1013904223;
        arguments[i] = (127 << 23) + (state >> 5);
    }
    for (int k = 0; k < 2 && k < argc - 2; k++) {
        load(&builds[k], argv[2 + k]);
        convert(&builds[k]);
        take_roots(&builds[k]);
    }
    if (argc < 4) return 0;
    if (memcmp(&builds[0].made, &builds[1].made, sizeof(Slices)) || memcmp(builds[0].roots, builds[1].roots, sizeof builds[0].roots))
        fail("the two differ");
    char name[64];
    sprintf(name, "%d roots alone", ROOTS);
    printf("| ms, shortest of %d | old | new | new / old | old, median | new, median |\n|---|---|---|---|---|---|\n", ROUNDS);
    row(name, take_roots);
    row("the whole call", convert);
    return 0;
}
