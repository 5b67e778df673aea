/* call BLOCK COLOUR [SLICE]: converts the block of a file with the slices that sitemesh lends and a colour for missing
 * entries (grey, white, or four words as eight hexadecimal digits each, parted by commas), prints the answer as sitemesh
 * does, and looks at the guards before and behind every slice. With a third argument the named one of the eight slices is
 * lent one element short, and every element must be as it was. */
#include "sitemesh.h"
#include <stdio.h>
#include <stdlib.h>
#include <string.h>

enum { GUARD = 64, RESULT = 8, SLICES = 9, FILLER = 0x5a5a5a5a };

static const char *const names[SLICES] = {"positions", "normals", "colours", "textures", "sources",
                                          "indices", "words", "floats", "result"};
static const size_t lengths[SLICES] = {768, 768, 1024, 512, 256, 768, 4104, 4104, 2 * SITEMESH_RESULT};

/* A slice of n words between two guards, all of them FILLER. The result slice is counted in words here. */
static uint32_t *lend(size_t n) {
    uint32_t *all = malloc((n + 2 * GUARD) * sizeof *all);
    if (!all) exit(2);
    for (size_t i = 0; i < n + 2 * GUARD; i++) all[i] = FILLER;
    return all + GUARD;
}

static int is_filler(const uint32_t *words, size_t n) {
    for (size_t i = 0; i < n; i++)
        if (words[i] != FILLER) return 0;
    return 1;
}

static void require(int holds, const char *what, const char *slice) {
    if (holds) return;
    fprintf(stderr, "%s: %s\n", slice, what);
    exit(1);
}

/* The layout that the archive has: four words in a row, in this order, and nothing else. */
typedef char call_is_four_words[sizeof(sitemesh_call) == 16 && offsetof(sitemesh_call, colour) == 0 ? 1 : -1];
typedef char colour_is_in_order[offsetof(sitemesh_colour, r) == 0 && offsetof(sitemesh_colour, g) == 4 &&
                                        offsetof(sitemesh_colour, b) == 8 && offsetof(sitemesh_colour, a) == 12
                                    ? 1
                                    : -1];

static sitemesh_colour colour_of(const char *word) {
    if (strcmp(word, "grey") == 0) return SITEMESH_GREY;
    if (strcmp(word, "white") == 0) return SITEMESH_WHITE;
    unsigned r, g, b, a;
    if (sscanf(word, "%8x,%8x,%8x,%8x", &r, &g, &b, &a) != 4) exit(2);
    sitemesh_colour colour = {r, g, b, a};
    return colour;
}

static void print_words(const char *letter, const uint32_t *words, size_t v, size_t n) {
    printf(" %s", letter);
    for (size_t i = 0; i < n; i++) printf(" %08x", words[n * v + i]);
}

static void print_mesh(uint32_t *const *s, const size_t *result, int texture) {
    printf("mesh %zu %zu %zu %zu %zu\n", result[0], result[1], result[2], result[3], result[4]);
    for (size_t v = 0; v < result[SITEMESH_VERTICES]; v++) {
        printf("v %u", s[4][v]);
        for (size_t i = 0; i < 3; i++) printf(" %08x", s[0][3 * v + i]);
        if (!result[SITEMESH_UNLIT]) print_words("n", s[1], v, 3);
        if (result[SITEMESH_HAS_COLORS]) print_words("c", s[2], v, 4);
        if (texture) print_words("u", s[3], v, 2);
        printf("\n");
    }
    size_t n = result[SITEMESH_UNLIT] ? 2 : 3;
    for (size_t i = 0; i + n <= result[SITEMESH_INDICES]; i += n) {
        printf(result[SITEMESH_UNLIT] ? "l" : "t");
        for (size_t k = 0; k < n; k++) printf(" %u", s[5][i + k]);
        printf("\n");
    }
}

int main(int argc, char **argv) {
    static uint8_t block[8192];
    FILE *file = argc > 2 ? fopen(argv[1], "rb") : NULL;
    if (!file) return 2;
    size_t n = fread(block, 1, sizeof block, file);
    fclose(file);

    uint32_t *s[SLICES];
    size_t lent[SLICES];
    for (int k = 0; k < SLICES; k++) {
        s[k] = lend(lengths[k]);
        lent[k] = lengths[k] - (argc > 3 && k < RESULT && strcmp(argv[3], names[k]) == 0);
    }
    size_t result[SITEMESH_RESULT];
    sitemesh_call call = {colour_of(argv[2])};
    uint32_t number = sitemesh_convert(call, block, n, (float *)s[0], lent[0], (float *)s[1], lent[1], (float *)s[2],
                                       lent[2], (float *)s[3], lent[3], s[4], lent[4], s[5], lent[5], s[6], lent[6],
                                       (float *)s[7], lent[7], (size_t *)(void *)s[8], SITEMESH_RESULT);
    memcpy(result, s[8], sizeof result);

    for (int k = 0; k < SLICES; k++) {
        require(is_filler(s[k] - GUARD, GUARD), "written before its start", names[k]);
        require(is_filler(s[k] + lent[k], GUARD + lengths[k] - lent[k]), "written beyond its end", names[k]);
        if (number != 0) require(is_filler(s[k], lent[k]), "written in a refused call", names[k]);
    }
    if (number != 0) {
        printf("no %u\n", number);
        return 0;
    }
    for (size_t i = 0; i < lent[6]; i++) require(s[6][i] == 0, "not cleared", names[6]);
    for (size_t i = 0; i < lent[7]; i++) require(s[7][i] == 0, "not cleared", names[7]);
    size_t v = result[SITEMESH_VERTICES];
    require(is_filler(s[0] + 3 * v, lent[0] - 3 * v), "written beyond what was made", names[0]);
    require(is_filler(s[4] + v, lent[4] - v), "written beyond what was made", names[4]);
    require(is_filler(s[5] + result[1], lent[5] - result[1]), "written beyond what was made", names[5]);
    int texture = v > 0 && !is_filler(s[3], 2 * v);
    print_mesh(s, result, texture);
    return 0;
}
