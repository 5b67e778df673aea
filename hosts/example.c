/* Reads a block on standard input, converts it as a terminal does, with grey for missing colours, and says how much was
 * made and where its first corner is. */
#include "sitemesh.h"
#include <stdio.h>

static uint8_t block[SITEMESH_MOST_BLOCK + 1]; /* with room to see that a block is too long */
static float positions[SITEMESH_MOST_POSITIONS], normals[SITEMESH_MOST_NORMALS];
static float colours[SITEMESH_MOST_COLOURS], textures[SITEMESH_MOST_TEXTURES], floats[SITEMESH_MOST_FLOATS];
static uint32_t sources[SITEMESH_MOST_SOURCES], indices[SITEMESH_MOST_INDICES], words[SITEMESH_MOST_WORDS];

int main(void) {
    size_t n = fread(block, 1, sizeof block, stdin);
    size_t result[SITEMESH_RESULT];
    sitemesh_call call = {SITEMESH_GREY};
    uint32_t refusal = sitemesh_convert(
        call, block, n, positions, SITEMESH_MOST_POSITIONS, normals, SITEMESH_MOST_NORMALS, colours, SITEMESH_MOST_COLOURS,
        textures, SITEMESH_MOST_TEXTURES, sources, SITEMESH_MOST_SOURCES, indices, SITEMESH_MOST_INDICES, words,
        SITEMESH_MOST_WORDS, floats, SITEMESH_MOST_FLOATS, result, SITEMESH_RESULT);
    if (refusal != SITEMESH_OK) {
        printf("refused: %u\n", (unsigned)refusal);
        return 1;
    }
    printf("%zu vertices, %zu indices\n", result[SITEMESH_VERTICES], result[SITEMESH_INDICES]);
    if (result[SITEMESH_INDICES] > 0) {
        const float *p = positions + 3 * indices[0];
        printf("first corner at %.3f %.3f %.3f\n", p[0], p[1], p[2]);
    }
    return 0;
}
