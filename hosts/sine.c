/* Reads angles, each the bits of a float as hexadecimal digits on a line, and prints the bits of their sines and cosines. */
#include <inttypes.h>
#include <stdio.h>
#include <string.h>

#include "sitemesh.h"

static uint32_t bits_of(float x) {
    uint32_t bits;
    memcpy(&bits, &x, sizeof bits);
    return bits;
}

int main(void) {
    uint32_t bits;
    while (scanf("%" SCNx32, &bits) == 1) {
        float angle;
        memcpy(&angle, &bits, sizeof angle);
        sitemesh_sincos r = sitemesh_sin_cos(angle);
        printf("%08" PRIx32 " %08" PRIx32 "\n", bits_of(r.sin), bits_of(r.cos));
    }
    return 0;
}
