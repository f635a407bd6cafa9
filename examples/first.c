/* A first host: a plate, a tag on it and a mark on the tag, as a PAM picture with alpha on the standard output. */
#include <stdio.h>
#include "vpu.h"

static uint8_t plane[VPU_PLANE_BYTES]; /* the picture: red, green, blue, alpha of each pixel, row by row */
static int32_t depth[VPU_PIXELS];
static float depth_f32[VPU_PIXELS];
static uint32_t command[VPU_COMMAND_WORDS], textures[1], models[1];

/* The memory that every call is lent. Nothing is uploaded here, so both stores have the length 0. */
#define MEMORY plane, VPU_PLANE_BYTES, depth, VPU_PIXELS, depth_f32, VPU_PIXELS, \
               command, VPU_COMMAND_WORDS, textures, 0, models, 0

static const uint32_t words[] = {
    0x04000003, 3, 0x00000000, 0, /* clear colour and depths; the colour is 0xRRGGBBAA */
    /* Flat triangles: x, y and depth of three corners, 0x00RRGGBB, shade. A smaller depth is nearer. */
    0x1200000b, 24, 176, 30, 295, 176, 30, 295, 223, 30, 0x00182848, 255, /* plate */
    0x1200000b, 24, 176, 30, 295, 223, 30, 24, 223, 30, 0x00182848, 255,
    0x1200000b, 24, 176, 20, 120, 176, 20, 96, 223, 20, 0x00e8203c, 255, /* tag */
    0x1200000b, 24, 176, 20, 96, 223, 20, 24, 223, 20, 0x00e8203c, 255,
    0x1200000b, 44, 184, 10, 76, 200, 10, 44, 215, 10, 0x00ffffff, 255, /* mark */
};

int main(void) {
    vpu_fed fed = vpu_reset(MEMORY);
    if (fed.answer == VPU_DONE) fed = vpu_feed(fed.state, words, sizeof words / sizeof words[0], MEMORY);
    if (fed.answer != VPU_DONE || fed.state.status != 0) return 1; /* a call or a command was refused */
    printf("P7\nWIDTH 320\nHEIGHT 240\nDEPTH 4\nMAXVAL 255\nTUPLTYPE RGB_ALPHA\nENDHDR\n");
    return fwrite(plane, 1, sizeof plane, stdout) != sizeof plane || fflush(stdout) != 0;
}
