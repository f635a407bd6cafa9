// What refusals.c and room.c share: marks in lent memory, and settings compared field by field, since the padding between
// the fields does not count.
#include <stdbool.h>
#include <string.h>

#include "vpu.h"

static const unsigned char MARK = 90;

static bool marked(const void *part, size_t bytes) {
    const unsigned char *at = part;
    return bytes == 0 || (*at == MARK && memcmp(at, at + 1, bytes - 1) == 0);
}

static bool same_lights(const vpu_light *a, const vpu_light *b) {
    for (int i = 0; i < VPU_LIGHTS; i++) {
        if (a[i].enabled != b[i].enabled || memcmp(a[i].ambient, b[i].ambient, 15 * sizeof(float)) != 0) return false;
    }
    return true;
}

static bool same_settings(const vpu_state *a, const vpu_state *b) {
    return memcmp(a->matrices, b->matrices, sizeof a->matrices) == 0 && a->shading_mode == b->shading_mode &&
           a->lighting_enabled == b->lighting_enabled && same_lights(a->lights, b->lights);
}
