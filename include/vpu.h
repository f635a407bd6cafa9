/*
 * The verified VPU: a plane of 320 by 240 pixels, and command words that paint it. Archive: libvpu_c.a.
 *
 * There are three calls. Each takes every value of its arguments and returns. A call owns nothing and keeps
 * nothing: the small state travels by value, and the large memory is the host's, lent for the time of the call.
 *
 *     vpu_fed fed = vpu_reset(plane, VPU_PLANE_BYTES, depth, VPU_PIXELS, depth_f32, VPU_PIXELS,
 *                             command, VPU_COMMAND_WORDS, textures, texture_words, models, model_words);
 *     if (fed.answer == VPU_DONE)
 *         fed = vpu_feed(fed.state, words, count, plane, VPU_PLANE_BYTES, ...);
 *
 * The host has to see to this, since no call can test it:
 *   - each pointer is aligned and points to as many initialised elements as the length after it says; if the
 *     length is 0, nothing is read or written through the pointer, but it is not null either;
 *   - no two of the buffers lent to one call overlap, and the words of a feed overlap none of them;
 *   - nothing else reads or writes them while the call runs;
 *   - floats round to nearest, and subnormals are kept: the processor's state at the start of a program. It is
 *     another if the host is linked with -ffast-math or changes the rounding;
 *   - 64 kilobytes of stack are left (the calls took 53 at most on the stored streams: examples/stack.c);
 *   - the compiler lays the structs below out as the archive's does (examples/layout.c tries every field);
 *   - from a reset answered 0 on, each feed gets the state that the call before it gave back, and the memory
 *     as that call left it. (A host may change either: every call still has an answer, and does to that
 *     memory what the rules say. But then it is not drawing what its words say.)
 *
 * Words may be cut into calls anywhere. A call costs about a microsecond, so send many words in one call.
 */
#ifndef VPU_H
#define VPU_H

#include <stddef.h>
#include <stdint.h>

#ifdef __cplusplus
extern "C" {
#endif

/* ---- sizes: what has to be lent ---- */

#define VPU_WIDTH            320
#define VPU_HEIGHT           240
#define VPU_PIXELS           76800    /* numbers of each depth: VPU_WIDTH * VPU_HEIGHT */
#define VPU_PLANE_BYTES      307200   /* bytes of the plane: r, g, b, a of each pixel, row by row */
#define VPU_COMMAND_WORDS    524291   /* words of the command area, and the most payload words of a command */
#define VPU_STORE_WORDS_MOST 16777216 /* a store has 0 to this many words, as the host likes */

#define VPU_MATRIX_FLOATS 48 /* model, view and projection, 16 floats each, row by row */
#define VPU_LIGHTS        8
#define VPU_SLOTS         64 /* uploads that a store can hold */

/* ---- what a call answers ---- */

#define VPU_DONE         0u
#define VPU_WRONG_LENGTH 1u /* a lent length is wrong; tested before the state */
#define VPU_MALFORMED    2u /* vpu_feed only: the state is not well formed */

/* ---- bits of the status ---- */

/* Words set these bits and never clear them; all other bits stay as the host gave them. */

#define VPU_STATUS_ZERO_OPCODE 0x04u /* bit 2: a header with opcode 0 was dropped */
#define VPU_STATUS_REFUSED     0x08u /* bit 3: a command or a header was refused */
#define VPU_STATUS_NO_ROOM     0x40u /* bit 6: an upload had no slot, or no words beside the other numbers' */

/* ---- the state ---- */

/* A switch is a byte: 0 off, 1 on. Any other value is malformed. */
typedef struct vpu_light {
    uint8_t enabled;
    float ambient[3];
    float diffuse[3];
    float specular[3];
    float emission[3];
    float position[3];
} vpu_light;

/* An upload and its place in the store, from the word `start` on. A model has its count of triangles in
   `width`, and `height` 0. */
typedef struct vpu_slot {
    uint8_t held;
    uint32_t number;
    uint32_t width;
    uint32_t height;
    uint32_t start;
} vpu_slot;

/*
 * Plain data without pointers: it may be copied, stored, sent elsewhere and read. A state that came back with
 * the answer 0 is well formed for stores of the same lengths. If a host writes fields itself, the next answer
 * says whether the state still is.
 *
 * Three bytes of padding follow each switch (lighting_enabled, every enabled, every held). A call leaves
 * anything in them, so memcmp may find two equal states different. Compare field by field, or copy both states,
 * field by field, into memory that was zeroed before. Floats compared as bytes distinguish 0.0 from -0.0, which
 * are different settings. A NaN is never well formed; if a refused call gives one back, its bits need not be
 * the same.
 */
typedef struct vpu_state vpu_state;
struct vpu_state {
    float matrices[VPU_MATRIX_FLOATS];
    uint32_t shading_mode; /* 0 or 1 */
    uint8_t lighting_enabled;
    vpu_light lights[VPU_LIGHTS];
    vpu_slot textures[VPU_SLOTS];
    vpu_slot models[VPU_SLOTS];
    uint32_t opcode;   /* the begun command, or 0 */
    uint32_t gathered; /* payload words that are in the command area */
    uint32_t wanted;   /* payload words still missing */
    uint32_t status;
};

/* What vpu_reset and vpu_feed give back. */
typedef struct {
    uint32_t answer;
    vpu_state state;
} vpu_fed;

typedef struct {
    uint32_t answer;
    uint8_t r, g, b, a;
} vpu_colour;

/* ---- the calls ---- */

/*
 * Begins a run. Lent for writing: plane, both depths, both stores. The command area is lent for its length
 * alone.
 *   0: plane and stores are zeroed, depth is filled with 2147483647 and depth_f32 with 1.0, the command area
 *      is as it was. The state is the fresh one: identity matrices, shading mode 0, lighting off, dark
 *      lights, no uploads, no command begun, status 0.
 *   1: a lent length is wrong; nothing lent has changed. The fresh state is given back here too, but no run
 *      may begin on it, since the memory was not reset.
 */
vpu_fed vpu_reset(uint8_t *plane, size_t plane_length, int32_t *depth, size_t depth_length, float *depth_f32,
                  size_t depth_f32_length, const uint32_t *command, size_t command_length, uint32_t *textures,
                  size_t textures_length, uint32_t *models, size_t models_length);

/*
 * Feeds a run of words, possibly none; a command may be cut anywhere between two calls. Lent for reading: the
 * words. Lent for writing: all the rest.
 *   0: all the words were taken, and the state after them is given back. What the words got wrong is seen in
 *      the state's status, not in the answer.
 *   1: a lent length is wrong.
 *   2: the lengths are right, and the state is malformed; a switch above 1 is one of the reasons.
 *      After 1 and 2 nothing lent has changed and the state is given back as it was, so the run may go on
 *      from it.
 */
vpu_fed vpu_feed(vpu_state state, const uint32_t *words, size_t words_length, uint8_t *plane,
                 size_t plane_length, int32_t *depth, size_t depth_length, float *depth_f32,
                 size_t depth_f32_length, uint32_t *command, size_t command_length, uint32_t *textures,
                 size_t textures_length, uint32_t *models, size_t models_length);

/*
 * Reads a pixel. Lent for reading: the plane, which the host may as well read by itself.
 *   0: its four bytes, or four zeros if x >= VPU_WIDTH or y >= VPU_HEIGHT.
 *   1: the plane's length is wrong; four zeros.
 */
vpu_colour vpu_pixel(const uint8_t *plane, size_t plane_length, size_t x, size_t y);

#ifdef __cplusplus
}
#endif

#endif
