/*
 * Tries the layout of the state across the C interface, field by field.
 *   Outward: there is a command for each field that words can set. After each command every field has the
 *   value that was sent, or its old one.
 *   There and back: a feed that is refused, and one of no words, give back every field as it was.
 *   Inward: a state with one field spoiled is malformed, whichever field it is, and is given back whole.
 * Compiles as C11 and as C++.
 */
#include <assert.h>
#include <math.h>
#include <stdio.h>
#include <stdlib.h>
#include <string.h>

#include "vpu.h"

/* ---- sizes and offsets: examples/ffi.rs has the same ---- */

static_assert(sizeof(vpu_light) == 64, "a light");
static_assert(offsetof(vpu_light, enabled) == 0, "enabled");
static_assert(offsetof(vpu_light, ambient) == 4, "ambient");
static_assert(offsetof(vpu_light, diffuse) == 16, "diffuse");
static_assert(offsetof(vpu_light, specular) == 28, "specular");
static_assert(offsetof(vpu_light, emission) == 40, "emission");
static_assert(offsetof(vpu_light, position) == 52, "position");

static_assert(sizeof(vpu_slot) == 20, "a slot");
static_assert(offsetof(vpu_slot, held) == 0, "held");
static_assert(offsetof(vpu_slot, number) == 4, "number");
static_assert(offsetof(vpu_slot, width) == 8, "width");
static_assert(offsetof(vpu_slot, height) == 12, "height");
static_assert(offsetof(vpu_slot, start) == 16, "start");

static_assert(sizeof(vpu_state) == 3288, "a state");
static_assert(offsetof(vpu_state, matrices) == 0, "matrices");
static_assert(offsetof(vpu_state, shading_mode) == 192, "shading_mode");
static_assert(offsetof(vpu_state, lighting_enabled) == 196, "lighting_enabled");
static_assert(offsetof(vpu_state, lights) == 200, "lights");
static_assert(offsetof(vpu_state, textures) == 712, "textures");
static_assert(offsetof(vpu_state, models) == 1992, "models");
static_assert(offsetof(vpu_state, opcode) == 3272, "opcode");
static_assert(offsetof(vpu_state, gathered) == 3276, "gathered");
static_assert(offsetof(vpu_state, wanted) == 3280, "wanted");
static_assert(offsetof(vpu_state, status) == 3284, "status");

static_assert(sizeof(vpu_fed) == 3292, "what a call gives back");
static_assert(offsetof(vpu_fed, answer) == 0, "answer");
static_assert(offsetof(vpu_fed, state) == 4, "state");
static_assert(sizeof(vpu_colour) == 8, "a colour");
static_assert(offsetof(vpu_colour, r) == 4 && offsetof(vpu_colour, g) == 5, "r and g");
static_assert(offsetof(vpu_colour, b) == 6 && offsetof(vpu_colour, a) == 7, "b and a");

/* ---- two states, field by field ---- */

static unsigned compared, refused, fields;

/* Every value that is used here is exact as a double. */
static void same(const char *field, int at, double found, double wanted) {
    fields++;
    if (found != wanted) {
        fprintf(stderr, "layout: %s %d is %.9g, not %.9g\n", field, at, found, wanted);
        exit(1);
    }
}

static float *terms(vpu_light *light, int term) {
    float *all[5];
    all[0] = light->ambient, all[1] = light->diffuse, all[2] = light->specular;
    all[3] = light->emission, all[4] = light->position;
    return all[term];
}

static void same_light(int i, vpu_light found, vpu_light wanted) {
    int j;
    same("light, enabled", i, found.enabled, wanted.enabled);
    for (j = 0; j < 15; j++)
        same("light, term", i, terms(&found, j / 3)[j % 3], terms(&wanted, j / 3)[j % 3]);
}

static void same_slot(const char *store, int i, vpu_slot found, vpu_slot wanted) {
    same(store, i, found.held, wanted.held);
    same(store, i, found.number, wanted.number);
    same(store, i, found.width, wanted.width);
    same(store, i, found.height, wanted.height);
    same(store, i, found.start, wanted.start);
}

static void same_state(vpu_state found, vpu_state wanted) {
    int i;
    fields = 0;
    for (i = 0; i < VPU_MATRIX_FLOATS; i++) same("matrices", i, found.matrices[i], wanted.matrices[i]);
    same("shading_mode", 0, found.shading_mode, wanted.shading_mode);
    same("lighting_enabled", 0, found.lighting_enabled, wanted.lighting_enabled);
    for (i = 0; i < VPU_LIGHTS; i++) same_light(i, found.lights[i], wanted.lights[i]);
    for (i = 0; i < VPU_SLOTS; i++) same_slot("textures", i, found.textures[i], wanted.textures[i]);
    for (i = 0; i < VPU_SLOTS; i++) same_slot("models", i, found.models[i], wanted.models[i]);
    same("opcode", 0, found.opcode, wanted.opcode);
    same("gathered", 0, found.gathered, wanted.gathered);
    same("wanted", 0, found.wanted, wanted.wanted);
    same("status", 0, found.status, wanted.status);
    compared++;
}

/* ---- the machine ---- */

#define TEXTURE_WORDS 1024
#define MODEL_WORDS   8192

static uint8_t plane[VPU_PLANE_BYTES];
static int32_t depth[VPU_PIXELS];
static float depth_f32[VPU_PIXELS];
static uint32_t command[VPU_COMMAND_WORDS];
static uint32_t textures[TEXTURE_WORDS];
static uint32_t models[MODEL_WORDS];

static vpu_fed feed(vpu_state state, const uint32_t *words, size_t count, size_t plane_bytes) {
    return vpu_feed(state, words, count, plane, plane_bytes, depth, VPU_PIXELS, depth_f32, VPU_PIXELS,
                    command, VPU_COMMAND_WORDS, textures, TEXTURE_WORDS, models, MODEL_WORDS);
}

static void answered(vpu_fed fed, uint32_t answer) { same("answer", 0, fed.answer, answer); }

/* ---- outward ---- */

/* The state that the machine has, and the state that it should have. */
static vpu_state now, wanted;

static void send(const uint32_t *words, size_t count) {
    vpu_fed fed = feed(now, words, count, VPU_PLANE_BYTES);
    answered(fed, VPU_DONE);
    now = fed.state;
    same_state(now, wanted);
}

static uint32_t bits_of(float x) {
    uint32_t bits;
    memcpy(&bits, &x, sizeof bits);
    return bits;
}

static void fresh(void) {
    vpu_fed fed = vpu_reset(plane, VPU_PLANE_BYTES, depth, VPU_PIXELS, depth_f32, VPU_PIXELS, command,
                            VPU_COMMAND_WORDS, textures, TEXTURE_WORDS, models, MODEL_WORDS);
    int i;
    answered(fed, VPU_DONE);
    memset(&wanted, 0, sizeof wanted);
    for (i = 0; i < VPU_MATRIX_FLOATS; i += i % 16 == 15 ? 1 : 5) wanted.matrices[i] = 1.0f;
    now = fed.state;
    same_state(now, wanted);
}

static void send_matrices(void) {
    uint32_t words[18];
    int i, j;
    for (i = 0; i < 3; i++) {
        words[0] = 0x02000011, words[1] = (uint32_t)i;
        for (j = 0; j < 16; j++) {
            wanted.matrices[16 * i + j] = (float)(1 + 16 * i + j);
            words[2 + j] = bits_of(wanted.matrices[16 * i + j]);
        }
        send(words, 18);
    }
}

static void send_modes(void) {
    const uint32_t shading[3] = {0x01000002, 0, 1}, lighting[3] = {0x01000002, 1, 1};
    wanted.shading_mode = 1;
    send(shading, 3);
    wanted.lighting_enabled = 1;
    send(lighting, 3);
}

static void send_lights(void) {
    uint32_t words[18];
    int i, j;
    for (i = 0; i < VPU_LIGHTS; i++) {
        words[0] = 0x15000011, words[1] = (uint32_t)i, words[2] = wanted.lights[i].enabled = i != 3;
        for (j = 0; j < 15; j++) {
            terms(&wanted.lights[i], j / 3)[j % 3] = (float)(100 + 15 * i + j);
            words[3 + j] = bits_of((float)(100 + 15 * i + j));
        }
        send(words, 18);
    }
}

static vpu_slot slot_of(uint32_t number, uint32_t width, uint32_t height, uint32_t start) {
    vpu_slot slot = {1, 0, 0, 0, 0};
    slot.number = number, slot.width = width, slot.height = height, slot.start = start;
    return slot;
}

static void send_textures(void) {
    uint32_t words[16] = {0}, start = 0, i;
    for (i = 0; i < VPU_SLOTS; i++) {
        uint32_t width = 1 + i % 5, height = 1 + i % 3, texels = (width * height + 1) / 2;
        words[0] = 0x17000000 + 3 + texels, words[1] = 0x80000000 + 7 * i, words[2] = width,
        words[3] = height;
        wanted.textures[i] = slot_of(words[1], width, height, start);
        send(words, 4 + texels);
        start += texels;
    }
}

static void send_models(void) {
    uint32_t words[3 + 3 * 28] = {0}, start = 0, i;
    for (i = 0; i < VPU_SLOTS; i++) {
        uint32_t count = 1 + i % 3;
        words[0] = 0x1a000000 + 2 + 28 * count, words[1] = 500 + i, words[2] = count;
        wanted.models[i] = slot_of(words[1], count, 0, start);
        send(words, 3 + 28 * count);
        start += 28 * count;
    }
}

static void send_begun(void) {
    const uint32_t first[3] = {0x17000005, 9, 1}, rest[3] = {0, 0, 0}, zero[1] = {5},
                   new_number[5] = {0x17000004, 1, 1, 1, 0};
    wanted.opcode = 0x17, wanted.gathered = 2, wanted.wanted = 3;
    send(first, 3);
    wanted.opcode = wanted.gathered = wanted.wanted = 0;
    wanted.status = VPU_STATUS_REFUSED;
    send(rest, 3);
    wanted.status |= VPU_STATUS_ZERO_OPCODE;
    send(zero, 1);
    wanted.status |= VPU_STATUS_NO_ROOM;
    send(new_number, 5);
}

/* ---- there and back ---- */

static void returned(vpu_state given, size_t plane_bytes, uint32_t answer) {
    vpu_fed fed = feed(given, command, 0, plane_bytes);
    answered(fed, answer);
    same_state(fed.state, given);
}

/* A command is begun, the status is anything, and every switch but one is on. */
static vpu_state good(void) {
    vpu_state state = now;
    state.opcode = 0x17, state.gathered = 2, state.wanted = 3, state.status = 0xa5c3e1f7;
    return state;
}

static void there_and_back(void) {
    vpu_state wild = good();
    int i;
    returned(good(), VPU_PLANE_BYTES, VPU_DONE);
    returned(good(), VPU_PLANE_BYTES - 1, VPU_WRONG_LENGTH);
    wild.lighting_enabled = 255;
    for (i = 0; i < VPU_LIGHTS; i++) wild.lights[i].enabled = (uint8_t)(2 + i);
    for (i = 0; i < VPU_SLOTS; i++)
        wild.textures[i].held = (uint8_t)(10 + i), wild.models[i].held = (uint8_t)(100 + i);
    returned(wild, VPU_PLANE_BYTES - 1, VPU_WRONG_LENGTH);
    returned(wild, VPU_PLANE_BYTES, VPU_MALFORMED);
}

/* ---- inward ---- */

static void spoiled(vpu_state state) {
    returned(state, VPU_PLANE_BYTES, VPU_MALFORMED);
    refused++;
}

static void spoil_float(size_t offset) {
    vpu_state state = good();
    float infinite = INFINITY;
    memcpy((char *)&state + offset, &infinite, sizeof infinite);
    spoiled(state);
}

static void spoil_byte(size_t offset) {
    vpu_state state = good();
    ((unsigned char *)&state)[offset] = 2;
    spoiled(state);
}

static void spoil_word(size_t offset, uint32_t value) {
    vpu_state state = good();
    memcpy((char *)&state + offset, &value, sizeof value);
    spoiled(state);
}

static void spoil_slots(size_t store, const vpu_slot *slots, uint32_t bad_height) {
    size_t i;
    for (i = 0; i < VPU_SLOTS; i++) {
        size_t slot = store + i * sizeof(vpu_slot);
        spoil_byte(slot + offsetof(vpu_slot, held));
        spoil_word(slot + offsetof(vpu_slot, number), slots[i ? 0 : 1].number);
        spoil_word(slot + offsetof(vpu_slot, width), 0);
        spoil_word(slot + offsetof(vpu_slot, height), bad_height);
        spoil_word(slot + offsetof(vpu_slot, start), slots[i].start + 1);
    }
}

static void spoil(void) {
    size_t i, j;
    for (i = 0; i < VPU_MATRIX_FLOATS; i++) spoil_float(offsetof(vpu_state, matrices) + i * sizeof(float));
    spoil_word(offsetof(vpu_state, shading_mode), 2);
    spoil_byte(offsetof(vpu_state, lighting_enabled));
    for (i = 0; i < VPU_LIGHTS; i++) {
        size_t light = offsetof(vpu_state, lights) + i * sizeof(vpu_light);
        spoil_byte(light + offsetof(vpu_light, enabled));
        for (j = 0; j < 15; j++) spoil_float(light + offsetof(vpu_light, ambient) + j * sizeof(float));
    }
    spoil_slots(offsetof(vpu_state, textures), now.textures, 0);
    spoil_slots(offsetof(vpu_state, models), now.models, 1);
    spoil_word(offsetof(vpu_state, opcode), 256);
    spoil_word(offsetof(vpu_state, gathered), VPU_COMMAND_WORDS - 2);
    spoil_word(offsetof(vpu_state, wanted), 0);
}

int main(void) {
    fresh();
    send_matrices();
    send_modes();
    send_lights();
    send_textures();
    send_models();
    send_begun();
    there_and_back();
    spoil();
    printf("layout: %u fields, %u states compared, %u spoiled states refused\n", fields, compared, refused);
    return 0;
}
