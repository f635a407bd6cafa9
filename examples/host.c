/*
 * A host in C: draws a badge, a portrait and a stat plate, and writes the plane as a PAM picture with alpha,
 * as a keyer wants it.
 *   host PICTURE [WORDS]
 * WORDS gets the words that were sent, call after call, each a count and then that many words.
 * examples/host.rs draws the same scene with the same words. Compiles as C99 and as C++.
 */
#include <stdio.h>
#include <stdlib.h>
#include <string.h>

#include "vpu.h"

/* ---- words ---- */

typedef struct {
    uint32_t *words;
    size_t count;
    size_t room;
} stream;

static void put(stream *s, uint32_t word) {
    if (s->count == s->room) {
        s->room = s->room ? 2 * s->room : 1024;
        s->words = (uint32_t *)realloc(s->words, s->room * sizeof(uint32_t));
        if (!s->words) {
            fputs("host: no memory\n", stderr);
            exit(1);
        }
    }
    s->words[s->count++] = word;
}

static void put_float(stream *s, float x) {
    uint32_t bits;
    memcpy(&bits, &x, sizeof bits);
    put(s, bits);
}

static void put_floats(stream *s, const float *x, size_t count) {
    size_t i;
    for (i = 0; i < count; i++) put_float(s, x[i]);
}

/* ---- commands: a header, then its payload ---- */

static void header(stream *s, uint32_t opcode, uint32_t count) { put(s, opcode << 24 | count); }

static void clear(stream *s, uint32_t rgba) {
    header(s, 0x04, 3);
    put(s, 3);
    put(s, rgba);
    put(s, 0);
}

static void lighting(stream *s, uint32_t on) {
    header(s, 0x01, 2);
    put(s, 1);
    put(s, on);
}

static void matrix(stream *s, uint32_t number, const float cells[16]) {
    header(s, 0x02, 17);
    put(s, number);
    put_floats(s, cells, 16);
}

static void light(stream *s, uint32_t number, const float terms[15]) {
    header(s, 0x15, 17);
    put(s, number);
    put(s, 1);
    put_floats(s, terms, 15);
}

/* One depth for all corners: a lower layer number is nearer. */
typedef struct {
    int layer;
    uint32_t rgb;
    uint32_t shade;
} ink;

static ink ink_of(int layer, uint32_t rgb, uint32_t shade) {
    ink i;
    i.layer = layer;
    i.rgb = rgb;
    i.shade = shade;
    return i;
}

static void flat(stream *s, const int *a, const int *b, const int *c, ink with) {
    const int *corners[3];
    size_t i;
    corners[0] = a, corners[1] = b, corners[2] = c;
    header(s, 0x12, 11);
    for (i = 0; i < 3; i++) {
        put(s, (uint32_t)corners[i][0]);
        put(s, (uint32_t)corners[i][1]);
        put(s, (uint32_t)with.layer);
    }
    put(s, with.rgb);
    put(s, with.shade);
}

/* Texels are RGBA, four bits each; two to a word, the first in the high half. */
typedef uint32_t (*painter)(int x, int y);

static void texture(stream *s, uint32_t number, int width, int height, painter texel) {
    int i, count = width * height;
    header(s, 0x17, 3 + (uint32_t)(count + 1) / 2);
    put(s, number);
    put(s, (uint32_t)width);
    put(s, (uint32_t)height);
    for (i = 0; i < count; i += 2) {
        uint32_t second = i + 1 < count ? texel((i + 1) % width, (i + 1) / width) : 0;
        put(s, texel(i % width, i / width) << 16 | second);
    }
}

/* ---- flat shapes, in pixels ---- */

/* Four corners in order around the shape. */
static void quad(stream *s, const int corners[4][2], ink with) {
    flat(s, corners[0], corners[1], corners[2], with);
    flat(s, corners[0], corners[2], corners[3], with);
}

/* A box whose right side leans by so many pixels. */
static void box(stream *s, int left, int top, int right, int bottom, int lean, ink with) {
    int corners[4][2];
    corners[0][0] = left, corners[0][1] = top;
    corners[1][0] = right, corners[1][1] = top;
    corners[2][0] = right + lean, corners[2][1] = bottom;
    corners[3][0] = left, corners[3][1] = bottom;
    quad(s, (const int(*)[2])corners, with);
}

/* Seven segments on 7 by 12 pixels, from the top one clockwise; the last is the middle one. */
static void digit(stream *s, int x, int y, int value, ink with) {
    static const int lit[10] = {0x3f, 0x06, 0x5b, 0x4f, 0x66, 0x6d, 0x7d, 0x07, 0x7f, 0x6f};
    static const int at[7][4] = {{0, 0, 6, 1},  {5, 0, 6, 6}, {5, 5, 6, 11}, {0, 10, 6, 11},
                                 {0, 5, 1, 11}, {0, 0, 1, 6}, {0, 5, 6, 6}};
    int i;
    for (i = 0; i < 7; i++)
        if (lit[value] >> i & 1) box(s, x + at[i][0], y + at[i][1], x + at[i][2], y + at[i][3], 0, with);
}

static void number(stream *s, int x, int y, int value, ink with) {
    digit(s, x, y, value / 10, with);
    digit(s, x + 10, y, value % 10, with);
}

/* ---- the stat plate ---- */

static void bar(stream *s, int y, int value, uint32_t rgb) {
    int mark[3][2];
    mark[0][0] = 112, mark[0][1] = y;
    mark[1][0] = 112, mark[1][1] = y + 11;
    mark[2][0] = 120, mark[2][1] = y + 5;
    flat(s, mark[0], mark[1], mark[2], ink_of(30, rgb, 255));
    box(s, 128, y, 258, y + 11, 3, ink_of(40, 0x2a3a66, 255));
    box(s, 128, y, 128 + value * 130 / 100, y + 11, 3, ink_of(30, rgb, 255));
    box(s, 128, y + 8, 128 + value * 130 / 100, y + 11, 3, ink_of(20, rgb, 190));
    number(s, 274, y, value, ink_of(20, 0xf4f6ff, 255));
}

static void plate(stream *s) {
    int i;
    box(s, 104, 148, 300, 231, 12, ink_of(60, 0x101c3c, 255));
    box(s, 104, 148, 300, 151, 1, ink_of(50, 0xe0b040, 255));
    box(s, 104, 126, 190, 147, 10, ink_of(60, 0xb01c34, 255));
    number(s, 114, 131, 10, ink_of(50, 0xffffff, 255));
    for (i = 0; i < 4; i++)
        box(s, 144 + 11 * i, 133, 150 + 11 * i, 141, 3, ink_of(50, 0xe0b040, i < 3 ? 255 : 90));
    bar(s, 162, 87, 0x34c46c);
    bar(s, 184, 64, 0xf0a028);
    bar(s, 206, 91, 0x3c9cf4);
}

/* ---- the portrait ---- */

static int in_ellipse(int x, int y, int cx, int cy, int rx, int ry) {
    int dx = (x - cx) * ry, dy = (y - cy) * rx;
    return dx * dx + dy * dy < rx * rx * ry * ry;
}

static uint32_t face(int x, int y) {
    if (in_ellipse(x, y, 28, 45, 2, 2) || in_ellipse(x, y, 44, 45, 2, 2)) return 0x134f;
    if (x >= 24 && x <= 32 && y >= 39 && y <= 40) return 0x421f;
    if (x >= 40 && x <= 48 && y >= 39 && y <= 40) return 0x421f;
    if (in_ellipse(x, y, 36, 60, 6, 1)) return 0xa44f;
    if (x >= 35 && x <= 37 && y >= 46 && y <= 53) return 0xd96f;
    return x + y / 4 > 56 ? 0xd96f : 0xeb8f;
}

static uint32_t shirt(int x, int y) {
    int beside = x < 36 ? 36 - x : x - 36;
    if (beside + 66 < y && beside + 72 > y && y < 84) return 0xffff;
    return x / 6 % 2 ? 0xc24f : 0x813f;
}

static uint32_t portrait_texel(int x, int y) {
    if (y < 36 && in_ellipse(x, y, 36, 36, 20, 24)) return x % 5 ? 0x421f : 0x532f;
    if (in_ellipse(x, y, 36, 46, 17, 24)) return face(x, y);
    if (in_ellipse(x, y, 18, 47, 3, 5) || in_ellipse(x, y, 54, 47, 3, 5)) return 0xd96f;
    if (in_ellipse(x, y, 36, 104, 35, 36)) return y < 76 && x >= 30 && x <= 42 ? 0xc85f : shirt(x, y);
    if (x >= 29 && x <= 43 && y > 60 && y < 76) return 0xc85f;
    return 0x100f | (uint32_t)(2 + y / 20) << 8 | (uint32_t)(5 + y / 12) << 4;
}

/* A frame of four bars that meet at their corners, light from above. */
static void frame(stream *s, int left, int top, int right, int bottom, int wide) {
    const int out[4][2] = {{left, top}, {right, top}, {right, bottom}, {left, bottom}};
    const int in[4][2] = {{left + wide, top + wide},
                          {right - wide, top + wide},
                          {right - wide, bottom - wide},
                          {left + wide, bottom - wide}};
    static const uint32_t shades[4] = {255, 150, 120, 215};
    int side;
    for (side = 0; side < 4; side++) {
        int next = (side + 1) % 4, corners[4][2];
        memcpy(corners[0], out[side], sizeof corners[0]);
        memcpy(corners[1], out[next], sizeof corners[1]);
        memcpy(corners[2], in[next], sizeof corners[2]);
        memcpy(corners[3], in[side], sizeof corners[3]);
        quad(s, (const int(*)[2])corners, ink_of(50, 0xe0b040, shades[side]));
    }
}

/* A corner at a pixel's corner, for identity matrices. */
static void textured_corner(stream *s, float x, float y, float u, float v) {
    put_float(s, x / 160.0f - 1.0f);
    put_float(s, 1.0f - y / 120.0f);
    put_float(s, 0.5f);
    put_float(s, u);
    put_float(s, v);
    put(s, 0xffffffff);
}

static void picture(stream *s, uint32_t number_of_texture, float left, float top, float right, float bottom) {
    int half;
    for (half = 0; half < 2; half++) {
        header(s, 0x18, 20);
        put(s, number_of_texture);
        put(s, 0);
        textured_corner(s, left, top, 0.0f, 0.0f);
        textured_corner(s, right, half ? bottom : top, 1.0f, half ? 1.0f : 0.0f);
        textured_corner(s, half ? left : right, bottom, half ? 0.0f : 1.0f, 1.0f);
    }
}

static void portrait(stream *s) {
    texture(s, 3, 72, 96, portrait_texel);
    frame(s, 12, 124, 96, 232, 6);
    picture(s, 3, 18.0f, 130.0f, 90.0f, 226.0f);
}

/* ---- the badge: a shield with a raised rim, lit ---- */

/* Numbers that differ in their top bit are different textures. */
#define RIM   0x00000007u
#define FIELD 0x80000007u
#define BADGE 1u
#define SIDES 10

static uint32_t rim_texel(int x, int y) { return (x + y) % 4 < 2 ? 0xeb4f : 0xfc6f; }

static uint32_t field_texel(int x, int y) {
    if (in_ellipse(x, y, 16, 16, 5, 5)) return 0xd23f;
    if (in_ellipse(x, y, 16, 16, 7, 7)) return 0xffff;
    if (x - y > -5 && x - y < 5) return 0xffff;
    return x > y ? 0x25bf : 0x148f;
}

typedef struct {
    float x, y, z, normal_z;
} point;

static point point_of(const float at[2], float scale, float z, float normal_z) {
    point p;
    p.x = at[0] * scale, p.y = at[1] * scale, p.z = z, p.normal_z = normal_z;
    return p;
}

static void model_corner(stream *s, point p) {
    put_float(s, p.x);
    put_float(s, p.y);
    put_float(s, p.z);
    put_float(s, p.x);
    put_float(s, p.y);
    put_float(s, p.normal_z);
    put_float(s, 0.5f + 0.5f * p.x);
    put_float(s, 0.5f - 0.5f * p.y);
    put(s, 0xffffffff);
}

static void model_triangle(stream *s, uint32_t number_of_texture, point a, point b, point c) {
    put(s, number_of_texture);
    model_corner(s, a);
    model_corner(s, b);
    model_corner(s, c);
}

static void shield(stream *s) {
    static const float outline[SIDES][2] = {
        {0.0f, 0.875f}, {-0.5f, 1.0f},      {-0.875f, 0.8125f}, {-0.875f, 0.1875f}, {-0.625f, -0.4375f},
        {0.0f, -1.0f},  {0.625f, -0.4375f}, {0.875f, 0.1875f},  {0.875f, 0.8125f},  {0.5f, 1.0f}};
    static const float middle[2] = {0.0f, 0.0f};
    int i;
    header(s, 0x1a, 2 + 28 * 3 * SIDES);
    put(s, BADGE);
    put(s, 3 * SIDES);
    for (i = 0; i < SIDES; i++) {
        const float *here = outline[i], *next = outline[(i + 1) % SIDES];
        point low = point_of(here, 1.0f, 0.0f, 0.5f), next_low = point_of(next, 1.0f, 0.0f, 0.5f);
        point high = point_of(here, 0.8125f, 0.25f, 1.5f), next_high = point_of(next, 0.8125f, 0.25f, 1.5f);
        model_triangle(s, RIM, low, next_low, next_high);
        model_triangle(s, RIM, low, next_high, high);
        model_triangle(s, FIELD, high, next_high, point_of(middle, 1.0f, 0.375f, 1.0f));
    }
}

static void badge(stream *s) {
    /* turned about the upright axis; moved to its place; seen with a near plane at 2 and a far one at 4 */
    static const float model[16] = {0.576f, 0, 0.168f, 0, 0, 0.6f, 0, 0, -0.168f, 0, 0.576f, 0, 0, 0, 0, 1};
    static const float view[16] = {1, 0, 0, -1.25f, 0, 1, 0, 0.75f, 0, 0, 1, -3, 0, 0, 0, 1};
    static const float projection[16] = {1.5f, 0, 0, 0, 0, 2, 0, 0, 0, 0, -2, -4, 0, 0, -1, 0};
    /* ambient, diffuse, specular, emission, position */
    static const float lamp[15] = {0.25f, 0.25f, 0.3f, 0.75f, 0.75f, 0.7f, 0.5f, 0.5f,
                                   0.45f, 0,     0,    0,     -3,    3,    0};
    texture(s, RIM, 8, 8, rim_texel);
    texture(s, FIELD, 32, 32, field_texel);
    shield(s);
    matrix(s, 0, model);
    matrix(s, 1, view);
    matrix(s, 2, projection);
    light(s, 0, lamp);
    lighting(s, 1);
    header(s, 0x1b, 2);
    put(s, BADGE);
    put(s, 2);
}

/* ---- the machine: its state, and the memory that it is lent ---- */

#define TEXTURE_WORDS 8192
#define MODEL_WORDS   1024

static uint8_t plane[VPU_PLANE_BYTES];
static int32_t depth[VPU_PIXELS];
static float depth_f32[VPU_PIXELS];
static uint32_t command[VPU_COMMAND_WORDS];
static uint32_t textures[TEXTURE_WORDS];
static uint32_t models[MODEL_WORDS];
static vpu_state state;

/* The run goes on from the state that the call gave back. */
static uint32_t keep(vpu_fed fed) {
    state = fed.state;
    return fed.answer;
}

static uint32_t reset(void) {
    return keep(vpu_reset(plane, VPU_PLANE_BYTES, depth, VPU_PIXELS, depth_f32, VPU_PIXELS, command,
                          VPU_COMMAND_WORDS, textures, TEXTURE_WORDS, models, MODEL_WORDS));
}

static uint32_t feed(const stream *s) {
    return keep(vpu_feed(state, s->words, s->count, plane, VPU_PLANE_BYTES, depth, VPU_PIXELS, depth_f32,
                         VPU_PIXELS, command, VPU_COMMAND_WORDS, textures, TEXTURE_WORDS, models,
                         MODEL_WORDS));
}

/* ---- the program ---- */

static void send(void (*part)(stream *), stream *sent) {
    stream call = {NULL, 0, 0};
    uint32_t answer;
    size_t i;
    part(&call);
    answer = feed(&call);
    if (answer != VPU_DONE) {
        fprintf(stderr, "host: a feed is answered %u\n", (unsigned)answer);
        exit(1);
    }
    put(sent, (uint32_t)call.count);
    for (i = 0; i < call.count; i++) put(sent, call.words[i]);
    free(call.words);
}

static void empty(stream *s) { clear(s, 0x00000000); }

static int write_picture(const char *path) {
    FILE *file = fopen(path, "wb");
    int good;
    if (!file) return 0;
    fprintf(file, "P7\nWIDTH %d\nHEIGHT %d\nDEPTH 4\nMAXVAL 255\nTUPLTYPE RGB_ALPHA\nENDHDR\n", VPU_WIDTH,
            VPU_HEIGHT);
    good = fwrite(plane, 1, VPU_PLANE_BYTES, file) == VPU_PLANE_BYTES;
    return fclose(file) == 0 && good;
}

/* Little-endian. */
static int write_words(const char *path, const stream *s) {
    FILE *file = fopen(path, "wb");
    size_t i;
    int byte, good = 1;
    if (!file) return 0;
    for (i = 0; i < s->count; i++)
        for (byte = 0; byte < 4; byte++) good &= fputc((int)(s->words[i] >> 8 * byte & 255), file) != EOF;
    return fclose(file) == 0 && good;
}

int main(int argc, char **argv) {
    stream sent = {NULL, 0, 0};
    vpu_colour middle;
    if (argc < 2 || argc > 3) {
        fputs("usage: host PICTURE [WORDS]\n", stderr);
        return 1;
    }
    if (reset() != VPU_DONE) {
        fputs("host: the reset is refused\n", stderr);
        return 1;
    }
    send(empty, &sent);
    send(plate, &sent);
    send(portrait, &sent);
    send(badge, &sent);
    middle = vpu_pixel(plane, VPU_PLANE_BYTES, 60, 60);
    printf("status %08x\nwords %lu\npixel 60 60: %u %u %u %u\n", (unsigned)state.status,
           (unsigned long)sent.count, middle.r, middle.g, middle.b, middle.a);
    if (!write_picture(argv[1]) || (argc > 2 && !write_words(argv[2], &sent))) {
        fputs("host: a file cannot be written\n", stderr);
        return 1;
    }
    free(sent.words);
    return 0;
}
