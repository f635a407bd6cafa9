/*
 * How much stack a call takes. A thread whose stack was filled with a mark feeds streams of words; then the
 * deepest byte that changed is looked for. `stack FILE` reads streams as crates/replay/data has them: a name of
 * 24 bytes, a count, and that many words, which are calls, each a count and its words.
 */
#define _GNU_SOURCE
#include <pthread.h>
#include <stdint.h>
#include <stdio.h>
#include <stdlib.h>
#include <string.h>

#include "vpu.h"

enum { STACK = 1 << 20, MARK = 0xa5, STORE = 400000 };

static uint8_t plane[VPU_PLANE_BYTES];
static int32_t depth[VPU_PIXELS];
static float depth_f32[VPU_PIXELS];
static uint32_t command[VPU_COMMAND_WORDS], textures[STORE], models[STORE];
static uint32_t *words; /* all of the file */
static size_t count;
static uintptr_t top; /* where the calls begin */

static void feed_all(const uint32_t *stream, size_t n) {
    vpu_fed fed = vpu_reset(plane, VPU_PLANE_BYTES, depth, VPU_PIXELS, depth_f32, VPU_PIXELS, command,
                            VPU_COMMAND_WORDS, textures, STORE, models, STORE);
    for (size_t at = 0; at < n; at += 1 + stream[at])
        fed = vpu_feed(fed.state, stream + at + 1, stream[at], plane, VPU_PLANE_BYTES, depth, VPU_PIXELS, depth_f32,
                       VPU_PIXELS, command, VPU_COMMAND_WORDS, textures, STORE, models, STORE);
}

static void *run(void *none) {
    top = (uintptr_t)__builtin_frame_address(0);
    for (size_t at = 0; at + 7 <= count; at += 7 + words[at + 6])
        feed_all(words + at + 7, words[at + 6]);
    return none;
}

int main(int argc, char **argv) {
    FILE *file = argc == 2 ? fopen(argv[1], "rb") : NULL;
    if (!file) {
        fprintf(stderr, "usage: stack FILE\n");
        return 2;
    }
    fseek(file, 0, SEEK_END);
    count = (size_t)ftell(file) / 4;
    rewind(file);
    words = malloc(count * 4);
    uint8_t *stack = aligned_alloc(4096, STACK);
    if (!words || !stack || fread(words, 4, count, file) != count)
        return 2;
    memset(stack, MARK, STACK);
    pthread_attr_t attr;
    pthread_t thread;
    pthread_attr_init(&attr);
    if (pthread_attr_setstack(&attr, stack, STACK) || pthread_create(&thread, &attr, run, NULL))
        return 2;
    pthread_join(thread, NULL);
    uint8_t *deepest = stack;
    while (*deepest == MARK)
        deepest++;
    printf("stack: %zu bytes at most for a reset and a feed with their host's frame\n", (size_t)(top - (uintptr_t)deepest));
    return 0;
}
