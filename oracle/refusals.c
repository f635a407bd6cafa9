// What only a host with memory of its own can lend: stores of the greatest length and of one word more, a command area
// of one word more, and switches that are neither 0 nor 1. A call that is refused must answer the right number and leave
// the state and all memory as they were. Linked with the archive of the crate vpu_c; oracle/refusals builds it.
#include <stdio.h>

#include "lent.h"

typedef vpu_slot slot;
typedef vpu_state state;
typedef vpu_fed fed;

enum {
    PLANE = VPU_PLANE_BYTES,
    PIXELS = VPU_PIXELS,
    COMMAND = VPU_COMMAND_WORDS,
    MOST = VPU_STORE_WORDS_MOST,
    SMALL = 64
};

static struct {
    uint8_t plane[PLANE];
    int32_t depth[PIXELS];
    float depth_f32[PIXELS];
    uint32_t command[COMMAND + 1], textures[MOST + 1], models[MOST + 1];
} memory;

typedef struct {
    size_t plane, command, textures, models;
} lengths;

static const lengths GREATEST = {PLANE, COMMAND, MOST, MOST};

// A word that is dropped; then a clear, a texture and a model.
static const uint32_t WORDS[] = {0, 0x04000003, 3, 0x12345678, 0, 0x17000004, 900, 1, 1, 0xf0a51234, 0x1a00001e, 900,
                                 1, 1, 1, 1, 1, 1, 1, 1, 1, 1, 1, 1, 1, 1, 1, 1, 1, 1, 1, 1, 1, 1, 1, 1, 1, 1, 1, 1, 1};

static fed reset(lengths n) {
    return vpu_reset(memory.plane, n.plane, memory.depth, PIXELS, memory.depth_f32, PIXELS, memory.command, n.command,
                     memory.textures, n.textures, memory.models, n.models);
}

static fed feed(state s, lengths n) {
    return vpu_feed(s, WORDS, sizeof WORDS / sizeof *WORDS, memory.plane, n.plane, memory.depth, PIXELS,
                    memory.depth_f32, PIXELS, memory.command, n.command, memory.textures, n.textures,
                    memory.models, n.models);
}

// Marks in every memory, in the stores as far as `words`.
static void mark(size_t words) {
    memset(memory.plane, MARK, sizeof memory.plane);
    memset(memory.depth, MARK, sizeof memory.depth);
    memset(memory.depth_f32, MARK, sizeof memory.depth_f32);
    memset(memory.command, MARK, sizeof memory.command);
    memset(memory.textures, MARK, words * sizeof(uint32_t));
    memset(memory.models, MARK, words * sizeof(uint32_t));
}

static bool untouched(size_t words) {
    return marked(memory.plane, sizeof memory.plane) && marked(memory.depth, sizeof memory.depth) &&
           marked(memory.depth_f32, sizeof memory.depth_f32) && marked(memory.command, sizeof memory.command) &&
           marked(memory.textures, words * sizeof(uint32_t)) && marked(memory.models, words * sizeof(uint32_t));
}

static bool same_slots(const slot *a, const slot *b) {
    for (int i = 0; i < 64; i++) {
        if (a[i].held != b[i].held || memcmp(&a[i].number, &b[i].number, 4 * sizeof(uint32_t)) != 0) return false;
    }
    return true;
}

static bool same(const state *a, const state *b) {
    return same_settings(a, b) && same_slots(a->textures, b->textures) && same_slots(a->models, b->models) &&
           a->opcode == b->opcode && a->gathered == b->gathered && a->wanted == b->wanted && a->status == b->status;
}

static int wrong = 0;

// Prints what was lent, the answer, whether anything changed, and whether that is what rules 1.5 and 1.6 say.
static void say(const char *what, uint32_t answer, bool changed, uint32_t expected) {
    bool right = answer == expected && changed == (expected == 0);
    printf("%s: %u, %s%s\n", what, (unsigned)answer, changed ? "changed" : "nothing changed", right ? "" : " WRONG");
    wrong += !right;
}

static void feeds(const char *what, state s, lengths n, uint32_t expected) {
    mark(MOST + 1);
    fed f = feed(s, n);
    say(what, f.answer, !untouched(MOST + 1) || !same(&f.state, &s), expected);
}

// A reset takes no state and returns the fresh one.
static void resets(const char *what, const state *fresh, lengths n, uint32_t expected) {
    mark(MOST + 1);
    fed f = reset(n);
    say(what, f.answer, !untouched(MOST + 1), expected);
    if (!same(&f.state, fresh)) {
        printf("%s: the state is not the fresh one WRONG\n", what);
        wrong++;
    }
}

// 32 textures of 1024 by 1024, back to back: 16,777,216 words.
static state full(state s) {
    for (uint32_t i = 0; i < 32; i++) s.textures[i] = (slot){1, i, 1024, 1024, i * 524288};
    return s;
}

static void stores(state fresh) {
    state bad = fresh, filled = full(fresh);
    bad.opcode = 256;
    lengths textures = GREATEST, models = GREATEST, shorter = GREATEST;
    textures.textures++;
    models.models++;
    shorter.textures--;
    resets("reset, stores of 16777216", &fresh, GREATEST, 0);
    resets("reset, textures 16777217", &fresh, textures, 1);
    resets("reset, models 16777217", &fresh, models, 1);
    feeds("feed, stores of 16777216", fresh, GREATEST, 0);
    feeds("feed, textures 16777217", fresh, textures, 1);
    feeds("feed, models 16777217", fresh, models, 1);
    feeds("feed, malformed, stores of 16777216", bad, GREATEST, 2);
    feeds("feed, malformed, textures 16777217", bad, textures, 1);
    feeds("feed, malformed, models 16777217", bad, models, 1);
    feeds("feed, 32 textures that fill 16777216", filled, GREATEST, 0);
    feeds("feed, 32 textures that fill 16777216, in 16777215", filled, shorter, 2);
}

// One word too few is tried by a program under the gate; one too many does not fit it.
static void command_area(state fresh) {
    state bad = fresh;
    bad.opcode = 256;
    lengths longer = GREATEST;
    longer.command++;
    resets("reset, command area 524292", &fresh, longer, 1);
    feeds("feed, command area 524292", fresh, longer, 1);
    feeds("feed, malformed, command area 524292", bad, longer, 1);
}

// Each switch by its number: lighting, eight lights, 64 textures, 64 models.
enum { SWITCHES = 1 + 8 + 64 + 64 };

static uint8_t *switch_at(state *s, int k) {
    if (k == 0) return &s->lighting_enabled;
    if (k < 9) return &s->lights[k - 1].enabled;
    if (k < 73) return &s->textures[k - 9].held;
    return &s->models[k - 73].held;
}

// How many of the switches, each alone at `value`, answer `expected` and change nothing.
static int refused(state fresh, uint8_t value, lengths n, uint32_t expected) {
    int count = 0;
    for (int k = 0; k < SWITCHES; k++) {
        state s = fresh;
        *switch_at(&s, k) = value;
        mark(SMALL);
        fed f = feed(s, n);
        count += f.answer == expected && untouched(SMALL) && same(&f.state, &s);
    }
    return count;
}

static void switches(state fresh, uint8_t value) {
    lengths right = {PLANE, COMMAND, SMALL, SMALL}, off = {PLANE - 1, COMMAND, SMALL, SMALL};
    int malformed = refused(fresh, value, right, 2), lent = refused(fresh, value, off, 1);
    printf("switches at %d: %d of %d answer 2, nothing changed\n", value, malformed, SWITCHES);
    printf("switches at %d, plane 307199: %d of %d answer 1, nothing changed\n", value, lent, SWITCHES);
    wrong += (malformed != SWITCHES) + (lent != SWITCHES);
}

// The limit: every switch is 1, so every slot is held and filled.
static void switched_on(state s) {
    s.lighting_enabled = 1;
    for (int i = 0; i < 8; i++) s.lights[i].enabled = 1;
    for (uint32_t i = 0; i < 64; i++) {
        s.textures[i] = (slot){1, i, 1, 1, i};
        s.models[i] = (slot){1, i, 1, 0, 28 * i};
    }
    feeds("feed, every switch at 1", s, GREATEST, 0);
}

int main(void) {
    state fresh = reset(GREATEST).state;
    stores(fresh);
    command_area(fresh);
    switches(fresh, 2);
    switches(fresh, 255);
    switched_on(fresh);
    printf("%d wrong\n", wrong);
    return wrong != 0;
}
