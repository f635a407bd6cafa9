// Whether an upload has room, at the limit and one word beyond it, and which words it moves, for both kinds: rules 8.4 to 8.8 on
// the compiled calls, beside a plain list of what is held. After every upload the status, the slots and all memory have to be as
// the list says. The store's pages from the old upload on, and no others, have to be written in one pass.
// Linked with the archive of the crate vpu_c; oracle/room builds it.
#define _GNU_SOURCE
#include <stdio.h>

#include "lent.h"
#include "pages.h"

enum { MOST = VPU_STORE_WORDS_MOST, COMMAND = VPU_COMMAND_WORDS, HELD = VPU_SLOTS };

static struct {
    uint8_t plane[VPU_PLANE_BYTES];
    int32_t depth[VPU_PIXELS];
    float depth_f32[VPU_PIXELS];
    uint32_t command[COMMAND];
} memory;

static const size_t STORE_BYTES = MOST * sizeof(uint32_t);
static uint32_t *stores[2];

enum { TEXTURE, MODEL };

static const char *const NAMES[] = {"textures", "models"};

// What a size counts: words of a texture, triangles of a model.
static const size_t UNITS[] = {1, 28};

typedef struct {
    uint32_t number, width, height, seed;
    size_t words;
} upload;

// What has to be held, the last accepted one last, and the store's words.
static struct {
    int kind;
    size_t room, count, total;
    upload held[HELD];
    uint32_t words[MOST];
} list;

static vpu_state state;
static uint32_t seed, words[1 + COMMAND];
static int wrong, uploads, refused;
static size_t pages;

static uint32_t content(uint32_t from, size_t i) { return from * 2654435761u + (uint32_t)i; }

// A texture of two columns, or of 1024 by 1024.
static upload of(uint32_t number, size_t size) {
    upload u = {number, (uint32_t)size, 0, ++seed, size * UNITS[list.kind]};
    if (list.kind == TEXTURE) {
        u.width = size > 1024 ? 1024 : 2;
        u.height = (uint32_t)(2 * size / u.width);
    }
    return u;
}

// The old upload under the number goes, and the new one is the last. Its words are where they have to be; up to the old end
// there are zeros, and the words beyond stay.
static void keep(upload u) {
    size_t count = 0, at = 0, old = list.total;
    for (size_t i = 0; i < list.count; i++) {
        if (list.held[i].number != u.number) list.held[count++] = list.held[i];
    }
    list.held[count++] = u;
    list.count = count;
    for (size_t k = 0; k < count; k++) {
        for (size_t i = 0; i < list.held[k].words; i++) list.words[at++] = content(list.held[k].seed, i);
    }
    list.total = at;
    while (at < old) list.words[at++] = 0;
}

static bool slots_right(const vpu_slot *slots) {
    uint32_t start = 0;
    for (size_t i = 0; i < HELD; i++) {
        upload none = {0, 0, 0, 0, 0}, u = i < list.count ? list.held[i] : none;
        uint32_t at = i < list.count ? start : 0;
        if (slots[i].held != (i < list.count) || slots[i].number != u.number || slots[i].width != u.width ||
            slots[i].height != u.height || slots[i].start != at)
            return false;
        start += (uint32_t)u.words;
    }
    return true;
}

static bool slots_unused(const vpu_slot *slots) {
    for (size_t i = 0; i < HELD; i++) {
        if (slots[i].held || slots[i].number || slots[i].width || slots[i].height || slots[i].start) return false;
    }
    return true;
}

// All but the store of this kind is as it was, but for the payload in the command area.
static bool rest_right(const vpu_state *s, size_t payload) {
    const vpu_slot *slots[] = {s->textures, s->models};
    return s->opcode == 0 && s->gathered == 0 && s->wanted == 0 && same_settings(s, &state) && slots_unused(slots[1 - list.kind]) &&
           marked(memory.plane, sizeof memory.plane) && marked(memory.depth, sizeof memory.depth) &&
           marked(memory.depth_f32, sizeof memory.depth_f32) &&
           memcmp(memory.command, words + 1, payload * sizeof *words) == 0 &&
           marked(memory.command + payload, (COMMAND - payload) * sizeof *words) &&
           marked(stores[1 - list.kind], STORE_BYTES);
}

// The words of the command; returns how many are its payload.
static size_t command_of(upload u) {
    size_t payload = list.kind == TEXTURE ? 3 : 2;
    words[1] = u.number;
    words[2] = u.width;
    words[3] = u.height;
    for (size_t i = 0; i < u.words; i++) words[1 + payload++] = content(u.seed, i);
    words[0] = (list.kind == TEXTURE ? 0x17000000u : 0x1a000000u) | (uint32_t)payload;
    return payload;
}

// The other store is as long as it may be.
static size_t lent(int kind) { return kind == list.kind ? list.room : MOST; }

static vpu_fed feed(size_t count) {
    return vpu_feed(state, words, count, memory.plane, VPU_PLANE_BYTES, memory.depth, VPU_PIXELS, memory.depth_f32,
                    VPU_PIXELS, memory.command, COMMAND, stores[TEXTURE], lent(TEXTURE), stores[MODEL], lent(MODEL));
}

// Where the upload under the number begins, or where a new one would.
static size_t begins(uint32_t number) {
    size_t at = 0;
    for (size_t i = 0; i < list.count && list.held[i].number != number; i++) at += list.held[i].words;
    return at;
}

// One upload, which has to be taken or to have no room.
static void sends(uint32_t number, size_t size, bool taken) {
    upload u = of(number, size);
    size_t payload = command_of(u), first = begins(number), old = list.total;
    memset(memory.command, MARK, sizeof memory.command);
    state.status = 0;
    watch_begin(stores[list.kind], STORE_BYTES);
    vpu_fed fed = feed(1 + payload);
    watch_end();
    if (taken) keep(u);
    size_t end = !taken ? first : old > list.total ? old : list.total;
    const vpu_slot *slots[] = {fed.state.textures, fed.state.models};
    bool right = fed.answer == 0 && fed.state.status == (taken ? 0u : VPU_STATUS_NO_ROOM) && rest_right(&fed.state, payload) &&
                 slots_right(slots[list.kind]) && memcmp(stores[list.kind], list.words, sizeof list.words) == 0 &&
                 one_pass(first, end);
    if (!right) printf("%s, store of %zu: number %u of %zu words WRONG\n", NAMES[list.kind], list.room, (unsigned)number, u.words);
    wrong += !right;
    uploads++;
    refused += !taken;
    pages += watch.count;
    state = fed.state;
}

// A reset store of so many words; then every memory is marked.
static void begin(int kind, size_t room) {
    list.kind = kind;
    list.room = room;
    list.count = list.total = 0;
    vpu_fed fed = vpu_reset(memory.plane, VPU_PLANE_BYTES, memory.depth, VPU_PIXELS, memory.depth_f32, VPU_PIXELS, memory.command,
                            COMMAND, stores[TEXTURE], lent(TEXTURE), stores[MODEL], lent(MODEL));
    wrong += fed.answer != 0;
    state = fed.state;
    memset(&memory, MARK, sizeof memory);
    for (int each = TEXTURE; each <= MODEL; each++) memset(stores[each], MARK, STORE_BYTES);
    memset(list.words, MARK, sizeof list.words);
}

static void end(const char *what) {
    printf("%s, %s, store of %zu: %d uploads, %d without room, %zu pages written\n", NAMES[list.kind], what, list.room, uploads,
           refused, pages);
    uploads = refused = 0;
    pages = 0;
}

// Ten sizes fit, and the spare words are too few for one more.
static void limits(int kind, size_t spare) {
    begin(kind, 10 * UNITS[kind] + spare);
    sends(1, 4, true);
    sends(2, 3, true);
    sends(3, 4, false);
    sends(3, 3, true);
    sends(4, 1, false);
    sends(1, 4, true);
    sends(1, 5, false);
    sends(2, 3, true);
    sends(3, 3, true);
    sends(2, 1, true);
    sends(1, 7, false);
    sends(1, 6, true);
    sends(0x80000001u, 1, false);
    sends(1, 1, true);
    sends(3, 9, false);
    sends(3, 8, true);
    sends(2, 2, false);
    sends(1, 1, true);
    end("at the limit");
}

// One word less than ten sizes.
static void lacking(int kind) {
    begin(kind, 10 * UNITS[kind] - 1);
    sends(7, 10, false);
    sends(7, 9, true);
    sends(8, 1, false);
    sends(7, 10, false);
    sends(7, 8, true);
    sends(8, 1, true);
    sends(8, 2, false);
    sends(7, 1, true);
    sends(8, 9, false);
    sends(8, 8, true);
    end("one word lacking");
}

static void all_slots(int kind) {
    begin(kind, 70 * UNITS[kind]);
    for (uint32_t n = 0; n < HELD; n++) sends(1000 + n, 1, true);
    sends(5, 1, false);
    sends(1005, 8, false);
    sends(1005, 7, true);
    sends(5, 1, false);
    sends(1006, 2, false);
    sends(1006, 1, true);
    sends(1005, 1, true);
    sends(5, 1, false);
    sends(1063, 7, true);
    end("64 held");
}

// 32 of the largest, and what is left.
static void greatest(int kind, size_t room, size_t largest, size_t left) {
    begin(kind, room);
    for (uint32_t n = 0; n < 32; n++) sends(n, largest, true);
    if (left > 0) sends(32, left, true);
    sends(33, 1, false);
    sends(0, largest, true);
    sends(31, largest, true);
    if (left > 0) sends(32, left + 1, false);
    sends(3, 1, true);
    sends(40, largest, false);
    sends(3, largest, true);
    sends(40, 1, false);
    end("the largest");
}

// Each of 64 sent again, all of several pages: first always the oldest; then from anywhere, every other one smaller; then the last.
static void again(int kind, size_t size, size_t less) {
    begin(kind, HELD * size * UNITS[kind]);
    for (uint32_t n = 0; n < HELD; n++) sends(n, size, true);
    for (uint32_t n = 0; n < HELD; n++) sends(n, size, true);
    for (uint32_t n = 0; n < HELD; n++) sends(n * 23 % HELD, size - n % 2 * less, true);
    sends(41, size, true);
    sends(41, size / 2, true);
    end("sent again");
}

int main(void) {
    for (int kind = TEXTURE; kind <= MODEL; kind++) {
        stores[kind] = mmap(NULL, STORE_BYTES, PROT_READ | PROT_WRITE, MAP_PRIVATE | MAP_ANONYMOUS, -1, 0);
        if (stores[kind] == MAP_FAILED) abort();
    }
    if (!watch_tells(stores[TEXTURE], STORE_BYTES)) {
        printf("the watch over a store's pages is WRONG\n");
        wrong++;
    }
    for (int kind = TEXTURE; kind <= MODEL; kind++) {
        limits(kind, 0);
        if (kind == MODEL) limits(kind, 27);
        lacking(kind);
        all_slots(kind);
    }
    again(TEXTURE, 3072, 512);
    again(MODEL, 110, 1);
    greatest(TEXTURE, MOST, 524288, 0);
    greatest(MODEL, MOST, 18724, 18);
    greatest(MODEL, MOST - 8, 18724, 18);
    printf("%d wrong\n", wrong);
    return wrong != 0;
}
