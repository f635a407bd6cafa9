/* Every binary32 pattern through the proved float leaves (archive of crate ieee_c) and through the
   machine's own operations. One line per function: name, patterns, differences, first differing pattern.
   With --only NAME: that function alone.
   With --time: nanoseconds per call of the root and of the cast to a byte, beside the machine's own.
   NaNs count as one value, and are recognised by their bits: a compiler may drop a test that only
   picks between two NaNs. */
#include <float.h>
#include <math.h>
#include <pthread.h>
#include <stdatomic.h>
#include <stdbool.h>
#include <stdint.h>
#include <stdio.h>
#include <string.h>
#include <time.h>

float ieee_sqrt(float);
int32_t ieee_floor_i32(float);
int32_t ieee_ceil_i32(float);
uint8_t ieee_byte(float);
uint8_t ieee_unit_byte(float);
uint32_t ieee_first(float);
uint32_t ieee_past(float);
size_t ieee_texel(float, uint32_t side);
bool ieee_is_finite(float);
float ieee_clamp01(float);
float ieee_max0(float);
bool ieee_tiny(float);
float ieee_float_of(uint32_t);
uint32_t ieee_bits_of(float);

enum { THREADS = 2, CHUNK = 1 << 20, CHUNKS = 1 << 12 };

static inline float float_of(uint32_t bits) {
  float x;
  memcpy(&x, &bits, sizeof x);
  return x;
}

static inline uint32_t canonical(uint32_t bits) {
  return (bits & 0x7fffffff) > 0x7f800000 ? 0x7fc00000 : bits;
}

static inline uint32_t bits_of(float x) {
  uint32_t bits;
  memcpy(&bits, &x, sizeof bits);
  return canonical(bits);
}

/* ---- The machine's own */

static inline int32_t saturated_i32(float whole) {
  if (whole >= 2147483648.0f) return INT32_MAX;
  if (whole < -2147483648.0f) return INT32_MIN;
  return whole == whole ? (int32_t)whole : 0;
}

static inline uint8_t saturated_u8(float x) {
  if (x >= 255.0f) return 255;
  return x > 0.0f ? (uint8_t)(int32_t)x : 0;
}

static inline float clamped(float x, float most) {
  return x < 0.0f ? 0.0f : x > most ? most : x;
}

/* The first pixel of a box from x on, and the first one past a box up to x: from 0 on. */
static inline uint32_t first(float x) {
  int32_t at = saturated_i32(floorf(x));
  return at > 0 ? (uint32_t)at : 0;
}

static inline uint32_t past(float x) {
  int64_t at = (int64_t)saturated_i32(ceilf(x)) + 1;
  return at > 0 ? (uint32_t)at : 0;
}

static inline size_t texel(float u, uint32_t side) {
  float at = clamped(floorf(u * (float)side), (float)(side - 1));
  return at == at ? (size_t)at : 0;
}

/* ---- The comparison */

struct tally {
  uint64_t seen, differ;
  uint32_t first;
};

#define COMPARE(NAME, LEAF, MACHINE)                                                       \
  static void compare_##NAME(uint32_t from, struct tally *t) {                             \
    for (uint32_t bits = from, left = CHUNK; left > 0; bits++, left--) {                   \
      float x = float_of(bits);                                                            \
      (void)x;                                                                             \
      if ((LEAF) != (MACHINE) && t->differ++ == 0) t->first = bits;                        \
    }                                                                                      \
    t->seen += CHUNK;                                                                      \
  }

COMPARE(float_of, bits_of(ieee_float_of(bits)), canonical(bits))
COMPARE(bits_of, ieee_bits_of(x), canonical(bits))
COMPARE(is_finite, ieee_is_finite(x), (bool)isfinite(x))
COMPARE(clamp01, bits_of(ieee_clamp01(x)), bits_of(clamped(x, 1.0f)))
COMPARE(max0, bits_of(ieee_max0(x)), bits_of(x > 0.0f ? x : 0.0f))
COMPARE(tiny, ieee_tiny(x), fabsf(x) <= FLT_EPSILON)
COMPARE(floor_i32, ieee_floor_i32(x), saturated_i32(floorf(x)))
COMPARE(ceil_i32, ieee_ceil_i32(x), saturated_i32(ceilf(x)))
COMPARE(byte, ieee_byte(x), saturated_u8(x))
COMPARE(unit_byte, ieee_unit_byte(x), saturated_u8(x * 255.0f + 0.5f))
COMPARE(first, ieee_first(x), first(x))
COMPARE(past, ieee_past(x), past(x))
COMPARE(sqrt, bits_of(ieee_sqrt(x)), bits_of(sqrtf(x)))

#define TEXEL(SIDE) COMPARE(texel##SIDE, ieee_texel(x, SIDE), texel(x, SIDE))
TEXEL(1) TEXEL(2) TEXEL(3) TEXEL(7) TEXEL(8)
TEXEL(255) TEXEL(256) TEXEL(1000) TEXEL(1023) TEXEL(1024)

struct leaf {
  const char *name;
  void (*compare)(uint32_t from, struct tally *);
};

#define LEAF(NAME) {#NAME, compare_##NAME}
static const struct leaf LEAVES[] = {
    LEAF(float_of), LEAF(bits_of), LEAF(is_finite), LEAF(clamp01), LEAF(max0),
    LEAF(tiny), LEAF(floor_i32), LEAF(ceil_i32), LEAF(byte), LEAF(unit_byte),
    LEAF(first), LEAF(past), LEAF(sqrt),
    LEAF(texel1), LEAF(texel2), LEAF(texel3), LEAF(texel7), LEAF(texel8),
    LEAF(texel255), LEAF(texel256), LEAF(texel1000), LEAF(texel1023), LEAF(texel1024),
};
enum { COUNT = sizeof LEAVES / sizeof *LEAVES };

struct share {
  const struct leaf *leaf;
  atomic_uint *next;
  struct tally tally;
};

/* Chunks are taken in rising order, so a thread's first difference is its least. */
static void *work(void *argument) {
  struct share *s = argument;
  unsigned chunk;
  while ((chunk = atomic_fetch_add(s->next, 1)) < CHUNKS) s->leaf->compare(chunk * (uint32_t)CHUNK, &s->tally);
  return NULL;
}

static struct tally whole(const struct leaf *leaf) {
  atomic_uint next = 0;
  pthread_t threads[THREADS];
  struct share shares[THREADS];
  for (int i = 0; i < THREADS; i++) {
    shares[i] = (struct share){leaf, &next, {0, 0, UINT32_MAX}};
    pthread_create(&threads[i], NULL, work, &shares[i]);
  }
  struct tally t = {0, 0, UINT32_MAX};
  for (int i = 0; i < THREADS; i++) {
    pthread_join(threads[i], NULL);
    t.seen += shares[i].tally.seen;
    t.differ += shares[i].tally.differ;
    if (shares[i].tally.differ > 0 && shares[i].tally.first < t.first) t.first = shares[i].tally.first;
  }
  return t;
}

/* All leaves, or the one with that name. */
static int compare_all(const char *only) {
  bool wrong = false, any = false;
  for (int i = 0; i < COUNT; i++) {
    if (only && strcmp(only, LEAVES[i].name) != 0) continue;
    any = true;
    struct tally t = whole(&LEAVES[i]);
    printf("%s %llu %llu ", LEAVES[i].name, (unsigned long long)t.seen, (unsigned long long)t.differ);
    if (t.differ > 0) printf("%08x\n", (unsigned)t.first);
    else printf("-\n");
    fflush(stdout);
    wrong |= t.differ > 0;
  }
  if (!any) fprintf(stderr, "exhaustive: no function %s\n", only);
  return wrong || !any;
}

/* ---- The times

   A chain, too, goes through the whole list: on a short cycle of values every branch would be predicted,
   and a branch that is predicted cuts a chain. */

enum { VALUES = 1 << 12, TURNS = 1 << 12, CALLS = VALUES * TURNS };

static float values[VALUES];

__attribute__((noinline)) static float machine_sqrt(float x) { return sqrtf(x); }
__attribute__((noinline)) static uint8_t machine_byte(float x) { return saturated_u8(x); }

/* Values from 2^-9 to 2^9, from a small generator. */
static void fill_values(void) {
  uint64_t s = 1;
  for (int i = 0; i < VALUES; i++) {
    s = s * 6364136223846793005u + 1442695040888963407u;
    values[i] = float_of(0x3b000000 + (uint32_t)(s >> 32) % 0x09000000);
  }
}

static double now(void) {
  struct timespec t;
  clock_gettime(CLOCK_MONOTONIC, &t);
  return (double)t.tv_sec * 1e9 + (double)t.tv_nsec;
}

static double chain_sqrt(float (*volatile f)(float)) {
  float (*g)(float) = f;
  volatile float sink;
  float x = 2.0f;
  double start = now();
  for (int i = 0; i < CALLS; i++) x = g(x + values[i % VALUES]);
  sink = x;
  (void)sink;
  return (now() - start) / CALLS;
}

static double loop_sqrt(float (*volatile f)(float)) {
  float (*g)(float) = f;
  volatile uint32_t sink;
  uint32_t mixed = 0;
  double start = now();
  for (int i = 0; i < CALLS; i++) mixed ^= bits_of(g(values[i % VALUES]));
  sink = mixed;
  (void)sink;
  return (now() - start) / CALLS;
}

static double chain_byte(uint8_t (*volatile f)(float)) {
  uint8_t (*g)(float) = f;
  volatile uint8_t sink;
  uint8_t at = 0;
  double start = now();
  for (int i = 0; i < CALLS; i++) at = g(values[(at + i) % VALUES]);
  sink = at;
  (void)sink;
  return (now() - start) / CALLS;
}

static double loop_byte(uint8_t (*volatile f)(float)) {
  uint8_t (*g)(float) = f;
  volatile uint8_t sink;
  uint8_t mixed = 0;
  double start = now();
  for (int i = 0; i < CALLS; i++) mixed ^= g(values[i % VALUES]);
  sink = mixed;
  (void)sink;
  return (now() - start) / CALLS;
}

static int print_times(void) {
  fill_values();
  printf("nanoseconds per call, leaf and machine\n");
  printf("sqrt, each on the last answer   %6.2f %6.2f\n", chain_sqrt(ieee_sqrt), chain_sqrt(machine_sqrt));
  printf("sqrt, each on a value of a list %6.2f %6.2f\n", loop_sqrt(ieee_sqrt), loop_sqrt(machine_sqrt));
  printf("byte, each on the last answer   %6.2f %6.2f\n", chain_byte(ieee_byte), chain_byte(machine_byte));
  printf("byte, each on a value of a list %6.2f %6.2f\n", loop_byte(ieee_byte), loop_byte(machine_byte));
  return 0;
}

int main(int count, char **arguments) {
  if (count == 1) return compare_all(NULL);
  if (count == 2 && strcmp(arguments[1], "--time") == 0) return print_times();
  if (count == 3 && strcmp(arguments[1], "--only") == 0) return compare_all(arguments[2]);
  fprintf(stderr, "exhaustive: nothing, --only NAME or --time\n");
  return 1;
}
