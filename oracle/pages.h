// Which pages of a store a call writes, and in which order. When a watch begins, every page is read-only. A page that is written is
// noted and opened; it and the one noted before it stay open, and all others are read-only again. So a second pass is noted too.
#include <signal.h>
#include <stdint.h>
#include <stdlib.h>
#include <sys/mman.h>
#include <unistd.h>

enum { NOTED_MOST = 1 << 16, TRIED = 10 };

static struct {
    char *from;
    size_t bytes, page, count, noted[NOTED_MOST];
} watch;

static void allow(size_t at, size_t bytes, int what) {
    if (mprotect(watch.from + at, bytes, what) != 0) abort();
}

// A fault that is not the watch's comes again, and ends the program.
static void on_write(int number, siginfo_t *info, void *context) {
    size_t at = (size_t)((char *)info->si_addr - watch.from);
    (void)context;
    if (at >= watch.bytes || watch.count == NOTED_MOST) {
        signal(number, SIG_DFL);
        return;
    }
    if (watch.count > 1) allow(watch.noted[watch.count - 2] * watch.page, watch.page, PROT_READ);
    watch.noted[watch.count++] = at / watch.page;
    allow(at / watch.page * watch.page, watch.page, PROT_READ | PROT_WRITE);
}

static void watch_begin(void *from, size_t bytes) {
    struct sigaction action = {0};
    action.sa_sigaction = on_write;
    action.sa_flags = SA_SIGINFO;
    watch.from = from;
    watch.bytes = bytes;
    watch.page = (size_t)sysconf(_SC_PAGESIZE);
    watch.count = 0;
    if (sigaction(SIGSEGV, &action, NULL) != 0) abort();
    allow(0, bytes, PROT_READ);
}

static void watch_end(void) { allow(0, watch.bytes, PROT_READ | PROT_WRITE); }

// The pages of these words, and no others, were written in one pass.
static bool one_pass(size_t first, size_t end) {
    size_t words = watch.page / sizeof(uint32_t), from = first / words, pages = first < end ? (end - 1) / words - from + 1 : 0;
    if (watch.count != pages) return false;
    for (size_t i = 0; i < pages; i++) {
        if (watch.noted[i] != from + i) return false;
    }
    return true;
}

// Writes a byte of each of the first pages, as often as told, from the first to the last or back.
static void watched_passes(void *from, size_t bytes, int times, bool back) {
    volatile char *at = from;
    watch_begin(from, bytes);
    for (int time = 0; time < times; time++) {
        for (size_t i = 0; i < TRIED; i++) at[watch.page * (back ? TRIED - 1 - i : i)] = 1;
    }
    watch_end();
}

// Whether the watch tells one pass from two, from one backwards, and from one that begins or ends at another page.
static bool watch_tells(void *from, size_t bytes) {
    watched_passes(from, bytes, 1, false);
    size_t words = watch.page / sizeof(uint32_t), end = TRIED * words;
    bool right = one_pass(0, end) && one_pass(words - 1, end - words + 1) && !one_pass(words, end) && !one_pass(0, end - words);
    watched_passes(from, bytes, 2, false);
    right = right && !one_pass(0, end);
    watched_passes(from, bytes, 1, true);
    return right && !one_pass(0, end);
}
