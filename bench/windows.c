/* The windows and costs of a write of a whole 128Mb memory, by plain loops over two byte arrays: the yardstick for `plan`.
 *
 *     gcc -O3 -o /tmp/windows bench/windows.c && /tmp/windows
 *
 * Prints the cost, and the seconds of three parts: the windows and costs of all pages, kept and once erased, with the choice
 * by sectors and bulk; the steps and data of the plan chosen; and one copy of the memory, page by page, as a read is one. */
#include <stdint.h>
#include <stdio.h>
#include <stdlib.h>
#include <string.h>
#include <time.h>

enum { PAGE = 64, PAGES = 2048, SECTORS = 128, COUNT = SECTORS * PAGES, BYTES = COUNT * PAGE };

struct cost { size_t cycles, bytes; };
struct step { int kind; size_t address, length, place; };

static double now(void) {
    struct timespec t;
    clock_gettime(CLOCK_MONOTONIC, &t);
    return t.tv_sec + t.tv_nsec / 1e9;
}

/* Start and length of the shortest run, round the page's end if need be, that covers every change; length 0 for none. */
static size_t window(const uint8_t *old, const uint8_t *new, size_t *start) {
    size_t first = 0;
    while (first < PAGE && old[first] == new[first]) first++;
    if (first == PAGE) return 0;
    size_t last = first, begin = first, length = PAGE;
    for (size_t i = first + 1; i < PAGE; i++) {
        if (old[i] != new[i]) {
            size_t round = PAGE - (i - last) + 1;
            if (round < length) { begin = i; length = round; }
            last = i;
        }
    }
    size_t straight = last - first + 1;
    if (straight <= length) { *start = first; return straight; }
    *start = begin;
    return length;
}

static void add(struct cost *c, size_t length) {
    if (length) { c->cycles++; c->bytes += length; }
}

static int below(struct cost a, struct cost b) {
    return a.cycles < b.cycles || (a.cycles == b.cycles && a.bytes < b.bytes);
}

static uint8_t blank[PAGE];
static uint8_t erased[SECTORS];

static struct cost choose(const uint8_t *old, const uint8_t *new, int *bulk) {
    struct cost all = {1, 0}, sum = {0, 0};
    size_t start;
    for (size_t k = 0; k < SECTORS; k++) {
        struct cost keep = {0, 0}, erase = {1, 0};
        for (size_t q = k * PAGES; q < (k + 1) * PAGES; q++) {
            add(&keep, window(old + q * PAGE, new + q * PAGE, &start));
            size_t length = window(blank, new + q * PAGE, &start);
            add(&erase, length);
            add(&all, length);
        }
        erased[k] = below(erase, keep);
        if (erased[k]) keep = erase;
        sum.cycles += keep.cycles;
        sum.bytes += keep.bytes;
    }
    *bulk = below(all, sum);
    return *bulk ? all : sum;
}

/* 0 program, 1 alter, 2 preset, 3 sector erase, 4 bulk erase */
static size_t emit(const uint8_t *old, const uint8_t *new, int bulk, struct step *steps, uint8_t *data) {
    size_t n = 0, place = 0;
    if (bulk) steps[n++] = (struct step){4, 0, 0, 0};
    for (size_t q = 0; q < COUNT; q++) {
        const uint8_t *o = old + q * PAGE, *w = new + q * PAGE;
        int fresh = bulk || erased[q / PAGES], kind = 2;
        if (!bulk && erased[q / PAGES] && q % PAGES == 0) steps[n++] = (struct step){3, q * PAGE, 0, place};
        if (!fresh) {
            kind = 0;
            for (size_t i = 0; i < PAGE; i++) if ((o[i] & w[i]) != w[i]) { kind = 1; break; }
        }
        size_t start, length = window(fresh ? blank : o, w, &start);
        if (!length) continue;
        steps[n++] = (struct step){kind, q * PAGE + start, length, place};
        for (size_t i = 0; i < length; i++) data[place + i] = w[(start + i) % PAGE];
        place += length;
    }
    return n;
}

int main(void) {
    uint8_t *old = malloc(BYTES), *new = malloc(BYTES), *data = malloc(BYTES), *copy = malloc(PAGE);
    struct step *steps = malloc((COUNT + SECTORS) * sizeof *steps);
    if (!old || !new || !data || !steps || !copy) return 1;
    memset(old, 0x5A, BYTES);
    memset(new, 0xA5, BYTES);
    memset(data, 0, BYTES);
    memset(steps, 0, (COUNT + SECTORS) * sizeof *steps);
    memset(blank, 0xFF, PAGE);
    int bulk;
    double t0 = now();
    struct cost c = choose(old, new, &bulk);
    double t1 = now();
    size_t n = emit(old, new, bulk, steps, data);
    double t2 = now();
    unsigned sum = 0;
    for (size_t q = 0; q < COUNT; q++) {
        memcpy(copy, old + q * PAGE, PAGE);
        __asm__ volatile("" ::: "memory");
        sum += copy[q % PAGE];
    }
    double t3 = now();
    printf("%zu cycles, %zu bytes, %zu steps (%u)\n", c.cycles, c.bytes, n, sum % 256 + data[BYTES - 1]);
    printf("windows and costs %.3f s, steps and data %.3f s, one copy %.3f s\n", t1 - t0, t2 - t1, t3 - t2);
    return 0;
}
