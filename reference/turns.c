/* Two builds of the static library in turn: layout and rendering of each input, in buffers with room to spare. See reference/turns. */
#include <stdint.h>
#include <stdio.h>
#include <stdlib.h>
#include <string.h>
#include <time.h>
#include "../editor/include/rrufthim.h"

/* The functions of a side: its archive's symbols, with the side's name before them. Another shape than the header's isn't linked. */
#define OF(side, name) RRUFTHIM_JOIN(side##_rrufthim_##name##_s, RRUFTHIM_SHAPE)
#define SIDE(side) \
    void OF(side, check)(const uint8_t *, size_t, const uint8_t *, size_t, uint64_t *); \
    void OF(side, layout)(const uint8_t *, size_t, const uint8_t *, size_t, uint32_t *, size_t, const uint64_t *, const uint64_t *, uint64_t *); \
    void OF(side, render)(const uint8_t *, size_t, const uint8_t *, size_t, uint32_t *, size_t, uint8_t *, size_t, uint8_t *, size_t, \
                          const uint64_t *, const uint64_t *, uint64_t *);
SIDE(before)
SIDE(after)

enum { BEFORE, AFTER, SIDES, LAYOUT = 0, RENDERING, STEPS, ROUNDS = 60, STORE = 9 * 2200000, MARKS = 1 << 20, OUTPUT = 64 << 20, SHORT = 50000 };

struct file {
    uint64_t source_len, image_len, declarations, rows;
    uint8_t *source, *image;
};

static uint32_t *store;
static uint8_t *marks, *output;
static uint64_t out[RRUFTHIM_RENDER_OUT]; /* the largest of all */
static const uint64_t fresh[RRUFTHIM_RENDER_STATE];
static uint64_t rules[SIDES] = {RRUFTHIM_WIDTHS_SUPPLIED, RRUFTHIM_WIDTHS_SUPPLIED};

static double now(void) {
    struct timespec t;
    clock_gettime(CLOCK_MONOTONIC, &t);
    return t.tv_sec * 1e9 + t.tv_nsec;
}

static void accepted(void) {
    if (out[0] != 0) {
        fprintf(stderr, "refused %lu at %lu\n", (unsigned long)out[0], (unsigned long)out[1]);
        exit(1);
    }
}

static void lay(int side, const struct file *f) {
    uint64_t args[RRUFTHIM_LAYOUT_ARGS] = {f->declarations, 1, RRUFTHIM_AS_ROTO, rules[side]};
    (side == AFTER ? OF(after, layout) : OF(before, layout))(f->source, f->source_len, f->image, f->image_len, store, STORE, fresh, args, out);
    accepted();
}

static void render(int side, const struct file *f) {
    uint64_t args[RRUFTHIM_RENDER_ARGS] = {f->rows, RRUFTHIM_REFERENCE_WIDTH, rules[side], RRUFTHIM_ALL_ROWS};
    (side == AFTER ? OF(after, render) : OF(before, render))(f->source, f->source_len, f->image, f->image_len, store, STORE, marks, MARKS, output, OUTPUT,
                                                             fresh, args, out);
    accepted();
}

/* The time of one call; a short one is made several times. */
static double timed(int side, int step, const struct file *f) {
    int times = f->image_len < SHORT ? 10 : 1;
    double start = now();
    for (int k = 0; k < times; k++) {
        if (step == LAYOUT) lay(side, f);
        else render(side, f);
    }
    return (now() - start) / times;
}

/* The least time of each side over all rounds; which side begins changes from round to round. */
static void in_turn(int step, const struct file *f, double least[SIDES]) {
    least[BEFORE] = least[AFTER] = 1e18;
    for (int round = 0; round < ROUNDS; round++) {
        for (int k = 0; k < SIDES; k++) {
            int side = (round + k) % SIDES;
            double t = timed(side, step, f);
            if (t < least[side]) least[side] = t;
        }
    }
}

static void line(const char *name, int step, const struct file *files, uint64_t count) {
    double sum[SIDES] = {0, 0};
    for (uint64_t k = 0; k < count; k++) {
        double least[SIDES];
        lay(AFTER, &files[k]); /* By its rule: names are then as wide for both sides. */
        in_turn(step, &files[k], least);
        sum[BEFORE] += least[BEFORE];
        sum[AFTER] += least[AFTER];
    }
    printf("%s\t%s\t%.3f\t%.3f\n", name, step == LAYOUT ? "layout" : "rendering", sum[BEFORE] / 1e3, sum[AFTER] / 1e3);
}

static uint64_t number(FILE *in) {
    uint64_t n;
    if (fread(&n, sizeof n, 1, in) != 1) exit(1);
    return n;
}

static uint8_t *bytes(FILE *in, uint64_t len) {
    uint8_t *b = malloc(len + 1);
    if (!b || fread(b, 1, len, in) != len) exit(1);
    return b;
}

static struct file file_of(FILE *in) {
    struct file f = {number(in), number(in), 0, 0, NULL, NULL};
    f.source = bytes(in, f.source_len);
    f.image = bytes(in, f.image_len);
    OF(after, check)(f.source, f.source_len, f.image, f.image_len, out);
    accepted();
    f.declarations = out[3];
    lay(AFTER, &f);
    f.rows = out[5];
    return f;
}

static void input(const char *path, const char *name) {
    FILE *in = fopen(path, "rb");
    if (!in) exit(1);
    uint64_t count = number(in);
    struct file *files = malloc(count * sizeof *files);
    if (!files) exit(1);
    for (uint64_t k = 0; k < count; k++) files[k] = file_of(in);
    fclose(in);
    for (int step = LAYOUT; step < STEPS; step++) line(name, step, files, count);
}

int main(int argc, char **argv) {
    char path[4096], name[256];
    FILE *names = argc == 4 ? fopen(argv[2], "r") : NULL;
    store = calloc(STORE, sizeof *store);
    marks = calloc(MARKS, 1);
    output = calloc(OUTPUT, 1);
    if (!names || !store || !marks || !output) return 2;
    rules[AFTER] = strtoul(argv[3], NULL, 10);
    for (int k = 0; fgets(name, sizeof name, names); k++) {
        name[strcspn(name, "\n")] = 0;
        snprintf(path, sizeof path, "%s/%d", argv[1], k);
        input(path, name);
    }
    return 0;
}
