/* The rows of crates/bench_regions for the regions of pixman, with operations per second: the same
   draws, the same rectangles, the same operations, and the same words in each row.

   An answer is written into one region again and again, as callers of pixman do: so pixman takes
   no memory for it after the first time. */
#include <pixman.h>
#include <stdint.h>
#include <stdio.h>
#include <time.h>

/* How long an operation is repeated, at least, in seconds. */
static const double SPAN_SECONDS = 0.2;

/* How often it is repeated between two looks at the clock. */
enum { ROUND = 64 };

typedef pixman_region32_t Region;
typedef pixman_box32_t Box;

enum workload { RANDOM, STAIRS, WORKLOADS };
static const char *const WORKLOAD_NAMES[] = {"random", "stairs"};

struct operation {
    const char *name;
    pixman_bool_t (*apply)(Region *, Region *, Region *);
};

/* pixman's declarations differ in which pointers are constant. */
static pixman_bool_t join(Region *out, Region *a, Region *b) { return pixman_region32_union(out, a, b); }
static pixman_bool_t meet(Region *out, Region *a, Region *b) { return pixman_region32_intersect(out, a, b); }
static pixman_bool_t minus(Region *out, Region *a, Region *b) { return pixman_region32_subtract(out, a, b); }

static const struct operation OPERATIONS[] = {{"union", join}, {"meet", meet}, {"minus", minus}};

/* The next number of the generator, below k. */
static uint32_t draw(uint32_t *state, uint32_t k) {
    *state = *state * 1664525u + 1013904223u;
    return (*state >> 16) % k;
}

/* The i-th rectangle of a workload, of at least one point. */
static Box rect(enum workload workload, uint32_t *state, uint32_t i, uint32_t shift) {
    uint32_t west = (7 * i + shift) % 900, north = i, wide = 50, high = 1;
    if (workload == RANDOM) {
        west = draw(state, 960);
        north = draw(state, 960);
        wide = 1 + draw(state, 64);
        high = 1 + draw(state, 64);
    }
    return (Box){west, north, west + wide, north + high};
}

/* The union of n rectangles, one after another. */
static void fill(Region *all, enum workload workload, uint32_t *state, uint32_t n, uint32_t shift) {
    pixman_region32_init(all);
    for (uint32_t i = 0; i < n; i++) {
        Box box = rect(workload, state, i, shift);
        pixman_region32_union_rect(all, all, box.x1, box.y1, box.x2 - box.x1, box.y2 - box.y1);
    }
}

static double now(void) {
    struct timespec time;
    clock_gettime(CLOCK_MONOTONIC, &time);
    return time.tv_sec + time.tv_nsec * 1e-9;
}

/* How often in a second the operation is done. */
static double speed(const struct operation *operation, Region *out, Region *a, Region *b) {
    double start = now(), passed;
    uint64_t done = 0;
    do {
        for (int i = 0; i < ROUND; i++)
            operation->apply(out, a, b);
        done += ROUND;
        passed = now() - start;
    } while (passed < SPAN_SECONDS);
    return done / passed;
}

/* Prints a row for each operation on the two regions of a workload. */
static void compare(enum workload workload, uint32_t n) {
    uint32_t state = 1;
    Region a, b, out;
    fill(&a, workload, &state, n, 0);
    fill(&b, workload, &state, n, 3);
    for (int i = 0; i < 3; i++) {
        pixman_region32_init(&out);
        double per_second = speed(&OPERATIONS[i], &out, &a, &b);
        printf("%s %s n=%u rects_a=%d rects_b=%d rects_out=%d ops_per_s=%.0f\n", OPERATIONS[i].name,
               WORKLOAD_NAMES[workload], n, pixman_region32_n_rects(&a),
               pixman_region32_n_rects(&b), pixman_region32_n_rects(&out), per_second);
        pixman_region32_fini(&out);
    }
    pixman_region32_fini(&a);
    pixman_region32_fini(&b);
}

int main(void) {
    for (enum workload workload = RANDOM; workload < WORKLOADS; workload++)
        for (uint32_t n = 1; n <= 1000; n *= 10)
            compare(workload, n);
    return 0;
}
