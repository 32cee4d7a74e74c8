// What all peers share: the jobs' tiles and bodies, the check of what they computed, and the line that they print.
//
//     PEER WORKERS cholesky N      the job of `ptg demo N`: tiles of 3 numbers
//     PEER WORKERS chain N E       N tasks one after another, which add 1 to a tile of E numbers
//     PEER WORKERS fan N [NANOS]   a task and N tasks after it, which read its tile and then compute for so long
//     PEER WORKERS gather N        N tasks and a task after them all
//     PEER WORKERS stencil N T     T steps of N x N x N tasks, each after itself and its six neighbours in the step before
//
// Tiles are 64 bytes apart at least, so that two of them never share a cache line.
#ifndef BENCH_WORK_H
#define BENCH_WORK_H

#include <stdint.h>
#include <stdio.h>
#include <stdlib.h>
#include <string.h>
#include <time.h>

typedef int64_t number;

static struct {
    // the first letter of the job's name, its numbers, and the workers
    char kind;
    long n, more, workers;
    // the numbers of a tile, how far tiles are apart in numbers, how many tiles and tasks there are, and what all tiles add up to at the end
    long elements, stride, tiles, tasks;
    number *data, wanted;
    double begun, ended;
} job;

static inline double now(void) {
    struct timespec time;
    clock_gettime(CLOCK_MONOTONIC, &time);
    return (double)time.tv_sec + (double)time.tv_nsec * 1e-9;
}

static inline number *tile(long at) { return job.data + at * job.stride; }
// The tile of a row and a column of Cholesky.
static inline number *place(long row, long column) { return tile(row * job.n + column); }
// The tile of a task of a fan or a gather, whose first or last task has the tile 0.
static inline number *own(long at) { return tile(1 + at); }
// The number of a cell of the stencil.
static inline long cell(long x, long y, long z) { return (x * job.n + y) * job.n + z; }

// How many tiles and tasks a job has, and what its tiles add up to at the end.
static inline int measure_job(void) {
    long n = job.n, more = job.more;
    job.elements = 1;
    switch (job.kind) {
    case 'c':
        job.tiles = 1, job.tasks = n, job.elements = more ? more : 1, job.wanted = n;
        return 1;
    case 'k':
        job.tiles = n * n, job.tasks = n * (n + 1) * (n + 2) / 6, job.elements = 3;
        job.wanted = (n + 3) * (n + 2) * (n + 1) * n / 24 + n * (n + 1) / 2;
        return 1;
    case 'f':
    case 'g':
        job.tiles = job.tasks = job.wanted = n + 1;
        return 1;
    case 's':
        job.tiles = n * n * n, job.tasks = job.wanted = more * n * n * n;
        return 1;
    }
    return 0;
}

static inline void begin(int count, char **words) {
    if (count < 4) exit(2);
    job.workers = atol(words[1]);
    job.kind = words[2][0] == 'c' && words[2][2] == 'o' ? 'k' : words[2][0];
    job.n = atol(words[3]);
    job.more = count > 4 ? atol(words[4]) : 0;
    if (job.workers < 1 || job.n < 1 || !measure_job()) exit(2);
    job.stride = (job.elements + 7) / 8 * 8;
    size_t bytes = (size_t)(job.tiles * job.stride) * sizeof(number);
    job.data = (number *)aligned_alloc(64, bytes);
    if (!job.data) exit(3);
    memset(job.data, 0, bytes);
}

// Prints the tasks and the seconds of the run, if what was computed is right.
static inline int finish(void) {
    number sum = 0;
    for (long at = 0; at < job.tiles; at++)
        for (long element = 0; element < job.elements; element++) sum += tile(at)[element];
    if (sum != job.wanted) {
        fprintf(stderr, "the tiles add up to %ld, and not to %ld\n", (long)sum, (long)job.wanted);
        return 1;
    }
    printf("%ld,%.7f\n", job.tasks, job.ended - job.begun);
    return 0;
}

// Bodies are never inlined, so that each task costs a call with every peer.
#define BODY static __attribute__((noinline, unused)) void

static inline void ordered(int is_so) {
    if (!is_so) {
        fputs("a task ran before its inputs\n", stderr);
        abort();
    }
}

BODY potrf(number *t, long step) { t[0] += 1, t[1] += step, t[2] = 1; }
BODY trsm(const number *t, number *c, long step) { ordered(t[2] == 1), c[0] += 1, c[1] += step, c[2] = 1; }
BODY herk(const number *a, number *t, long step) { ordered(a[2] == 1), t[0] += 1, t[1] += step; }
BODY gemm(const number *a, const number *b, number *c, long step) { ordered(a[2] + b[2] == 2), c[0] += 1, c[1] += step; }
BODY add_one(number *a) { a[0] += 1; }
BODY sink(const number *x, number *y) {
    ordered(x[0] == 1), y[0] = 1;
    if (job.more)
        for (double until = now() + (double)job.more * 1e-9; now() < until;) {}
}
BODY mark(number *y) { y[0] = 1; }
BODY last_mark(number *y) { ordered(own(0)[0] == 1 && own(job.n - 1)[0] == 1), y[0] = 1; }
BODY step_cell(number *c, long step) { ordered(c[0] == step), c[0] = step + 1; }

// The cells beside a cell of the stencil, itself first. Returns how many there are.
static inline int beside(long x, long y, long z, long *found) {
    int count = 0;
    found[count++] = cell(x, y, z);
    if (x > 0) found[count++] = cell(x - 1, y, z);
    if (x < job.n - 1) found[count++] = cell(x + 1, y, z);
    if (y > 0) found[count++] = cell(x, y - 1, z);
    if (y < job.n - 1) found[count++] = cell(x, y + 1, z);
    if (z > 0) found[count++] = cell(x, y, z - 1);
    if (z < job.n - 1) found[count++] = cell(x, y, z + 1);
    return count;
}

#endif
