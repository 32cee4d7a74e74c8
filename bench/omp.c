// OpenMP tasks with depend clauses. One thread makes all tasks; tiles are shared in place.
#include "work.h"

static void cholesky(void) {
    for (long k = 0; k < job.n; k++) {
        number *t = place(k, k);
#pragma omp task depend(inout : *t)
        potrf(t, k);
        for (long m = k + 1; m < job.n; m++) {
            number *c = place(m, k);
#pragma omp task depend(in : *t) depend(inout : *c)
            trsm(t, c, k);
        }
        for (long m = k + 1; m < job.n; m++) {
            number *a = place(m, k), *s = place(m, m);
#pragma omp task depend(in : *a) depend(inout : *s)
            herk(a, s, k);
            for (long n = k + 1; n < m; n++) {
                number *b = place(n, k), *c = place(m, n);
#pragma omp task depend(in : *a, *b) depend(inout : *c)
                gemm(a, b, c, k);
            }
        }
    }
}

static void chain(void) {
    number *a = tile(0);
    for (long at = 0; at < job.n; at++) {
#pragma omp task depend(inout : *a)
        add_one(a);
    }
}

static void fan(void) {
    number *x = tile(0);
#pragma omp task depend(out : *x)
    add_one(x);
    for (long at = 0; at < job.n; at++) {
        number *y = own(at);
#pragma omp task depend(in : *x)
        sink(x, y);
    }
}

static void gather(void) {
    for (long at = 0; at < job.n; at++) {
        number *y = own(at);
#pragma omp task depend(out : *y)
        mark(y);
    }
#pragma omp task depend(iterator(long at = 0 : job.n), in : *own(at))
    last_mark(tile(0));
}

// A byte for each task of the stencil, which stands for it in the clauses.
static char *stands;

static void stencil(void) {
    long cells = job.tiles;
    stands = (char *)malloc((size_t)job.tasks);
    if (!stands) exit(3);
    for (long step = 0; step < job.more; step++)
        for (long at = 0; at < cells; at++) {
            long near[7];
            int count = beside(at / (job.n * job.n), at / job.n % job.n, at % job.n, near);
            char *mine = stands + step * cells, *before = mine - cells;
            if (step == 0) count = 0;
            (void)before, (void)count;  // (gcc does not see that the clause uses them)
#pragma omp task depend(iterator(int which = 0 : count), in : before[near[which]]) depend(out : mine[at])
            step_cell(tile(at), step);
        }
}

static void make_tasks(void) {
    switch (job.kind) {
    case 'k': return cholesky();
    case 'c': return chain();
    case 'f': return fan();
    case 'g': return gather();
    case 's': return stencil();
    }
}

int main(int count, char **words) {
    begin(count, words);
#pragma omp parallel num_threads(job.workers)
    {}  // starts the threads before the clock
    job.begun = now();
#pragma omp parallel num_threads(job.workers)
#pragma omp single
    make_tasks();
    job.ended = now();
    return finish();
}
