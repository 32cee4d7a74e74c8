// The floor: plain loops in an order that the job allows, one call for each task, on one thread.
#include "work.h"

static void cholesky(void) {
    for (long k = 0; k < job.n; k++) {
        potrf(place(k, k), k);
        for (long m = k + 1; m < job.n; m++) trsm(place(k, k), place(m, k), k);
        for (long m = k + 1; m < job.n; m++) {
            herk(place(m, k), place(m, m), k);
            for (long n = k + 1; n < m; n++) gemm(place(m, k), place(n, k), place(m, n), k);
        }
    }
}

static void run(void) {
    switch (job.kind) {
    case 'k':
        cholesky();
        break;
    case 'c':
        for (long at = 0; at < job.n; at++) add_one(tile(0));
        break;
    case 'f':
        add_one(tile(0));
        for (long at = 0; at < job.n; at++) sink(tile(0), own(at));
        break;
    case 'g':
        for (long at = 0; at < job.n; at++) mark(own(at));
        last_mark(tile(0));
        break;
    case 's':
        for (long step = 0; step < job.more; step++)
            for (long at = 0; at < job.tiles; at++) step_cell(tile(at), step);
    }
}

int main(int count, char **words) {
    begin(count, words);
    job.begun = now();
    run();
    job.ended = now();
    return finish();
}
