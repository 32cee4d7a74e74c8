// The jobs as parameterized graphs for oneTBB: nothing of a graph is stored, its edges are computed from the parameters.
//
// A job has: the tasks that wait for nothing; how many edges come into a task; a number for each task, below size(); how many tiles its body
// takes and where they are before the first task that changes them; the body; each edge out of it, as the number of the tile that it sends
// (or NONE), the task at its other end, and the number of the tile there; and the number of the tile that is written back (or NONE).
#ifndef BENCH_GRAPHS_H
#define BENCH_GRAPHS_H

#include "work.h"

struct Task {
    int kind, k, m, n;
};
constexpr int NONE = -1;

struct Cholesky {
    enum { POTRF, TRSM, HERK, GEMM };
    template <class Go> void first(Go go) const { go(Task{POTRF, 0, 0, 0}); }
    int edges_into(Task t) const { return (t.k > 0) + (t.kind == GEMM ? 2 : t.kind != POTRF); }
    long size() const { return job.n * job.n * job.n; }
    // (potrf, trsm and herk have the numbers of (k, k, k), (k, m, k) and (k, m, m), which are those of no gemm)
    long index(Task t) const {
        long m = t.kind == POTRF ? t.k : t.m, n = t.kind == GEMM ? t.n : t.kind == HERK ? t.m : t.k;
        return (t.k * job.n + m) * job.n + n;
    }
    number *home(Task t, int which) const {
        switch (t.kind) {
        case POTRF: return place(t.k, t.k);
        case TRSM: return which == 0 ? place(t.k, t.k) : place(t.m, t.k);
        case HERK: return which == 0 ? place(t.m, t.k) : place(t.m, t.m);
        default: return which == 0 ? place(t.m, t.k) : which == 1 ? place(t.n, t.k) : place(t.m, t.n);
        }
    }
    void body(Task t, number **tiles) const {
        switch (t.kind) {
        case POTRF: return potrf(tiles[0], t.k);
        case TRSM: return trsm(tiles[0], tiles[1], t.k);
        case HERK: return herk(tiles[0], tiles[1], t.k);
        default: return gemm(tiles[0], tiles[1], tiles[2], t.k);
        }
    }
    int tiles(Task t) const { return t.kind == POTRF ? 1 : t.kind == GEMM ? 3 : 2; }
    int written(Task t) const { return t.kind == POTRF ? 0 : t.kind == TRSM ? 1 : NONE; }
    template <class Send> void edges_out(Task t, Send send) const {
        int k = t.k, m = t.m;
        switch (t.kind) {
        case POTRF:
            for (int row = k + 1; row < job.n; row++) send(0, Task{TRSM, k, row, 0}, 0);
            break;
        case TRSM:
            send(1, Task{HERK, k, m, 0}, 0);
            for (int column = k + 1; column < m; column++) send(1, Task{GEMM, k, m, column}, 0);
            for (int row = m + 1; row < job.n; row++) send(1, Task{GEMM, k, row, m}, 1);
            break;
        case HERK:
            m == k + 1 ? send(1, Task{POTRF, m, 0, 0}, 0) : send(1, Task{HERK, k + 1, m, 0}, 1);
            break;
        case GEMM:
            t.n == k + 1 ? send(2, Task{TRSM, t.n, m, 0}, 1) : send(2, Task{GEMM, k + 1, m, t.n}, 2);
        }
    }
};

struct Chain {
    template <class Go> void first(Go go) const { go(Task{0, 0, 0, 0}); }
    int edges_into(Task t) const { return t.k > 0; }
    long size() const { return job.n; }
    long index(Task t) const { return t.k; }
    number *home(Task, int) const { return tile(0); }
    void body(Task, number **tiles) const { add_one(tiles[0]); }
    int tiles(Task) const { return 1; }
    int written(Task t) const { return t.k == job.n - 1 ? 0 : NONE; }
    template <class Send> void edges_out(Task t, Send send) const {
        if (t.k < job.n - 1) send(0, Task{0, t.k + 1, 0, 0}, 0);
    }
};

struct Fan {
    enum { SOURCE, SINK };
    template <class Go> void first(Go go) const { go(Task{SOURCE, 0, 0, 0}); }
    int edges_into(Task t) const { return t.kind == SINK; }
    long size() const { return 1 + job.n; }
    long index(Task t) const { return t.kind == SOURCE ? 0 : 1 + t.k; }
    number *home(Task, int) const { return tile(0); }
    void body(Task t, number **tiles) const { t.kind == SOURCE ? add_one(tiles[0]) : sink(tiles[0], own(t.k)); }
    int tiles(Task) const { return 1; }
    int written(Task t) const { return t.kind == SOURCE ? 0 : NONE; }
    template <class Send> void edges_out(Task t, Send send) const {
        if (t.kind == SOURCE)
            for (int at = 0; at < job.n; at++) send(0, Task{SINK, at, 0, 0}, 0);
    }
};

struct Gather {
    enum { WORK, LAST };
    template <class Go> void first(Go go) const {
        for (int at = 0; at < job.n; at++) go(Task{WORK, at, 0, 0});
    }
    int edges_into(Task t) const { return t.kind == LAST ? int(job.n) : 0; }
    long size() const { return 1 + job.n; }
    long index(Task t) const { return t.kind == LAST ? 0 : 1 + t.k; }
    number *home(Task, int) const { return nullptr; }
    void body(Task t, number **) const { t.kind == WORK ? mark(own(t.k)) : last_mark(tile(0)); }
    int tiles(Task) const { return 0; }
    int written(Task) const { return NONE; }
    template <class Send> void edges_out(Task t, Send send) const {
        if (t.kind == WORK) send(NONE, Task{LAST, 0, 0, 0}, 0);
    }
};

// The kind of a task is its step.
struct Stencil {
    template <class Go> void first(Go go) const {
        for (int x = 0; x < job.n; x++)
            for (int y = 0; y < job.n; y++)
                for (int z = 0; z < job.n; z++) go(Task{0, x, y, z});
    }
    int edges_into(Task t) const {
        long near[7];
        return t.kind == 0 ? 0 : beside(t.k, t.m, t.n, near);
    }
    long size() const { return job.tasks; }
    long index(Task t) const { return t.kind * job.tiles + cell(t.k, t.m, t.n); }
    number *home(Task, int) const { return nullptr; }
    void body(Task t, number **) const { step_cell(tile(cell(t.k, t.m, t.n)), t.kind); }
    int tiles(Task) const { return 0; }
    int written(Task) const { return NONE; }
    template <class Send> void edges_out(Task t, Send send) const {
        long near[7];
        int count = t.kind + 1 < job.more ? beside(t.k, t.m, t.n, near) : 0;
        for (int which = 0; which < count; which++) {
            long at = near[which];
            send(NONE, Task{t.kind + 1, int(at / (job.n * job.n)), int(at / job.n % job.n), int(at % job.n)}, 0);
        }
    }
};

#endif
