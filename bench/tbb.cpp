// oneTBB as a runtime of parameterized graphs: a task is spawned when the last edge into it has come. A worker keeps the first task that it
// makes ready, and spawns the others. Without COPY a counter for each task is in a dense array, and tiles are shared in place; with COPY tasks
// that wait are in a hash table, and each edge delivers a copy of its tile, as `ptg` does.
#include <oneapi/tbb.h>

#include <array>
#include <atomic>
#include <vector>

#include "graphs.h"

#ifndef COPY
template <class Job> struct Run {
    Job graph;
    tbb::task_group group;
    std::vector<std::atomic<int>> came = std::vector<std::atomic<int>>(graph.size());

    void run(Task t) {
        for (bool more = true; more;) {
            number *tiles[3];
            for (int which = 0; which < graph.tiles(t); which++) tiles[which] = graph.home(t, which);
            graph.body(t, tiles);
            Task next{};
            more = false;
            graph.edges_out(t, [&](int, Task to, int) {
                if (came[graph.index(to)].fetch_add(1) + 1 < graph.edges_into(to)) return;
                if (more) group.run([=] { run(to); });
                else next = to, more = true;
            });
            t = next;
        }
    }
    void all() { graph.first([&](Task t) { group.run([=] { run(t); }); }), group.wait(); }
};
#else
using Tile = std::vector<number>;
using Tiles = std::array<Tile, 3>;
struct Waiting {
    int came = 0;
    Tiles tiles;
};

template <class Job> struct Run {
    Job graph;
    tbb::task_group group;
    tbb::concurrent_hash_map<long, Waiting> table;

    struct Go {
        Run *runs;
        Task task;
        mutable Tiles tiles;  // (oneTBB calls a constant object, once)
        void operator()() const { runs->run(task, std::move(tiles)); }
    };

    void run(Task t, Tiles tiles) {
        for (bool more = true; more;) {
            number *given[3];
            for (int which = 0; which < graph.tiles(t); which++) {
                if (tiles[which].empty()) tiles[which].assign(graph.home(t, which), graph.home(t, which) + job.elements);
                given[which] = tiles[which].data();
            }
            graph.body(t, given);
            if (int which = graph.written(t); which != NONE) std::copy_n(given[which], job.elements, graph.home(t, which));
            Task next{};
            Tiles of_next;
            more = false;
            graph.edges_out(t, [&](int which, Task to, int there) {
                Tile copy = which == NONE ? Tile() : tiles[which];
                typename decltype(table)::accessor entry;
                table.insert(entry, graph.index(to));
                if (which != NONE) entry->second.tiles[there] = std::move(copy);
                if (++entry->second.came < graph.edges_into(to)) return;
                Tiles ready = std::move(entry->second.tiles);
                table.erase(entry);
                if (more) group.run(Go{this, to, std::move(ready)});
                else next = to, of_next = std::move(ready), more = true;
            });
            t = next, tiles = std::move(of_next);
        }
    }
    void all() { graph.first([&](Task t) { group.run(Go{this, t, {}}); }), group.wait(); }
};
#endif

template <class Job> void run_job(tbb::task_arena &arena) {
    arena.execute([] {
        job.begun = now();
        Run<Job> runs;  // (the table belongs to the run)
        runs.all();
        job.ended = now();
    });
}

int main(int count, char **words) {
    begin(count, words);
    tbb::global_control limit(tbb::global_control::max_allowed_parallelism, job.workers);
    tbb::task_arena arena(job.workers);
    arena.execute([] { tbb::parallel_for(0L, job.workers * 64, [](long) {}); });  // starts the threads before the clock
    switch (job.kind) {
    case 'k': run_job<Cholesky>(arena); break;
    case 'c': run_job<Chain>(arena); break;
    case 'f': run_job<Fan>(arena); break;
    case 'g': run_job<Gather>(arena); break;
    case 's': run_job<Stencil>(arena);
    }
    return finish();
}
