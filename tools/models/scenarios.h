// The jobs and teams for which the model of sleeping.cpp is searched: at most 4 workers, 2 shards and 6 tasks.
#pragma once
#include <initializer_list>
#include <string>
#include <utility>
#include <vector>

// A set of tasks: task t is the bit 1 << t.
using TaskSet = unsigned;

inline TaskSet tasks(std::initializer_list<int> list) {
    TaskSet set = 0;
    for (int task : list) set |= 1u << task;
    return set;
}

// How many of a task's sends may wait in the sources: `MOST_WAITING` of worker_core/src/waiting.rt.
constexpr int MOST_WAITING = 4;

struct Scenario {
    std::string name;
    int workers;
    int shards;
    // The shard of each task.
    std::vector<int> shard_of;
    // The targets of each task's edges, in the order of their sends.
    std::vector<std::vector<int>> edges;
    // Tasks whose bodies trap. They send nothing, so their targets never become ready.
    TaskSet traps = 0;
    // Whether memory may be refused: to each send and each note of a trap; to the log before each claim; to each push
    // onto a deque, whose id is then dropped.
    bool refuses_sends = false;
    bool refuses_log = false;
    bool refuses_pushes = false;
    // How many of a task's sends may wait for turns. If fewer than in the sources may, a small job shows too what a
    // worker does that has no room for another one.
    int most_waiting = MOST_WAITING;
    // The gate: the body of task t ends only once the bodies of meets[t] have begun and those of follows[t] have ended.
    // Without a gate a lost wake costs only time, since a busy worker looks again. With one it is a hang.
    std::vector<TaskSet> meets;
    std::vector<TaskSet> follows;

    Scenario(const char *name, int workers, int shards, std::vector<int> shard_of, std::vector<std::vector<int>> edges)
        : name(name), workers(workers), shards(shards), shard_of(shard_of), edges(edges), meets(edges.size(), 0),
          follows(edges.size(), 0) {}

    int task_count() const { return static_cast<int>(edges.size()); }

    // The same job with one more thing each.
    Scenario trapping(TaskSet set) const { Scenario it = *this; it.traps = set; return it; }
    Scenario refusing_sends() const { Scenario it = *this; it.refuses_sends = true; return it; }
    Scenario refusing_log() const { Scenario it = *this; it.refuses_log = true; return it; }
    Scenario refusing_pushes() const { Scenario it = *this; it.refuses_pushes = true; return it; }
    Scenario with_most_waiting(int most) const { Scenario it = *this; it.most_waiting = most; return it; }
    // The bodies of the set end only once all of them have begun: they need a worker each, at one time.
    Scenario meeting(TaskSet set) const {
        Scenario it = *this;
        for (int task = 0; task < task_count(); task++)
            if (set >> task & 1) it.meets[task] = set;
        return it;
    }
    // The body of the task ends only after those of the set.
    Scenario following(int task, TaskSet set) const { Scenario it = *this; it.follows[task] = set; return it; }
};

// In the names, 2w is two workers, and 2k is two shards where the same job is there with one.
inline std::vector<Scenario> all_scenarios() {
    const std::vector<std::vector<int>> fan2 = {{1, 2}, {}, {}};
    const std::vector<std::vector<int>> fan3 = {{1, 2, 3}, {}, {}, {}};
    const std::vector<std::vector<int>> fan4 = {{1, 2, 3, 4}, {}, {}, {}, {}};
    const std::vector<std::vector<int>> fan5 = {{1, 2, 3, 4, 5}, {}, {}, {}, {}, {}};
    const std::vector<std::vector<int>> chain_fan2_and_root = {{1}, {2, 3}, {}, {}, {}};
    const std::vector<std::vector<int>> diamond = {{1, 2}, {3}, {3}, {}};
    const std::vector<std::vector<int>> fan2_and_root = {{1, 2}, {}, {}, {}};
    const std::vector<std::vector<int>> two_chains = {{2}, {3}, {}, {}};
    const std::vector<std::vector<int>> trees = {{2, 3}, {3, 4}, {}, {}, {}};
    const std::vector<std::vector<int>> two_fans = {{2, 3}, {4, 5}, {}, {}, {}, {}};
    return {
        // name, workers, shards, the shard of each task, the edges of each task
        Scenario("empty", 3, 2, {}, {}),
        Scenario("one-worker", 1, 2, {0, 1, 0, 1}, diamond),
        Scenario("one-task-3w", 3, 1, {0}, {{}}),
        Scenario("one-task-3w-2k", 3, 2, {1}, {{}}),
        Scenario("chain3-2w", 2, 2, {0, 1, 0}, {{1}, {2}, {}}),
        Scenario("fan2-2w", 2, 1, {0, 0, 0}, fan2),
        Scenario("fan2-2w-2k", 2, 2, {0, 1, 0}, fan2),
        Scenario("diamond-2w", 2, 2, {0, 1, 0, 1}, diamond),
        Scenario("fan3-2w", 2, 2, {0, 1, 0, 1}, fan3),
        Scenario("fan3-drop-2w", 2, 2, {0, 1, 0, 1}, fan3).refusing_pushes(),
        Scenario("fan2-drop-2w", 2, 1, {0, 0, 0}, fan2).refusing_pushes(),
        Scenario("oom-fan2-2w", 2, 1, {0, 0, 0}, fan2).refusing_sends(),
        Scenario("oom-log-2w", 2, 2, {0, 1}, {{1}, {}}).refusing_log(),
        Scenario("oom-chain2-3w", 3, 1, {0, 0}, {{1}, {}}).refusing_sends(),
        // The body of task 1 traps, so task 3 never becomes ready: the run ends with a task that waits.
        Scenario("trap-stall-2w", 2, 2, {0, 1, 0, 1}, diamond).trapping(tasks({1})),
        Scenario("oom-trap-2w", 2, 2, {0, 1, 0}, fan2).trapping(tasks({1})).refusing_sends(),
        Scenario("gate-meet-2w", 2, 1, {0, 0, 0}, fan2).meeting(tasks({1, 2})),
        Scenario("gate-meet-drop-2w", 2, 1, {0, 0, 0}, fan2).meeting(tasks({1, 2})).refusing_pushes(),
        Scenario("gate-meet3-2w", 2, 1, {0, 0, 0, 0}, fan3).meeting(tasks({1, 2})),
        // A send to one shard waits, and one to the other shard goes first.
        Scenario("gate-meet-2w-2k", 2, 2, {0, 1, 0}, fan2).meeting(tasks({1, 2})),
        // Two workers send to the same shards.
        Scenario("trees-2w-2k", 2, 2, {0, 1, 0, 1, 0}, trees),
        // One or two sends may wait. If another one has to, the oldest is sent first.
        Scenario("room1-2w", 2, 2, {0, 1, 0, 1}, fan3).with_most_waiting(1),
        Scenario("gate-room1-2w", 2, 2, {0, 1, 0, 1}, fan3).meeting(tasks({2, 3})).with_most_waiting(1),
        Scenario("oom-room1-2w", 2, 2, {0, 1, 0, 1}, fan3).refusing_sends().with_most_waiting(1),
        Scenario("gate-room2-2w", 2, 2, {0, 1, 0, 1, 0}, fan4).meeting(tasks({1, 2})).with_most_waiting(2),
        // As many wait as may in the sources, and the fifth send has to wait too.
        Scenario("gate-room4-2w", 2, 1, {0, 0, 0, 0, 0, 0}, fan5).meeting(tasks({1, 2})),
        Scenario("fan2-3w", 3, 1, {0, 0, 0}, fan2),
        Scenario("gate-2meet-3w", 3, 1, {0, 0, 0}, fan2).meeting(tasks({1, 2})),
        // Task 3, which is ready at the start, keeps a worker until tasks 1 and 2 have met.
        Scenario("gate-long-3w", 3, 1, {0, 0, 0, 0}, fan2_and_root).meeting(tasks({1, 2})).following(3, tasks({1, 2})),
        Scenario("gate-3meet-3w", 3, 1, {0, 0, 0, 0}, fan3).meeting(tasks({1, 2, 3})),
        Scenario("gate-2roots-3w", 3, 1, {0, 0, 0, 0}, two_chains).meeting(tasks({2, 3})),
        Scenario("gate-2roots-2w", 2, 2, {0, 1, 1, 0}, two_chains).meeting(tasks({2, 3})),
        Scenario("oom-fan2-3w", 3, 1, {0, 0, 0}, fan2).refusing_sends(),
        Scenario("oom-log-3w", 3, 1, {0, 0}, {{1}, {}}).refusing_log(),
        Scenario("gate-long-drop-3w", 3, 1, {0, 0, 0, 0}, fan2_and_root)
            .meeting(tasks({1, 2})).following(3, tasks({1, 2})).refusing_pushes(),
        Scenario("gate-3meet-drop-3w", 3, 1, {0, 0, 0, 0}, fan3).meeting(tasks({1, 2, 3})).refusing_pushes(),
        // Task 4 keeps a worker likewise.
        Scenario("gate-chain-3w", 3, 1, {0, 0, 0, 0, 0}, chain_fan2_and_root)
            .meeting(tasks({2, 3})).following(4, tasks({2, 3})),
        Scenario("trees-3w", 3, 1, {0, 0, 0, 0, 0}, trees),
        Scenario("gate-trees-3w", 3, 1, {0, 0, 0, 0, 0, 0}, two_fans).meeting(tasks({2, 3})).meeting(tasks({4, 5})),
        Scenario("trap-stall-3w", 3, 1, {0, 0, 0, 0}, diamond).trapping(tasks({1})),
        Scenario("fan2-3w-2k", 3, 2, {0, 1, 0}, fan2),
        Scenario("gate-2meet-3w-2k", 3, 2, {0, 1, 0}, fan2).meeting(tasks({1, 2})),
        Scenario("gate-long-3w-2k", 3, 2, {0, 1, 0, 1}, fan2_and_root)
            .meeting(tasks({1, 2})).following(3, tasks({1, 2})),
        Scenario("oom-fan2-3w-2k", 3, 2, {0, 1, 0}, fan2).refusing_sends(),
        Scenario("gate-3meet-3w-2k", 3, 2, {0, 1, 0, 1}, fan3).meeting(tasks({1, 2, 3})).refusing_pushes(),
        Scenario("gate-room1-3w-2k", 3, 2, {0, 1, 0, 1}, fan3).meeting(tasks({1, 2, 3})).with_most_waiting(1),
        Scenario("one-task-4w", 4, 1, {0}, {{}}),
        Scenario("chain2-4w", 4, 1, {0, 0}, {{1}, {}}),
        Scenario("gate-2meet-4w", 4, 1, {0, 0, 0}, fan2).meeting(tasks({1, 2})),
    };
}

// The scenarios in which each wrong variant is tried, the smaller ones first.
inline std::vector<std::string> scenarios_of_variants() {
    return {"gate-meet-2w", "gate-meet-drop-2w", "fan2-2w", "oom-fan2-2w", "fan2-drop-2w", "oom-log-2w", "chain3-2w",
            "gate-meet-2w-2k", "one-task-3w", "trap-stall-2w", "gate-room1-2w", "oom-room1-2w", "oom-chain2-3w",
            "gate-3meet-3w", "gate-2meet-3w", "gate-long-3w"};
}

// Those that `--quick` leaves out.
inline bool is_large(const Scenario &job) {
    return job.workers > 2 && job.task_count() > 1 && (job.workers > 3 || job.shards > 1 || job.task_count() > 4);
}
