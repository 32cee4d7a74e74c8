// An exhaustive model of how workers sleep and are woken: every order of the steps of a small team is tried.
// `tools/model` compiles and runs it.
//
//     sleeping [--quick]                        searches all scenarios, and tries each wrong variant
//     sleeping --trace SCENARIO [VARIANT]       prints the steps to a hang, if there is one
//     sleeping --steps                          prints the calls of the sources that take each step
//
// Its parts: steps.h has the steps of a worker, and where they are in the sources; scenarios.h the jobs and teams;
// variants.h the wrong variants. Here are the states, the protocol and the search.
//
// WHAT IS SEARCHED. The model has the shared words of a run: the turn of each shard, the live word, the halt word, the
// two words of the `EventCount`, and the kernel's queue of sleepers. It also has what the turns guard: which tasks are
// ready, and how many edges each other task waits for. A step is at most one access to what workers share, and all
// accesses of the sources are sequentially consistent. So each run of the program is an order of these steps. From the
// first state, the search finds all states that such orders lead to.
//
// WHAT IS A HANG. A state from which no further steps end all workers. If there is none, no wake is lost: from each
// state some order of steps ends the run. That a real run ends also needs fairness, which is assumed. Each worker goes
// on. If it tries again and again to take a turn, it gets it. If a step has two outcomes, both occur at some time.
//
// The search also counts wrong ends, where all have ended but a task that may run has not. And it counts unwatched
// states: a worker sleeps though more tasks are ready than other workers will look for, or wake someone for.
//
// WHAT IS SIMPLER THAN IN THE SOURCES. Where a choice depends on a count or a clock there, both are allowed here.
// - A look may scan a shard or not (`Scans::is_due`). After each look that found nothing a worker pauses, or goes to
//   sleep (`Patience::is_over`: after 12 such looks).
// - A push, a pop or a steal is one step. A steal may miss an id that is there, as one that began before the push.
// - The ready task with the lowest number is the best one of its shard.
// - Stamps, tiles, write-backs and the log's entries are left out: no worker waits for them. A write-back is a send
//   that fires nothing, as one whose target waits for further edges.
// - The kernel's queue is first in, first out, except with the variant `any_sleeper_wakes`. The kit allows that a sleep
//   ends for no reason. Here none does, so that no run depends on it.
// - The epoch is only compared, so the model keeps whether it has changed. It would need 2^32 notifications between two
//   steps of a worker for the kernel to see the same value again.
// - A body ends, except that it waits at its scenario's gate. In the sources the gate is before the body.
//
// WHAT IS LEFT OUT. Larger teams, tables and jobs. Boards other than `DepTable`. The kernel. A preloaded table is one
// that refuses no memory. A worker whose thread is made late is one that takes its first step late. And nothing proves
// that the sources have these steps: that is by reading.
#include <algorithm>
#include <cstdint>
#include <cstdio>
#include <cstdlib>
#include <cstring>
#include <deque>
#include <string>
#include <type_traits>
#include <vector>

#include "scenarios.h"
#include "steps.h"
#include "variants.h"

constexpr int MOST_WORKERS = 4;
constexpr int MOST_SHARDS = 2;
constexpr int MOST_TASKS = 6;
// As many ids as any scenario pushes: `push_back` ends the program otherwise.
constexpr int DEQUE_ROOM = 4;
// How many late stores a worker has at most.
constexpr int LATE_ROOM = 2;
constexpr Byte NONE = 0xff;
// The halt word, among late stores. Other late stores give back the turn of the shard of that number.
constexpr Byte HALT_WORD = 0xfe;

// ---------------------------------------------------------------------------------------------------------------------
// The states. Fields that a step does not need are reset, so that equal situations are equal states.

struct Worker {
    Step step;
    // The step after `Cancel`, and the step after a notification.
    Step after_sleep, after_wake;
    // The task that it runs or is about to claim, and the id that its slot keeps.
    Byte task, slot;
    // Which of the task's edges it sends or tries to send, and which one its walk over them has reached. After the walk
    // that is their number.
    Byte edge, walk;
    // The edges that wait for a turn, a bit for each. They begin to wait in the walk's order, so the oldest one has the
    // lowest bit.
    Byte waiting;
    // The worker from which it steals, or the shard at which it looks a second time.
    Byte at;
    // `Scans::next`.
    Byte next_scan;
    // `calm` of `sleep`: no shard was busy so far.
    Byte calm;
    // Whether it has read the epoch for its sleep, and whether the epoch has changed since. Its value does not matter.
    Byte has_key, is_stale;
    // Its late stores, the oldest first.
    Byte late_count, late[LATE_ROOM];
};

struct State {
    Byte turn[MOST_SHARDS];
    // Bits of tasks. `begun` and `done` are the model's own, for gates.
    Byte ready, begun, done;
    // How many edges each task waits for; 0 for a task that is ready, or was.
    Byte waits[MOST_TASKS];
    Byte live, halt;
    // Of the `EventCount`, and the kernel's queue of workers that sleep on its epoch.
    Byte waiters, sleeper_count, sleepers[MOST_WORKERS];
    // Each worker's deque, the oldest id first.
    Byte id_count[MOST_WORKERS], ids[MOST_WORKERS][DEQUE_ROOM];
    Worker workers[MOST_WORKERS];
    // Up to a multiple of 8 bytes, for the hash.
    Byte padding[1];
};
// States are compared and hashed as bytes.
static_assert(std::is_trivially_copyable<State>::value && sizeof(State) % 8 == 0, "no gaps");

bool operator==(const State &left, const State &right) { return std::memcmp(&left, &right, sizeof(State)) == 0; }

int bits_of(TaskSet set) {
    int count = 0;
    for (; set; set >>= 1) count += set & 1;
    return count;
}

bool is_at_end(const Worker &it) { return it.step == Step::EndedQuiet || it.step == Step::EndedHalted; }

// A list in an array of bytes, whose unused places are 0.
void push_back(Byte *list, Byte &count, Byte value, int room) {
    if (count >= room) {
        std::fprintf(stderr, "sleeping: a list of the model is too short\n");
        std::exit(2);
    }
    list[count++] = value;
}

Byte take_at(Byte *list, Byte &count, int index) {
    Byte value = list[index];
    for (int next = index + 1; next < count; next++) list[next - 1] = list[next];
    list[--count] = 0;
    return value;
}

// ---------------------------------------------------------------------------------------------------------------------
// The protocol. Each function of a step gets a copy of the state, changes it, and says with `arrive` where the worker
// is then. If it arrives twice, the step has two outcomes. If it does not arrive, the worker waits, or it tries again,
// which changes nothing.

class Protocol {
  public:
    Protocol(const Scenario &job, const Variant &wrong) : job(job), wrong(wrong) {}

    // All workers begin, and the tasks without in edges are ready. Their ids are in no deque.
    State first() const {
        State state;
        std::memset(&state, 0, sizeof state);
        for (const auto &targets : job.edges)
            for (int target : targets) state.waits[target]++;
        for (int task = 0; task < job.task_count(); task++)
            if (state.waits[task] == 0) {
                state.ready |= 1 << task;
                state.live++;
            }
        for (int number = 0; number < MOST_WORKERS; number++) {
            Worker &it = state.workers[number];
            it.step = number < job.workers ? first_step() : Step::EndedQuiet;
            it.task = it.slot = NONE;
            it.next_scan = number < job.workers && number < job.shards ? number : 0;
        }
        return state;
    }

    // The states after one step of the worker.
    void successors(const State &from, int me, std::vector<State> &to) {
        found = &to;
        if (from.workers[me].late_count) store_oldest(from, me);
        if (may_step(from, me)) take_step(from, me);
    }

  private:
    const Scenario &job;
    const Variant &wrong;
    std::vector<State> *found = nullptr;

    void arrive(State &state, int me, Step step) {
        state.workers[me].step = step;
        found->push_back(state);
    }

    void take_step(State state, int me) {
        switch (state.workers[me].step) {
        case Step::MakeRoom: return make_room(state, me);
        case Step::ReadHalt: return read_halt(state, me);
        case Step::PopOwn: return pop_own(state, me);
        case Step::Steal: return steal(state, me);
        case Step::ClaimTurn: return claim_turn(state, me);
        case Step::ClaimGive: return claim_give(state, me);
        case Step::ScanTurn: return scan_turn(state, me);
        case Step::ScanGive: return scan_give(state, me);
        case Step::ReadLive: return read_live(state, me);
        case Step::Announce: return announce(state, me);
        case Step::ReadEpoch: return read_epoch(state, me);
        case Step::SecondHalt: return second_halt(state, me);
        case Step::LookTurn: return look_turn(state, me);
        case Step::LookGive: return look_give(state, me);
        case Step::SecondLive: return second_live(state, me);
        case Step::CompareEpoch: return compare_epoch(state, me);
        case Step::Park: return park(state, me);
        case Step::Asleep: return;
        case Step::Cancel: return cancel(state, me);
        case Step::BeginBody: return begin_body(state, me);
        case Step::EndBody: return end_body(state, me);
        case Step::SendTurn: return send_turn(state, me);
        case Step::OldestTurn: return take_turn(state, me, shard_of(target_of(state, me)), Step::SendItem);
        case Step::WaitingTurn: return waiting_turn(state, me);
        case Step::SendItem: return send_item(state, me);
        case Step::SendFired: return send_fired(state, me);
        case Step::PushOlder: return push_older(state, me);
        case Step::OneReadWaiters: return read_waiters(state, me, Step::OneRaiseEpoch);
        case Step::OneRaiseEpoch: return raise_epoch(state, me, Step::OneWake);
        case Step::OneWake: return one_wake(state, me);
        case Step::EndTurn: return take_turn(state, me, shard_of(state.workers[me].task), Step::EndGive);
        case Step::EndGive: return end_give(state, me);
        case Step::PeekLive: return peek_live(state, me);
        case Step::LowerLive: return lower_live(state, me);
        case Step::RaiseHalt: return raise_halt(state, me);
        case Step::AllReadWaiters: return read_waiters(state, me, Step::AllRaiseEpoch);
        case Step::AllRaiseEpoch: return raise_epoch(state, me, Step::AllWake);
        case Step::AllWake: return all_wake(state, me);
        case Step::EndedQuiet: case Step::EndedHalted: case Step::Count: return;
        }
    }

    // --- Turns.

    int shard_of(int task) const { return job.shard_of[task]; }

    // A call that tries until it has the turn.
    void take_turn(State &state, int me, int shard, Step then) {
        if (state.turn[shard]) return;
        state.turn[shard] = 1;
        arrive(state, me, then);
    }

    void give(State &state, int me, int shard) {
        if (wrong.turns_are_given_late) store_late(state, me, shard);
        else state.turn[shard] = 0;
    }

    // Claims a task whose turn the worker holds, and gives the turn back.
    void claim_and_give(State &state, int me, int task) {
        state.ready &= ~(1 << task);
        state.workers[me].task = task;
        give(state, me, shard_of(task));
    }

    // The best ready task of a shard, or NONE.
    int best_ready(const State &state, int shard) const {
        for (int task = 0; task < job.task_count(); task++)
            if ((state.ready >> task & 1) && shard_of(task) == shard) return task;
        return NONE;
    }

    // --- The next task.

    Step first_step() const { return job.refuses_log ? Step::MakeRoom : Step::ReadHalt; }

    void make_room(State &state, int me) {
        fail(state, me);
        arrive(state, me, Step::ReadHalt);
    }

    void read_halt(State &state, int me) {
        if (state.halt) fail(state, me);
        else arrive(state, me, Step::PopOwn);
    }

    void pop_own(State &state, int me) {
        Worker &worker = state.workers[me];
        if (worker.slot != NONE) {
            worker.task = worker.slot;
            worker.slot = NONE;
            arrive(state, me, Step::ClaimTurn);
        } else if (state.id_count[me]) {
            worker.task = take_at(state.ids[me], state.id_count[me], state.id_count[me] - 1);
            arrive(state, me, Step::ClaimTurn);
        } else {
            steal_from(state, me, me + 1);
        }
    }

    // Steals from another worker: first from the one with the next number, and from itself never.
    void steal_from(State &state, int me, int other) {
        other %= job.workers;
        if (other == me) return no_id(state, me);
        state.workers[me].at = other;
        arrive(state, me, Step::Steal);
    }

    void steal(State &state, int me) {
        Worker &worker = state.workers[me];
        int from = worker.at;
        worker.at = 0;
        State missed = state;
        steal_from(missed, me, from + 1);
        if (!state.id_count[from] || wrong.steals_find_nothing) return;
        worker.task = take_at(state.ids[from], state.id_count[from], 0);
        arrive(state, me, Step::ClaimTurn);
    }

    // A look that found no id scans a shard if a scan is due, and then looks for quiet.
    void no_id(State &state, int me) {
        if (!wrong.first_look_never_scans) arrive(state, me, Step::ScanTurn);
        arrive(state, me, Step::ReadLive);
    }

    void claim_turn(State &state, int me) { take_turn(state, me, shard_of(state.workers[me].task), Step::ClaimGive); }

    void claim_give(State &state, int me) {
        int task = state.workers[me].task;
        if (state.ready >> task & 1) {
            claim_and_give(state, me, task);
            return arrive(state, me, Step::BeginBody);
        }
        // It is gone. The patience begins anew, so the worker does not sleep before it has looked again.
        give(state, me, shard_of(task));
        state.workers[me].task = NONE;
        arrive(state, me, Step::ReadHalt);
    }

    void skip_shard(Worker &worker) { worker.next_scan = (worker.next_scan + 1) % job.shards; }

    void scan_turn(State &state, int me) {
        Worker &worker = state.workers[me];
        if (!state.turn[worker.next_scan]) return take_turn(state, me, worker.next_scan, Step::ScanGive);
        skip_shard(worker);
        arrive(state, me, Step::ReadLive);
    }

    void scan_give(State &state, int me) {
        Worker &worker = state.workers[me];
        int task = best_ready(state, worker.next_scan);
        if (task != NONE) {
            claim_and_give(state, me, task);
            return arrive(state, me, Step::BeginBody);
        }
        give(state, me, worker.next_scan);
        skip_shard(worker);
        arrive(state, me, Step::ReadLive);
    }

    void read_live(State &state, int me) {
        if (state.live == 0) return quiet(state, me);
        // It pauses and looks again, or it sleeps.
        arrive(state, me, Step::ReadHalt);
        arrive(state, me, wrong.looks_before_announcing ? Step::SecondHalt : Step::Announce);
    }

    // The worker has seen quiet, so it wakes all and ends.
    void quiet(State &state, int me) {
        if (wrong.quiet_wakes_nobody || wrong.quiet_wakes_first) return arrive(state, me, Step::EndedQuiet);
        notify(state, me, Step::AllReadWaiters, Step::EndedQuiet);
    }

    // --- The sleep.

    void announce(State &state, int me) {
        state.waiters++;
        arrive(state, me, Step::ReadEpoch);
    }

    void read_epoch(State &state, int me) {
        state.workers[me].has_key = 1;
        bool looks = !wrong.no_second_look && !wrong.looks_before_announcing;
        arrive(state, me, looks ? Step::SecondHalt : Step::CompareEpoch);
    }

    void second_halt(State &state, int me) {
        if (state.halt && !wrong.second_look_skips_halt) return leave_sleep(state, me, Step::ReadHalt);
        state.workers[me].calm = 1;
        arrive(state, me, wrong.second_look_skips_shards ? Step::SecondLive : Step::LookTurn);
    }

    void look_turn(State &state, int me) {
        Worker &worker = state.workers[me];
        if (!state.turn[worker.at]) return take_turn(state, me, worker.at, Step::LookGive);
        if (!wrong.busy_counts_as_empty) worker.calm = 0;
        look_at_next(state, me);
    }

    void look_give(State &state, int me) {
        int shard = state.workers[me].at;
        int task = best_ready(state, shard);
        if (task != NONE) {
            claim_and_give(state, me, task);
            return leave_sleep(state, me, Step::BeginBody);
        }
        give(state, me, shard);
        look_at_next(state, me);
    }

    void look_at_next(State &state, int me) {
        Worker &worker = state.workers[me];
        worker.at = (worker.at + 1) % job.shards;
        arrive(state, me, worker.at ? Step::LookTurn : Step::SecondLive);
    }

    void second_live(State &state, int me) {
        if (state.live == 0 && !wrong.second_look_skips_quiet) return leave_sleep(state, me, Step::EndedQuiet);
        if (!state.workers[me].calm) return leave_sleep(state, me, Step::ReadHalt);
        state.workers[me].calm = 0;
        arrive(state, me, wrong.looks_before_announcing ? Step::Announce : Step::CompareEpoch);
    }

    void compare_epoch(State &state, int me) {
        if (state.workers[me].is_stale) leave_sleep(state, me, Step::ReadHalt);
        else arrive(state, me, Step::Park);
    }

    void park(State &state, int me) {
        if (state.workers[me].is_stale) return arrive(state, me, Step::CompareEpoch);
        push_back(state.sleepers, state.sleeper_count, me, MOST_WORKERS);
        arrive(state, me, Step::Asleep);
    }

    // `sleep` returns: the key, if there is one, is dropped. `EndedQuiet` stands for what follows once quiet was seen.
    void leave_sleep(State &state, int me, Step then) {
        Worker &worker = state.workers[me];
        worker.calm = worker.at = 0;
        if (!worker.has_key) return after_sleep(state, me, then);
        worker.after_sleep = then;
        arrive(state, me, Step::Cancel);
    }

    void cancel(State &state, int me) {
        Worker &worker = state.workers[me];
        state.waiters--;
        worker.has_key = worker.is_stale = 0;
        Step then = worker.after_sleep;
        worker.after_sleep = Step{};
        after_sleep(state, me, then);
    }

    void after_sleep(State &state, int me, Step then) {
        if (then == Step::EndedQuiet) quiet(state, me);
        else arrive(state, me, then);
    }

    // --- Notifications: `notify_one` and `notify_all` of the kit.

    void notify(State &state, int me, Step how, Step then) {
        state.workers[me].after_wake = then;
        arrive(state, me, how);
    }

    void notified(State &state, int me) {
        Step then = state.workers[me].after_wake;
        state.workers[me].after_wake = Step{};
        arrive(state, me, then);
    }

    void read_waiters(State &state, int me, Step then) {
        if (state.waiters) arrive(state, me, then);
        else notified(state, me);
    }

    void raise_epoch(State &state, int me, Step then) {
        for (Worker &worker : state.workers) worker.is_stale |= worker.has_key;
        arrive(state, me, then);
    }

    void wake(State &state, int index) {
        int sleeper = take_at(state.sleepers, state.sleeper_count, index);
        state.workers[sleeper].step = Step::CompareEpoch;
    }

    void one_wake(State &state, int me) {
        if (!state.sleeper_count) return notified(state, me);
        int candidates = wrong.any_sleeper_wakes ? state.sleeper_count : 1;
        for (int index = 0; index < candidates; index++) {
            State woken = state;
            wake(woken, index);
            notified(woken, me);
        }
    }

    void all_wake(State &state, int me) {
        bool is_halt = state.workers[me].after_wake == Step::EndedHalted;
        bool one = is_halt ? wrong.halt_wakes_one : wrong.quiet_wakes_one;
        for (int left = one ? std::min<int>(1, state.sleeper_count) : state.sleeper_count; left; left--) wake(state, 0);
        notified(state, me);
    }

    // --- The run of a task.

    void begin_body(State &state, int me) {
        state.begun |= 1 << state.workers[me].task;
        arrive(state, me, Step::EndBody);
    }

    void end_body(State &state, int me) {
        int task = state.workers[me].task;
        if (job.meets[task] & ~state.begun || job.follows[task] & ~state.done) return;
        state.done |= 1 << task;
        if (traps(task)) arrive(state, me, Step::EndTurn);
        else go_on(state, me, next_try(state.workers[me]));
    }

    bool traps(int task) const { return job.traps >> task & 1; }

    // --- The sends of a task: `send_all`. The tries have the order of the sources. If any order were allowed, a state
    // could have a way to the end that it does not have there, and hangs would be missed.

    int edge_count(const Worker &worker) const { return job.edges[worker.task].size(); }

    int target_of(const State &state, int me) const {
        const Worker &worker = state.workers[me];
        return job.edges[worker.task][worker.edge];
    }

    static bool edge_waits(const Worker &worker) { return worker.waiting >> worker.edge & 1; }

    // The edge of the walk finds the turn taken, so it waits and the walk goes on. If no more edges may wait, the
    // worker sends the oldest one first.
    void send_turn(State &state, int me) {
        Worker &worker = state.workers[me];
        int shard = shard_of(target_of(state, me));
        if (!state.turn[shard]) return take_turn(state, me, shard, Step::SendItem);
        if (bits_of(worker.waiting) == job.most_waiting) {
            worker.edge = 0;
            while (!edge_waits(worker)) worker.edge++;
            return go_on(state, me, Step::OldestTurn);
        }
        worker.waiting |= 1 << worker.walk++;
        go_on(state, me, next_try(worker));
    }

    // After the walk, an edge that waits finds the turn taken, so the next one is tried. If it is the only one, it is
    // tried again.
    void waiting_turn(State &state, int me) {
        Worker &worker = state.workers[me];
        int shard = shard_of(target_of(state, me));
        if (!state.turn[shard]) return take_turn(state, me, shard, Step::SendItem);
        Byte tried = worker.edge;
        Step then = next_try(worker);
        if (worker.edge != tried) go_on(state, me, then);
    }

    // Goes on to the next edge of the walk. After the walk, it goes on to the next edge that waits, in this round or
    // else in the next one, and at last to the task's end.
    Step next_try(Worker &worker) const {
        if (worker.walk < edge_count(worker)) {
            worker.edge = worker.walk;
            return Step::SendTurn;
        }
        if (!worker.waiting) {
            worker.edge = worker.walk = 0;
            return Step::EndTurn;
        }
        do worker.edge = (worker.edge + 1) % edge_count(worker);
        while (!edge_waits(worker));
        return Step::WaitingTurn;
    }

    void go_on(State &state, int me, Step then) {
        bool wakes = wrong.push_wakes_first && then != Step::EndTurn && state.workers[me].slot != NONE;
        if (wakes) return notify(state, me, Step::OneReadWaiters, then);
        arrive(state, me, then);
    }

    // The worker holds the turn of the target's shard. The send is refused, or fires its target, or does not.
    void send_item(State &state, int me) {
        int target = target_of(state, me);
        if (job.refuses_sends) {
            State refused = state;
            give(refused, me, shard_of(target));
            fail(refused, me);
        }
        if (state.waits[target] == 1) {
            if (!may_load_and_store(state.workers[me])) return;
            state.live++;
            return arrive(state, me, Step::SendFired);
        }
        state.waits[target]--;
        give(state, me, shard_of(target));
        sent(state, me);
    }

    // The target becomes ready as the turn is given back. Its id goes into the slot, if that is empty.
    void send_fired(State &state, int me) {
        int target = target_of(state, me);
        state.waits[target] = 0;
        state.ready |= 1 << target;
        give(state, me, shard_of(target));
        if (state.workers[me].slot != NONE) return arrive(state, me, Step::PushOlder);
        state.workers[me].slot = target;
        sent(state, me);
    }

    // The slot keeps an id: that one goes to the deque, and the new one into the slot. If memory is refused, the new
    // one is dropped. In both cases the worker wakes another one.
    void push_older(State &state, int me) {
        if (job.refuses_pushes) {
            State dropped = state;
            pushed(dropped, me, !wrong.dropped_id_wakes_nobody);
        }
        Worker &worker = state.workers[me];
        push_back(state.ids[me], state.id_count[me], worker.slot, DEQUE_ROOM);
        worker.slot = target_of(state, me);
        pushed(state, me, true);
    }

    void pushed(State &state, int me, bool wakes) {
        if (wrong.push_wakes_nobody || wrong.push_wakes_first) wakes = false;
        if (wrong.waited_send_wakes_nobody && edge_waits(state.workers[me])) wakes = false;
        if (!wakes) return sent(state, me);
        Step then = step_after_send(state, me);
        notify(state, me, Step::OneReadWaiters, then);
    }

    void sent(State &state, int me) { go_on(state, me, step_after_send(state, me)); }

    // The edge was sent. If it waited during the walk, it leaves its room to the walk's edge, which waits from now on.
    Step step_after_send(State &state, int me) const {
        Worker &worker = state.workers[me];
        bool waited = edge_waits(worker);
        worker.waiting &= ~(1 << worker.edge);
        if (worker.walk < edge_count(worker)) {
            worker.waiting |= waited << worker.walk;
            worker.walk++;
        }
        return next_try(worker);
    }

    // --- The end of a task, or its trap.

    void end_give(State &state, int me) {
        int task = state.workers[me].task;
        give(state, me, shard_of(task));
        // A trap that is refused memory ends nothing.
        if (traps(task) && job.refuses_sends) {
            State refused = state;
            fail(refused, me);
        }
        arrive(state, me, wrong.quiet_wakes_first ? Step::PeekLive : Step::LowerLive);
    }

    void peek_live(State &state, int me) {
        if (state.live == 1) notify(state, me, Step::AllReadWaiters, Step::LowerLive);
        else arrive(state, me, Step::LowerLive);
    }

    void lower_live(State &state, int me) {
        state.live--;
        state.workers[me].task = NONE;
        arrive(state, me, first_step());
    }

    // --- The end after an error: out of memory, or the halt was seen. Both halt the table (`work_with`). The id in the
    // worker's slot is left there, and its task to the scans of others.

    void fail(State state, int me) {
        Worker &worker = state.workers[me];
        worker.task = worker.slot = NONE;
        worker.edge = worker.walk = worker.waiting = 0;
        if (wrong.error_does_not_halt) return arrive(state, me, Step::EndedHalted);
        if (wrong.halt_wakes_first) return notify(state, me, Step::AllReadWaiters, Step::RaiseHalt);
        arrive(state, me, Step::RaiseHalt);
    }

    void raise_halt(State &state, int me) {
        if (wrong.halt_is_stored_late) store_late(state, me, HALT_WORD);
        else state.halt = 1;
        if (wrong.halt_wakes_nobody || wrong.halt_wakes_first) return arrive(state, me, Step::EndedHalted);
        notify(state, me, Step::AllReadWaiters, Step::EndedHalted);
    }

    // --- Late stores, for two wrong variants. A worker reads a word that it stored late only by a step that first
    // empties its buffer.

    static bool may_load_and_store(const Worker &worker) { return worker.late_count == 0; }

    bool may_step(const State &state, int me) const {
        const Worker &worker = state.workers[me];
        Access access = text_of(worker.step).access;
        if (worker.step == Step::RaiseHalt && wrong.halt_is_stored_late) access = Access::Store;
        if (access == Access::LoadAndStore) return may_load_and_store(worker);
        return access != Access::Store || worker.late_count < LATE_ROOM;
    }

    void store_late(State &state, int me, Byte word) {
        Worker &worker = state.workers[me];
        push_back(worker.late, worker.late_count, word, LATE_ROOM);
    }

    // The oldest late store takes effect.
    void store_oldest(State state, int me) {
        Worker &worker = state.workers[me];
        Byte word = take_at(worker.late, worker.late_count, 0);
        if (word == HALT_WORD) state.halt = 1;
        else state.turn[word] = 0;
        found->push_back(state);
    }
};

// ---------------------------------------------------------------------------------------------------------------------
// What is asked of states.

bool all_have_ended(const State &state) {
    auto has_ended = [](const Worker &it) { return is_at_end(it) && it.late_count == 0; };
    return std::all_of(std::begin(state.workers), std::end(state.workers), has_ended);
}

// The tasks that run if nothing is refused: all that become ready.
TaskSet tasks_that_run(const Scenario &job) {
    std::vector<int> waits(job.task_count(), 0);
    for (const auto &targets : job.edges)
        for (int target : targets) waits[target]++;
    TaskSet runs = 0;
    for (bool grows = true; grows;) {
        grows = false;
        for (int task = 0; task < job.task_count(); task++) {
            if (waits[task] || runs >> task & 1) continue;
            runs |= 1u << task;
            grows = true;
            if (job.traps >> task & 1) continue;
            for (int target : job.edges[task]) waits[target]--;
        }
    }
    return runs;
}

bool is_wrong_end(const State &state, const Scenario &job, TaskSet runs) {
    if (state.waiters || state.sleeper_count) return true;
    if (state.halt) return !job.refuses_sends && !job.refuses_log;
    return state.done != runs || state.live || state.ready;
}

// Whether a worker sleeps though more tasks are ready than workers will look, or wake one that looks.
bool is_unwatched(const State &state) {
    if (state.halt || !state.sleeper_count) return false;
    int tasks = bits_of(state.ready), looks = 0;
    for (const Worker &worker : state.workers) {
        bool is_away = worker.step == Step::Asleep || worker.step == Step::EndBody || is_at_end(worker);
        bool is_waking = worker.step >= Step::PushOlder && worker.step <= Step::OneWake;
        looks += !is_away + is_waking;
    }
    return tasks > looks;
}

// ---------------------------------------------------------------------------------------------------------------------
// The search.

// The states that were found, each once, with a number.
class States {
  public:
    States() : table(1u << 16, EMPTY) {}

    std::size_t size() const { return list.size(); }
    const State &operator[](std::size_t number) const { return list[number]; }

    // The number of a state, which is added if it is new.
    std::uint32_t number_of(const State &state) {
        if (2 * list.size() >= table.size()) grow();
        std::uint32_t &place = place_of(state);
        if (place == EMPTY) {
            place = list.size();
            list.push_back(state);
        }
        return place;
    }

  private:
    static constexpr std::uint32_t EMPTY = 0xffffffff;
    // No vector, which needs three times as much memory while it grows.
    std::deque<State> list;
    // A hash table with linear probing, of numbers.
    std::vector<std::uint32_t> table;

    static std::uint64_t hash_of(const State &state) {
        std::uint64_t words[sizeof(State) / 8], hash = 0;
        std::memcpy(words, &state, sizeof state);
        for (std::uint64_t word : words) {
            hash = (hash ^ word) * 0x9e3779b97f4a7c15;
            hash ^= hash >> 32;
        }
        return hash;
    }

    std::uint32_t &place_of(const State &state) {
        std::size_t at = hash_of(state) & (table.size() - 1);
        while (table[at] != EMPTY && !(list[table[at]] == state)) at = (at + 1) & (table.size() - 1);
        return table[at];
    }

    void grow() {
        table.assign(2 * table.size(), EMPTY);
        for (std::uint32_t number = 0; number < list.size(); number++) place_of(list[number]) = number;
    }
};

// One step between two states, by their numbers.
struct Edge {
    std::uint32_t from, to;
};

struct Found {
    std::size_t states = 0, hangs = 0, wrong_ends = 0, unwatched = 0;
    // A shortest run to a hang, or to another fault if there is none: each state, with the worker that took the step.
    std::vector<std::pair<int, State>> trace;

    bool is_good() const { return hangs + wrong_ends + unwatched == 0; }
};

// Marks the states from which one that is marked can be reached.
void mark_backwards(std::vector<char> &marked, const std::vector<Edge> &edges) {
    // The edges into each state are together in `sources`, from `begin[state]` on.
    std::vector<std::uint32_t> begin(marked.size() + 1, 0), sources(edges.size()), open;
    for (const Edge &edge : edges) begin[edge.to]++;
    for (std::size_t state = 0, sum = 0; state < begin.size(); state++) begin[state] = sum += begin[state];
    for (const Edge &edge : edges) sources[--begin[edge.to]] = edge.from;
    for (std::uint32_t state = 0; state < marked.size(); state++)
        if (marked[state]) open.push_back(state);
    while (!open.empty()) {
        std::uint32_t state = open.back();
        open.pop_back();
        for (std::uint32_t at = begin[state]; at < begin[state + 1]; at++)
            if (!marked[sources[at]]) {
                marked[sources[at]] = 1;
                open.push_back(sources[at]);
            }
    }
}

Found search(const Scenario &job, const Variant &wrong) {
    Protocol protocol(job, wrong);
    TaskSet runs = tasks_that_run(job);
    Found found;
    States states;
    std::vector<Edge> edges;
    // Whether the end of all workers can be reached from a state.
    std::vector<char> ends;
    // How each state was found first: from which state, by which worker's step.
    std::vector<std::pair<std::uint32_t, Byte>> origins(1);
    std::uint32_t fault = 0;
    std::vector<State> next;
    states.number_of(protocol.first());
    for (std::uint32_t number = 0; number < states.size(); number++) {
        State state = states[number];
        bool has_ended = all_have_ended(state);
        bool is_wrong = has_ended && is_wrong_end(state, job, runs);
        ends.push_back(has_ended);
        found.wrong_ends += is_wrong;
        found.unwatched += is_unwatched(state);
        if (!fault && (is_wrong || is_unwatched(state))) fault = number;
        for (int worker = 0; worker < job.workers; worker++) {
            next.clear();
            protocol.successors(state, worker, next);
            for (const State &it : next) {
                std::uint32_t to = states.number_of(it);
                if (to == origins.size()) origins.push_back({number, Byte(worker)});
                edges.push_back({number, to});
            }
        }
    }
    mark_backwards(ends, edges);
    found.states = states.size();
    found.hangs = std::count(ends.begin(), ends.end(), 0);
    // Of the hangs, the first one after which nobody moves, else the first one.
    if (found.hangs) {
        std::vector<char> moves(states.size(), 0);
        for (const Edge &edge : edges) moves[edge.from] = 1;
        std::size_t first = std::find(ends.begin(), ends.end(), 0) - ends.begin();
        std::size_t still = first;
        while (still < states.size() && (ends[still] || moves[still])) still++;
        fault = still < states.size() ? still : first;
    }
    if (!found.is_good()) {
        for (std::uint32_t at = fault; at; at = origins[at].first)
            found.trace.push_back({origins[at].second, states[at]});
        std::reverse(found.trace.begin(), found.trace.end());
    }
    return found;
}

// ---------------------------------------------------------------------------------------------------------------------
// What is printed.

std::string set_text(TaskSet set) {
    std::string text;
    for (int task = 0; task < MOST_TASKS; task++)
        if (set >> task & 1) text += std::to_string(task);
    return text.empty() ? "-" : text;
}

// One line for each step: which worker took it, and after it where all workers are, with their tasks and their sends
// that wait, the tasks that are ready, and the shared words.
void print_trace(const Found &found, const Scenario &job) {
    for (const auto &[stepped, state] : found.trace) {
        std::printf("  worker %d:", stepped);
        for (int number = 0; number < job.workers; number++) {
            const Worker &worker = state.workers[number];
            std::string task = worker.task == NONE ? "" : " " + std::to_string(worker.task);
            std::printf(" %s%s%s", number ? "| " : "", text_of(worker.step).name, task.c_str());
            if (worker.slot != NONE) std::printf(" (keeps %d)", worker.slot);
            for (int edge = 0; worker.waiting >> edge; edge++)
                if (worker.waiting >> edge & 1) std::printf(" (%d waits)", job.edges[worker.task][edge]);
        }
        std::printf("; ready %s, live %d, halt %d", set_text(state.ready).c_str(), state.live, state.halt);
        std::printf(", waiters %d, turns", state.waiters);
        for (int shard = 0; shard < job.shards; shard++) std::printf(" %d", state.turn[shard]);
        std::printf("\n");
    }
}

void print_faults(const Found &found, const Scenario &job) {
    std::printf("  %zu hangs, %zu wrong ends, %zu unwatched", found.hangs, found.wrong_ends, found.unwatched);
    std::printf("; a shortest run to one, with the worker that steps and where all are then:\n");
    print_trace(found, job);
}

// Searches the scenarios with the right protocol. Returns how many have a fault.
int search_scenarios(bool quick) {
    int searched = 0, faulty = 0, left_out = 0;
    std::size_t states = 0;
    for (const Scenario &job : all_scenarios()) {
        if (quick && is_large(job)) {
            left_out++;
            continue;
        }
        Found found = search(job, Variant());
        std::printf("%s: %zu states, %zu hangs\n", job.name.c_str(), found.states, found.hangs);
        if (!found.is_good()) print_faults(found, job);
        std::fflush(stdout);
        searched++;
        states += found.states;
        faulty += !found.is_good();
    }
    std::printf("the right protocol: %d scenarios, %zu states", searched, states);
    std::printf(", %d scenarios with a hang or another fault", faulty);
    if (left_out) std::printf("; --quick left out %d scenarios", left_out);
    std::printf("\n");
    return faulty;
}

const Scenario &scenario_of(const std::vector<Scenario> &all, const std::string &name) {
    for (const Scenario &it : all)
        if (it.name == name) return it;
    std::fprintf(stderr, "sleeping: there is no scenario %s\n", name.c_str());
    std::exit(2);
}

// The scenarios that hang with a variant. In a quick search, the first one, of those with two workers.
std::vector<std::string> hanging(const WrongVariant &it, const std::vector<Scenario> &all, bool quick) {
    std::vector<std::string> names;
    for (const std::string &name : scenarios_of_variants()) {
        const Scenario &job = scenario_of(all, name);
        if (quick && (job.workers > 2 || !names.empty())) continue;
        if (search(job, it.variant()).hangs) names.push_back(name);
    }
    return names;
}

std::string joined(const std::vector<std::string> &names) {
    std::string text;
    for (const std::string &it : names) text += (text.empty() ? "" : ", ") + it;
    return text;
}

// Tries each wrong variant. Returns how many do otherwise than is known.
int try_variants(bool quick) {
    const std::vector<Scenario> all = all_scenarios();
    int hang = 0, surprises = 0, count = 0;
    for (const WrongVariant &it : all_variants()) {
        std::vector<std::string> names = hanging(it, all, quick);
        bool as_known = it.must_hang != names.empty();
        bool hangs_in_all = names.size() == scenarios_of_variants().size();
        std::string where = hangs_in_all ? "all " + std::to_string(names.size()) + " scenarios" : joined(names);
        std::string what = names.empty() ? "no scenario hangs" : "hangs in " + where;
        std::printf("%s: %s; %s\n", it.name, what.c_str(), as_known ? "as is known" : "THIS IS NEW");
        std::fflush(stdout);
        count++;
        hang += !names.empty();
        surprises += !as_known;
    }
    std::printf("wrong variants: %d of %d hang, %d do otherwise than is known", hang, count, surprises);
    std::printf("%s\n", quick ? "; --quick tried them with two workers, up to a hang" : "");
    return surprises;
}

int print_one_trace(const std::string &scenario, const std::string &variant) {
    const std::vector<Scenario> all = all_scenarios();
    const Scenario &job = scenario_of(all, scenario);
    Variant wrong;
    bool is_there = variant.empty();
    for (const WrongVariant &it : all_variants())
        if (it.name == variant) {
            wrong = it.variant();
            is_there = true;
        }
    if (!is_there) {
        std::fprintf(stderr, "sleeping: there is no variant %s\n", variant.c_str());
        return 2;
    }
    Found found = search(job, wrong);
    std::printf("%s: %zu states, %zu hangs\n", job.name.c_str(), found.states, found.hangs);
    if (!found.is_good()) print_faults(found, job);
    return 0;
}

// A line for each place of the sources: the step, the file, the function and the call, with tabs between.
int print_steps() {
    for (const StepText &it : STEPS)
        for (const Place &place : it.places)
            std::printf("%s\t%s\t%s\t%s\n", it.name, place.file, place.function, place.call);
    return 0;
}

int main(int count, char **words) {
    static_assert(sizeof STEPS / sizeof *STEPS == static_cast<int>(Step::Count), "each step has a text");
    for (const StepText &it : STEPS)
        if (&it != &text_of(it.step)) return 2;
    std::vector<std::string> given(words + 1, words + count);
    if (given == std::vector<std::string>{"--steps"}) return print_steps();
    if (given.size() == 2 && given[0] == "--trace") return print_one_trace(given[1], "");
    if (given.size() == 3 && given[0] == "--trace") return print_one_trace(given[1], given[2]);
    bool quick = given == std::vector<std::string>{"--quick"};
    if (!quick && !given.empty()) {
        std::fprintf(stderr, "sleeping: the arguments are wrong; the top of sleeping.cpp says how it is used\n");
        return 2;
    }
    int faults = search_scenarios(quick);
    faults += try_variants(quick);
    return faults ? 1 : 0;
}
